#!/usr/bin/env bash
# Runs synth on every model of the gallery, and on the files and folders given, and has the brute force check what it prints: one line for
# each, and exit status 1 if any is wrong. Needs rustc and a built synth. Not part of the gate.
#
#     bench/check_synth.sh [FILE or FOLDER]...        SYNTH=PROGRAM to check another program than crates/synth/out/synth
set -u
top=$(cd "$(dirname "$0")/.." && pwd)
synth=${SYNTH:-$top/crates/synth/out/synth}
[ -x "$synth" ] || { echo "no program $synth"; exit 2; }
mkdir -p "$top/target"
rustc --edition 2024 -O -o "$top/target/brute" "$top/bench/brute.rs" || exit 2
output=$(mktemp)
trap 'rm -f "$output"' EXIT
right=0 wrong=0 unchecked=0

count() {
    case $1 in
        0) right=$((right + 1)) ;;
        2) unchecked=$((unchecked + 1)) ;;
        *) wrong=$((wrong + 1)) ;;
    esac
}

check() {
    "$synth" < "$1" > "$output"
    "$top/target/brute" --check "$1" < "$output"
}

# What a model of the gallery says of itself: its verdict, and what synth prints.
check_comment() {
    local says
    says=$(sed -n 's/^Verdict: //p' "$1")
    [ "$says: $1" = "$("$top/target/brute" "$1")" ] || { echo "wrong $1: its comment says: $says"; return 1; }
    sed '1,/^synth prints:$/d' "$1" | cmp -s - "$output" || { echo "wrong $1: its comment has something else than what is printed"; return 1; }
}

for model in "$top"/models/*.aag; do
    check "$model" && check_comment "$model"
    count $?
done
for given in "$@"; do
    if [ -d "$given" ]; then models=("$given"/*.aag); else models=("$given"); fi
    for model in "${models[@]}"; do
        check "$model"
        count $?
    done
done
echo "$right right, $wrong wrong, $unchecked with too many steps to check"
[ "$wrong" = 0 ]
