#!/usr/bin/env bash
# Settles a second of proved sessions, beside a plain Rust program of the same job, on kept models of the gallery. Needs rustc and a built
# synth. Prints one table; run it on an idle machine. Not part of the gate.
#
#     bench/settle.sh [SETTLES]
set -eu
cd "$(dirname "$0")/.."
synth=${SYNTH:-crates/synth/out/synth}
kit=$(dirname "$(rt doc)")
mkdir -p target
(cd crates/measured_c && rt lib) > target/staticlib.log 2>&1 || { tail -5 target/staticlib.log; exit 1; }
cp crates/measured_c/out/libmeasured_c.a target/libmeasured.a
rustc --edition 2024 -O -o target/bench-settle bench/settle.rs \
    -L native=target -L native="$kit/c" -l static=measured -l static=os_c -l static=libc_c
arguments=()
for name in one-window hand-over queue-long windows-revoked arbiter; do
    "$synth" < "models/$name.aag" > "target/$name.rows"
    arguments+=("models/$name.aag" "target/$name.rows")
done
exec target/bench-settle "${1:-1000000}" "${arguments[@]}"
