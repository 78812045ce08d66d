#!/usr/bin/env bash
# Steps per second and megabytes read per second, beside a plain Rust program of the same job. Needs rustc.
# Prints one table; run it on an idle machine. Not part of the gate.
set -eu
cd "$(dirname "$0")/.."
kit=$(dirname "$(rt doc)")
mkdir -p target
(cd crates/measured_c && rt lib) > target/staticlib.log 2>&1 || { tail -5 target/staticlib.log; exit 1; }
cp crates/measured_c/out/libmeasured_c.a target/libmeasured.a
rustc --edition 2024 -O -o target/bench-step bench/step.rs \
    -L native=target -L native="$kit/c" -l static=measured -l static=os_c -l static=libc_c
exec target/bench-step "${1:-200000}"
