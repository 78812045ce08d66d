#!/usr/bin/env python3
"""Times `synth` on the gallery and on growing families of hosts, beside the same run in plain Rust, and prints one table.

usage: python3 bench/synth.py [--times N] [--limit SECONDS] [--synth PROGRAM]        at the repository's top, after synth is built
       python3 bench/synth.py --write FOLDER                                        only writes the families' files, for check_synth.sh

Needs rustc. Each program gets each model N times; the figures are medians of processor time in milliseconds, of which a start takes one
or two. A run over the limit is given up and shown as `over`. The two programs ought to print the same; where they do not, the verdict has a
star. Not part of the gate.
"""
import argparse
import glob
import os
import resource
import statistics
import subprocess
import sys

TOP = os.path.dirname(os.path.dirname(os.path.abspath(__file__)))
sys.path.insert(0, os.path.join(TOP, "models"))
import hosts

# Name, and the host by size. What grows is in the name.
FAMILIES = [
    *[(f"queue of {n} bits", hosts.queue(n, 1 << (n - 1))) for n in (4, 6, 8, 10, 12, 14)],
    *[(f"two queues of {n} bits", hosts.two_queues(n, True)) for n in (2, 3, 4, 5, 6)],
    *[(f"windows {p} x {w}", hosts.shared_windows(p, w)) for p, w in ((2, 2), (2, 4), (2, 6), (2, 8), (3, 2), (3, 4), (3, 5), (4, 2), (4, 4))],
    *[(f"{n} watchdogs", hosts.watchdogs(n, 2 * n - 1)) for n in (1, 2, 3)],
    *[(f"arbiter of {n}", hosts.arbiter(n, n - 1)) for n in (2, 3, 4, 5)],
    *[(f"stack of {n} frames", hosts.calls(n, n // 2)) for n in (3, 7, 11, 15)],
    *[(f"budget of {n} bits", hosts.budget(4, n)) for n in (3, 5, 7, 9)],
]


def run(program, text, limit):
    """Milliseconds and what is printed; nothing where the limit is reached."""
    before = resource.getrusage(resource.RUSAGE_CHILDREN)
    try:
        out = subprocess.run([program], input=text, capture_output=True, timeout=limit).stdout.decode()
    except subprocess.TimeoutExpired:
        return 1000.0 * limit, None
    after = resource.getrusage(resource.RUSAGE_CHILDREN)
    return 1000 * (after.ru_utime - before.ru_utime + after.ru_stime - before.ru_stime), out


def median(program, text, times, limit):
    runs = [run(program, text, limit)]
    while runs[0][1] is not None and len(runs) < times:
        runs.append(run(program, text, limit))
    return statistics.median(t for t, _ in runs), runs[0][1]


def shown(time, out):
    return "over" if out is None else f"{time:.1f}"


def write(folder):
    os.makedirs(folder, exist_ok=True)
    for name, circuit in FAMILIES:
        with open(os.path.join(folder, name.replace(" ", "-") + ".aag"), "w") as f:
            f.write(circuit.text())


def main():
    p = argparse.ArgumentParser()
    p.add_argument("--times", type=int, default=5)
    p.add_argument("--limit", type=int, default=60, help="seconds for one run")
    p.add_argument("--synth", default=os.path.join(TOP, "crates/synth/out/synth"))
    p.add_argument("--write", metavar="FOLDER", help="only write the families' files there")
    asked = p.parse_args()
    if asked.write:
        return write(asked.write)
    plain = os.path.join(TOP, "target/plain-synth")
    subprocess.run(["rustc", "--edition", "2024", "-O", "-o", plain, os.path.join(TOP, "bench/synth.rs")], check=True)
    models = [(os.path.basename(f), open(f, "rb").read()) for f in sorted(glob.glob(os.path.join(TOP, "models/*.aag")))]
    models += [(name, circuit.text().encode()) for name, circuit in FAMILIES]
    print("| model | latches | gates | verdict | rows | synth | plain Rust | synth / plain |")
    print("|---|---|---|---|---|---|---|---|")
    for name, text in models:
        _, _, _, latches, _, gates = text.split(b"\n", 1)[0].decode().split()
        time, out = median(asked.synth, text, asked.times, asked.limit)
        plain_time, plain_out = median(plain, text, asked.times, asked.limit)
        head = (out or "none").split("\n")[0].split()
        verdict = " ".join(head[:2]) if head[0] == "refused" else head[0]
        rows = head[1] if head[0] in ("kept", "lost") else ""
        star = "*" if None not in (out, plain_out) and out != plain_out else ""
        ratio = f"{time / plain_time:.2f}" if None not in (out, plain_out) and plain_time > 0 else ""
        print(f"| {name} | {latches} | {gates} | {verdict}{star} | {rows} | {shown(time, out)} | {shown(plain_time, plain_out)} | {ratio} |", flush=True)


if __name__ == "__main__":
    main()
