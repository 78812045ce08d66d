#!/usr/bin/env python3
"""Times `dimacs` beside the same algorithm in plain Rust and beside a learning solver, in one run.

usage: python3 bench/dimacs/run.py [--times N] [--limit SECONDS] [--dimacs PROGRAM]      at the repository's top, after `rt run` in `crates/dimacs`

Needs rustc, and minisat and picosat where they are to be compared (apt-get install minisat picosat). It makes random 3-SAT near the
threshold and clause forms of circuits, runs each program N times on each, and prints for each family the sum of the medians of user time, in
milliseconds, and the ratios; a run that reaches the limit counts as the limit. Times under about 2 ms are mostly the start of a process.
"""
import argparse, os, random, resource, statistics, subprocess, sys, tempfile

TOP = os.path.dirname(os.path.dirname(os.path.dirname(os.path.abspath(__file__))))


def random3(n, seed):
    r = random.Random(seed)
    return n, [[v if r.random() < 0.5 else -v for v in r.sample(range(1, n + 1), 3)] for _ in range(int(n * 4.26))]


def circuit(gates, seed):
    """AND gates in topological order over 24 inputs; two of the last are asked for a value."""
    r = random.Random(seed)
    n, clauses, wires = 24, [], list(range(1, 25))
    for _ in range(gates):
        a = r.choice(wires[-60:] if r.random() < 0.7 else wires) * r.choice([1, -1])
        b = r.choice(wires) * r.choice([1, -1])
        n += 1
        clauses += [[-n, a], [-n, b], [n, -a, -b]]
        wires.append(n)
    return n, clauses + [[(n - t) * r.choice([1, -1])] for t in range(2)]


def write(path, formula):
    n, clauses = formula
    with open(path, "w") as f:
        f.write(f"p cnf {n} {len(clauses)}\n")
        for c in clauses:
            f.write(" ".join(map(str, c)) + " 0\n")


def run(command, path, how, limit):
    """Milliseconds and the answer; no answer where the limit in seconds is reached."""
    before = resource.getrusage(resource.RUSAGE_CHILDREN)
    args = command + ([path] if how == "file" else [])
    try:
        out = subprocess.run(args, stdin=open(path) if how == "stdin" else subprocess.DEVNULL, capture_output=True, text=True, timeout=limit).stdout
    except subprocess.TimeoutExpired:
        return 1000.0 * limit, None
    after = resource.getrusage(resource.RUSAGE_CHILDREN)
    spent = after.ru_utime - before.ru_utime + after.ru_stime - before.ru_stime
    return 1000 * spent, "UNSAT" if "UNSAT" in out else "SAT" if "SAT" in out else "?"


def main():
    p = argparse.ArgumentParser()
    p.add_argument("--times", type=int, default=5)
    p.add_argument("--limit", type=int, default=20, help="seconds for one run")
    p.add_argument("--dimacs", default=os.path.join(TOP, "crates/dimacs/out/dimacs"))
    asked = p.parse_args()
    times = asked.times
    work = tempfile.mkdtemp()
    plain = os.path.join(work, "plain")
    subprocess.run(["rustc", "-O", "-o", plain, os.path.join(TOP, "bench/dimacs/plain.rs")], check=True)
    programs = [("dimacs", [asked.dimacs], "stdin"), ("plain", [plain], "stdin")]
    for name in ("minisat", "picosat"):
        if subprocess.run(["which", name], capture_output=True).returncode == 0:
            programs.append((name, [name], "file"))
    families = [(f"random 3-SAT, {n} variables", [random3(n, s) for s in range(10)]) for n in (20, 40, 60, 100)]
    families += [(f"circuit, {g} gates", [circuit(g, s) for s in range(8)]) for g in (200, 500, 1000, 1500)]
    print("| formulas | " + " | ".join(n for n, _, _ in programs) + " | dimacs / plain |")
    print("|---|" + "---|" * (len(programs) + 1))
    for label, formulas in families:
        sums = [0.0] * len(programs)
        late = [0] * len(programs)
        for k, formula in enumerate(formulas):
            path = os.path.join(work, f"{k}.cnf")
            write(path, formula)
            answers = set()
            for i, (_, command, how) in enumerate(programs):
                runs = [run(command, path, how, asked.limit)]
                if runs[0][1] is None:
                    late[i] += 1
                else:
                    runs += [run(command, path, how, asked.limit) for _ in range(times - 1)]
                    answers.add(runs[0][1])
                sums[i] += statistics.median(t for t, _ in runs)
            if len(answers) > 1:
                sys.exit(f"the answers differ on {label}, {k}: {answers}")
        print(f"| {label} | " + " | ".join(f"{s:.1f}" + (f" ({n} over the limit)" if n else "") for s, n in zip(sums, late)) + f" | {sums[0] / max(sums[1], 0.001):.2f} |")


main()
