#!/usr/bin/env python3
"""Writes small random models for check_synth.sh: python3 bench/random_models.py FOLDER COUNT [SEED]

Up to 7 latches, 3 event inputs, 3 answer inputs and 15 nodes, each an AND or an exclusive OR. Variables are numbered in any order, with gaps.
The output is an AND of three literals, one of them a latch's if there is one, so that bad steps are neither all nor none.
"""
import os
import random
import sys


def model(r):
    latches, sides = r.randint(0, 7), ["event"] * r.randint(0, 3) + ["answer"] * r.randint(0, 3)
    r.shuffle(sides)
    # Gates over numbered things: inputs, latches, gates, in this order; 0 and 1 are the constants.
    gates, first = [], 1 + len(sides) + latches
    literals = [2 * v for v in range(1, first)]

    def gate(a, b):
        gates.append((a, b))
        return 2 * (first + len(gates) - 1)

    def some(of):
        return (r.choice(of) if of and r.random() < 0.98 else 0) ^ r.randint(0, 1)

    for _ in range(r.randint(0, 15)):
        a, b = some(literals), some(literals)
        literals.append(gate(a, b) if r.random() < 0.4 else gate(gate(a, b) ^ 1, gate(a ^ 1, b ^ 1) ^ 1))
    bad = gate(gate(some(literals[len(sides):len(sides) + latches]), some(literals)), some(literals))
    nexts = [some(literals) for _ in range(latches)]
    # The same with other numbers.
    used = first - 1 + len(gates)
    maximum = used + r.choice([0, 0, 3])
    variables = [0] + r.sample(range(1, maximum + 1), used)
    of = lambda literal: 2 * variables[literal // 2] + literal % 2
    lines = [f"aag {maximum} {len(sides)} {latches} 1 {len(gates)}"]
    lines += [f"{of(2 * (1 + i))}" for i in range(len(sides))]
    lines += [f"{of(2 * (1 + len(sides) + j))} {of(n)}" for j, n in enumerate(nexts)]
    lines += [f"{of(bad)}"]
    lines += [f"{of(2 * (first + i))} {of(a)} {of(b)}" for i, (a, b) in enumerate(gates)]
    lines += [f"i{i} controllable_{i}" for i, side in enumerate(sides) if side == "answer"]
    return "\n".join(lines) + "\n"


def main():
    folder, count = sys.argv[1], int(sys.argv[2])
    seed = int(sys.argv[3]) if len(sys.argv) > 3 else 1
    os.makedirs(folder, exist_ok=True)
    for i in range(count):
        with open(os.path.join(folder, f"random-{seed}-{i}.aag"), "w") as f:
            f.write(model(random.Random(f"{seed} {i}")))


if __name__ == "__main__":
    main()
