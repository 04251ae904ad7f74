#!/usr/bin/env python3
"""Times programs that multiply base points, side by side on the same random numbers, and counts their instructions.

usage: speed.py COUNT PROGRAM... (the first is the one that the others are compared with; each reads and prints as curve_vectors does)

Milliseconds of processor time a multiple: the lowest of 7 rounds, in each of which every program runs once, so that other work on the machine
meets all alike. Instructions a multiple: valgrind's count over 21 numbers less that over the first of them, divided by 20. Both include
the reading and printing of a line. Ratios are the first program's figure by the other's. Exit status 1 if two programs print differently.
"""
import pathlib, random, re, resource, subprocess, sys

COUNT, PROGRAMS, ROUNDS = int(sys.argv[1]), sys.argv[2:], 7
COUNTER = ["valgrind", "--tool=cachegrind", "--cache-sim=no", "--cachegrind-out-file=/dev/null"]


def run(command, lines):
    """The seconds of processor time, and what the command wrote."""
    before = resource.getrusage(resource.RUSAGE_CHILDREN).ru_utime
    done = subprocess.run(command, input="".join(lines), capture_output=True, check=True, text=True)
    return resource.getrusage(resource.RUSAGE_CHILDREN).ru_utime - before, done


def instructions(program, lines):
    return int(re.search(r"I +refs: +([\d,]+)", run(COUNTER + [program], lines)[1].stderr)[1].replace(",", ""))


def main():
    rng = random.Random(3)
    for digit, curve in enumerate(("secp160r1", "secp256r1")):
        lines = [f"{digit} {rng.getrandbits(256):064x}\n" for _ in range(COUNT)]
        rounds = [[run([program], lines) for program in PROGRAMS] for _ in range(ROUNDS)]
        if len({done.stdout for results in rounds for _, done in results}) != 1:
            sys.exit(f"{curve}: the programs print differently")
        best = [1000 * min(seconds) / COUNT for seconds in zip(*([s for s, _ in results] for results in rounds))]
        counts = [(instructions(p, lines[:21]) - instructions(p, lines[:1])) / 20 for p in PROGRAMS]
        print(f"{curve}, {COUNT} multiples")
        for program, ms, count in zip(PROGRAMS, best, counts):
            name = pathlib.Path(program).name
            print(f"  {name:20} {ms:.3f} ms, ratio {best[0] / ms:.2f}; {count:,.0f} instructions, ratio {counts[0] / count:.2f}", flush=True)


main()
