#!/usr/bin/env python3
"""Compares the proved multiples of the base points of secp160r1 and secp256r1 with OpenSSL's.

usage: compare.py PROGRAM [COUNT [SEED]]

PROGRAM is the built curve_vectors (target/bin/curve_vectors): a line `curve number` in, two lines r= and x= out. Curve 2 takes the number for r'
of an identifier on secp160r1: r is cut to its 20 lowest bytes, and one line `none` stands where r is 0. COUNT is the number of random 256-bit
numbers on each curve beyond the fixed ones (default 10000). OpenSSL is its library libcrypto; r is Python's remainder.
Prints counts, and the first difference; exit status 1 on a difference.
"""
import pathlib, random, subprocess, sys, tempfile, time

from openssl import Curve

PROGRAM = pathlib.Path(sys.argv[1])
COUNT = int(sys.argv[2]) if len(sys.argv) > 2 else 10000
SEED = int(sys.argv[3]) if len(sys.argv) > 3 else 7


def answer(curve, number):
    """The words that the program prints."""
    r = number % curve.order
    if curve.digit == 2 and r == 0:
        return ["none"]
    r_size = curve.size if curve.digit == 2 else 32
    return [f"r={r % 256**r_size:0{2 * r_size}x}", f"x={curve.times_base(r):0{2 * curve.size}x}"]


def main():
    rng = random.Random(SEED)
    for curve in (Curve(0, "secp160r1", 20), Curve(1, "prime256v1", 32), Curve(2, "secp160r1", 20)):
        n = curve.order
        fixed = [0, 1, 2, 3, n - 2, n - 1, n, n + 1, n + 2, 2 * n % 2**256, 2**160 - 1, 2**160, 2**161 - 1, 2**255, 2**256 - 1]
        fixed += [2**k for k in range(256)] + [2**k - 1 for k in range(256)]
        numbers = fixed + [rng.getrandbits(256) for _ in range(COUNT)]
        with tempfile.TemporaryDirectory() as folder:
            path = pathlib.Path(folder, "numbers")
            path.write_bytes(b"".join(b"%d %064x\n" % (curve.digit, number) for number in numbers))
            start = time.perf_counter()
            with path.open("rb") as lines:
                out = subprocess.run([str(PROGRAM)], stdin=lines, capture_output=True, check=True).stdout.decode().split()
            seconds = time.perf_counter() - start
        words = iter(out)
        for number in numbers:
            want = answer(curve, number)
            got = [next(words, None) for _ in want]
            if got != want:
                sys.exit(f"DIFFERENCE on {curve.name} ({curve.digit}) at {number:064x}\n got {got}\n want {want}")
        if next(words, None) is not None:
            sys.exit(f"{curve.name}: more lines than for {len(numbers)} numbers")
        print(f"{curve.name}: {len(numbers)} numbers, {len(fixed)} of them fixed, all the same; {1000 * seconds / len(numbers):.3f} ms each")


main()
