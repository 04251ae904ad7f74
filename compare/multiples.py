#!/usr/bin/env python3
"""Reads the curves and the published multiples from crates/curve_laws/specs and computes each multiple again, by SEC 1's rules in Python."""
import pathlib
import re
import sys

SPECS = pathlib.Path(__file__).resolve().parent.parent / "crates/curve_laws/specs"
NUMBER = r"(0x[0-9A-F_]+|[0-9_]+)"


def read(name):
    return re.sub(r"--.*", "", (SPECS / name).read_text())


def curve(name):
    body = re.search(name + r" =\s*record \{(.*?)\}", read("Curves.antt"), re.S).group(1)
    fields = {k: int(v, 0) for k, v in re.findall(r"\b(bits|p|a|b|n) = " + NUMBER, body)}
    fields["G"] = tuple(int(v, 0) for v in re.search(rf"at {NUMBER}\s+{NUMBER}", body).groups())
    return fields


def add(c, P, Q):
    if P is None or Q is None:
        return Q if P is None else P
    if P[0] == Q[0] and (P[1] + Q[1]) % c["p"] == 0:
        return None
    if P == Q:
        slope = (3 * P[0] ** 2 + c["a"]) * pow(2 * P[1], -1, c["p"])
    else:
        slope = (Q[1] - P[1]) * pow(Q[0] - P[0], -1, c["p"])
    x = (slope**2 - P[0] - Q[0]) % c["p"]
    return x, (slope * (P[0] - x) - P[1]) % c["p"]


def times(c, r, P):
    total = None
    for bit in bin(r)[2:]:
        total = add(c, total, total)
        total = add(c, total, P) if bit == "1" else total
    return total


def main():
    bad = 0
    for name, table in (("SECP160R1", "table160"), ("SECP256R1", "table256")):
        c = curve(name)
        x, y = c["G"]
        good = c["p"].bit_length() == c["bits"] and (y * y - x**3 - c["a"] * x - c["b"]) % c["p"] == 0 and times(c, c["n"], c["G"]) is None
        print(name, "parameters", "good" if good else "WRONG")
        bad += not good
        body = re.search(table + r" =(.*?)∷ \[\]", read("Published.antt"), re.S).group(1)
        for r, x, y in re.findall(rf"row {NUMBER}\s+{NUMBER}\s+{NUMBER}", body):
            good = times(c, int(r, 0), c["G"]) == (int(x, 0), int(y, 0))
            print(name, r, "good" if good else "WRONG")
            bad += not good
    sys.exit(bad != 0)


main()
