#!/usr/bin/env python3
"""Turns the module's text to another machine. Usage: retarget.py MODULE.ll EMPTY.ll [optsize]

EMPTY.ll is what clang makes of an empty C function for the new machine: its data layout, its triple and the CPU attributes of its function take the
place of the module's own, and `optsize` is added to its functions where asked for. Nothing else of the text changes. Prints the new text; ends
with status 1 where the module has attributes that are not known here."""
import re
import sys

# What the x86-64 functions have: the request for stack probes is dropped, for this back end has none for these CPUs.
FUNCTION = re.compile(r'attributes #\d+ = \{ nounwind "probe-stack"="inline-asm" "stack-probe-size"="\d+" "target-cpu"="x86-64(?:-v2)?" \}$')
# What the copies and fills have, which stay.
INTRINSIC = re.compile(r"attributes #\d+ = \{ nocallback nofree nounwind willreturn memory\(argmem: (?:readwrite|write)\) \}$")
CPU = re.compile(r'"(?:target-cpu|target-features|use-soft-float)"="[^"]*"')


def turned(line, empty, words):
    if line.startswith("target datalayout = "):
        if not line.startswith('target datalayout = "e-'):
            raise ValueError(f"not little-endian: {line}")
        return next(one for one in empty if one.startswith('target datalayout = "e-'))
    if line.startswith("target triple = "):
        return next(one for one in empty if one.startswith("target triple = "))
    if line.startswith("attributes #"):
        if FUNCTION.match(line):
            cpu = CPU.findall(next(one for one in empty if one.startswith("attributes #0 = ")))
            return line[: line.index("{")] + " ".join(["{ nounwind", *words, *cpu, "}"])
        if not INTRINSIC.match(line):
            raise ValueError(f"attributes that are not known: {line}")
    return line


def main():
    with open(sys.argv[1]) as module, open(sys.argv[2]) as other:
        empty = other.read().splitlines()
        try:
            lines = [turned(line, empty, sys.argv[3:]) for line in module.read().splitlines()]
        except ValueError as why:
            sys.exit(f"retarget: {why}")
    print("\n".join(lines))


if __name__ == "__main__":
    main()
