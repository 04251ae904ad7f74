#!/usr/bin/env python3
"""Checks that include/tag.h and the definitions name the same sizes, places, refusals and statuses, no fewer and no more.

A size has the definition's name (nonce_size is TAG_NONCE_SIZE). A place has the names of the field that the innermost group stands for and of the field in it
(TAG_NONCES_LIVE_AT), or of the field alone where it stands in the unit itself or is a group's only one (TAG_CONSENT_AT, TAG_PROTECTION_AT).
The numbers that a table of docs/INTEGRATION.md gives for constants, and those of the host in Rust, are held to the header too.
"""
import pathlib
import re
import sys

ROOT = pathlib.Path(__file__).resolve().parent.parent
SIZES = "crates/sizes/specs/Sizes.antt"
PARTS = ["crates/record_fields/specs/Kinds.antt", "crates/record_parts/specs/Groups.antt", "crates/stored/specs/Record.antt"]
KINDS = {"byte": "byte_size", "flag": "byte_size", "power": "power_size"}


def read(path):
    return (ROOT / path).read_text()


def header_name(name):
    return "TAG_" + re.sub(r"(?<!^)([A-Z])", r"_\1", name).upper()


def numbers(text):
    """The definitions of a file that are sums, differences, products and powers of numbers and of each other, by name."""
    found = {}
    for name, value in re.findall(r"^(\w+) =\s+((?:[\w+*^ -]|\n    )+)$", text, re.M):
        found[name] = " ".join(value.split()).replace("^", "**")
    return found


def value(expression, names):
    """What an expression over numbers and names is worth."""
    inside = lambda m: m[0] if m[0][0].isdigit() else str(value(names[m[0]], names))
    return eval(re.sub(r"\w+", inside, expression))


def fields(group, text):
    """The fields of a group in order: part and name."""
    table = re.search(rf"^{group}_fields =\n((?:    .*\n)+)", text, re.M)[1]
    found = []
    for part, name in re.findall(r"^    then (.*?) of (.*)$", table, re.M):
        name = re.sub(r"^\(λ \w+\. \w+\.|[«»)]", "", name)
        found.append((part, name.removeprefix(f"{group}_")))
    return found


def places(group, called, at, text, sizes):
    """Where the fields of a group that is called so and starts at a place stand; and where it ends."""
    found, own = {}, fields(group, text)
    for part, name in own:
        if part.startswith("whole "):
            inner, at = places(part.split()[1].removesuffix("_fields"), name, at, text, sizes)
            found.update(inner)
            continue
        alone = group == "unit" or len(own) == 1
        label = (name if group == "unit" else called) if alone else f"{called}_{name}"
        found[header_name(label) + "_AT"] = at
        kind = part.split()
        at += value(KINDS.get(kind[0]) or kind[1], sizes)
    return found, at


def main():
    sizes = numbers(read(SIZES))
    public = [n for n in sizes if n.endswith("_size") or n in ("answer_room", "most_keys", "most_nonces")]
    text = "".join(map(read, PARTS))
    everything = {**sizes, **numbers(text)}
    wanted = {header_name(n): value(n, everything) for n in [*public, "record_size", "version"]}
    found, end = places("unit", "unit", value("byte_size", everything), text, everything)
    assert end == wanted["TAG_RECORD_SIZE"]
    wanted.update(found, TAG_VERSION_AT=0)
    exported = numbers(read("crates/exports/specs/Exported.antt"))
    wanted.update((header_name(n), value(n, exported)) for n in exported)
    parts = numbers(read("crates/desk/specs/Exported.antt"))
    wanted.update((header_name(n), value(n, {**sizes, **parts})) for n in parts)
    wanted["TAG_WRONG_BYTE"] = int(numbers(read("crates/frame_reader/specs/Reader.antt"))["wrong_byte"])
    calls = read("crates/lent_answer/specs/Ends.antt")
    wanted["TAG_LONGEST_MESSAGE"] = value("longest_message", sizes)
    wanted["TAG_WRONG_SIZE"] = int(re.search(r"^end_number \(Err size\) = (\d+)$", calls, re.M)[1])
    for name, n in re.findall(r"^refusal_number (\w+) = (0x[0-9a-fA-F]+|\d+)$", read("crates/unit/specs/Refusals.antt"), re.M):
        wanted[header_name(name)] = int(n, 0)
    for name, n in re.findall(r"^(started|failed|timed_out|by_button|by_request) = (\d+)$", read("crates/wire/specs/Signing.antt"), re.M):
        wanted[header_name("ring_" + name)] = int(n)
    macros = dict(re.findall(r"^#define (TAG_\w+) (\([^/\n]*\)|\w+)", read("include/tag.h"), re.M))
    header = {n: value(n, macros) for n in macros}
    differing = sorted(n for n in wanted.keys() | header.keys() if wanted.get(n) != header.get(n))
    for name in differing:
        print(f"{name}: the definitions say {wanted.get(name)}, the header says {header.get(name)}")
    told = [("docs/INTEGRATION.md", name, n) for name, n in re.findall(r"^\| `(TAG_\w+)` \| (\d+) \|", read("docs/INTEGRATION.md"), re.M)]
    rust = "examples/host_rust/main.rs"
    told += [(rust, "TAG_" + name, n) for name, n in re.findall(r"^const (\w+): usize = (\d+);", read(rust), re.M)]
    wrong = [(where, name, n) for where, name, n in told if header.get(name) != int(n)]
    for where, name, n in wrong:
        print(f"{name}: {where} says {n}, the header says {header.get(name)}")
    if differing or wrong:
        sys.exit(1)
    print(f"layout: {len(wanted)} constants agree, {len(told)} numbers in docs/INTEGRATION.md and the host in Rust too")


main()
