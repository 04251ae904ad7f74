#!/usr/bin/env python3
"""The figures of docs/SPEED.md from what run.sh left in a folder. usage: tables.py FOLDER [PAGE]

Prints every block of figures under its name, or, with a page, writes each into it between the lines `<!-- figures: NAME -->` and `<!-- end -->`.
Ratios are ours by theirs.
"""
import collections, pathlib, re, sys
from callgrind import Counts

FOLDER = pathlib.Path(sys.argv[1])
REQUESTS = ["ring write 0x05", "parameter read 0x00", "set key 0x02", "recover key 0x04"]
RECORD, STRUCT = ["byte box, record", "best, record"], ["byte box, struct", "best, struct"]
# What a function belongs to: the first whose pattern its name matches from the start
PARTS = {
    "compression": r"compression::|main::plain::sha256::compress",
    "AES": r"(cipher|rounds|full_rounds|steps|key_schedule|inverse_keys|substitution|columns|column_tables|words)::|primitives::(encrypt|decrypt)|main::plain::aes|<main::plain::forms.*crypt$|core::array",
    "rest of the hash": r"(hash|hmac|padding|message_blocks|message_schedule)::|primitives::|main::plain::sha256|<?main::plain::forms",
    "record": r"stored::|record_|main::plain::record|main::plain::(on|read_on|write_on)_record",
    "well-formedness": r"well_formed::|tables::|nonces::|octets::all_zero|main::plain::unit::Unit::well_formed",
    "copies": r"_*mem(cpy|set|cmp|move)",
}
REST = "the calls themselves"
# Name, the most that a ratio should be, the series by the start of their names, and the program that ours is divided by
GOALS = [
    ("a request, of the byte box over the same record", 1.0, REQUESTS, "byte box, record"),
    ("a request, of the best program over the same record", 1.15, REQUESTS, "best, record"),
    ("SHA-256, of plain Rust", 1.0, ["SHA-256"], "rust"),
    ("SHA-256, of mbedTLS", 1.0, ["SHA-256"], "mbedtls"),
    ("AES-128 each way, of Rust with tables", 1.3, ["AES-128"], "tables"),
]


def rows(name):
    return [line.rstrip("\n").split("\t") for line in open(FOLDER / name)]


def table(head, lines):
    return "\n".join("| " + " | ".join(line) + " |" for line in [head] + lines).replace("\n", "\n|" + "---|" * len(head) + "\n", 1) + "\n"


def part(function):
    return next((name for name, pattern in PARTS.items() if re.match(pattern, function)), REST)


def times():
    """Nanoseconds by series and program, and the checksums by series."""
    ns, sums = collections.defaultdict(dict), {}
    for series, program, value in rows("time.txt"):
        if program == "checksum":
            sums[series] = value
        else:
            ns[series][program] = float(value)
    return ns, sums


def counts():
    """What callgrind counted, by series and program, with the number of calls."""
    names, found = {}, collections.defaultdict(dict)
    for n, (series, program, calls) in enumerate(rows("counts/series.txt"), 1):
        found[series][program] = (Counts(FOLDER / f"counts/out.{n}", names), int(calls))
    return found


def ratio(values, program):
    return values["ours"] / values[program]


def ratios(values, starts, programs):
    """All ratios of the series that begin so, from the least."""
    return sorted(ratio(values[s], p) for s in values if s.startswith(tuple(starts)) for p in programs if p in values[s])


def between(found):
    low, high = f"{found[0]:.2f}", f"{found[-1]:.2f}"
    return low if low == high else f"{low} to {high}"


def beside(values, program, form):
    """A program's figure, and in brackets our ratio to it."""
    return f"{form(values[program])} ({ratio(values, program):.2f})" if program in values else ""


def headline(ns):
    byte_box, best, own = (ratios(ns, REQUESTS, p) for p in (RECORD[:1], RECORD[1:], STRUCT))
    over = [s for s in ns if s.startswith(tuple(REQUESTS)) and any(ratio(ns[s], p) > 2 for p in RECORD)]
    within = f"we are not for: {'; '.join(over)}" if over else "we are, on every request measured, also beside its fastest form"
    return f"""The client asks to be within twice the time of a Rust program without proofs. Over the same record of bytes {within}:
we take {between(byte_box)} times its time with plain HMAC and byte-wise AES, and {between(best)} times with all that makes it fast.
Where it keeps a struct of its own, which it neither judges nor copies, we take {between(own)} times its time.
"""


def requests(ns, instructions, sums):
    titles = (("us", ns, lambda v: f"{v / 1000:.2f}"), ("instructions", instructions, lambda v: f"{v:,.0f}"))
    others = [p for p in ns[next(iter(sums))] if p != "ours"]
    return "\n".join(
        table([f"{title}, a nonce read and the write", "ours"] + others, [[s, form(values[s]["ours"])] + [beside(values[s], p, form) for p in others] for s in sums])
        for title, values, form in titles
    )


def answers(sums):
    head = ["keys held", "pairs of a read and a write, every ID, right and damaged", "writes served", "checksum, the same from all programs"]
    compared = table(head, [[keys, f"{int(pairs):,}", f"{int(served):,}", sum] for keys, pairs, served, sum in rows("agree.txt")])
    return compared + "\n" + table(["measured pairs", "checksum over all answers and the last record, the same from all programs"], [list(s) for s in sums.items()])


def primitives(ns, instructions, done):
    columns = ["rust", "unrolled", "bytes", "tables", "mbedtls", "openssl"]
    lines = []
    for s in ns:
        if s in done:
            continue
        for title, values, form in (("us", ns[s], lambda v: f"{v / 1000:.3f}"), ("instructions", instructions[s], lambda v: f"{v:,.0f}")):
            lines.append([f"{s}, {title}", form(values["ours"])] + [beside(values, p, form) for p in columns])
    return table(["", "ours", "plain Rust", "Rust, unrolled", "Rust, byte box", "Rust, tables", "mbedTLS", "OpenSSL"], lines)


def by_part(count, calls):
    sums = collections.Counter()
    for function, own in count.own.items():
        sums[part(function)] += own / calls
    return sums


def parts(counted):
    """Compressions are straight code: 64 bytes take two, which gives the instructions of one and so their number."""
    names = list(PARTS) + [REST]
    one = {p: by_part(*counted["SHA-256, 64 bytes"][p])["compression"] / 2 for p in ("ours", "rust", "unrolled")}
    lines = []
    for request in REQUESTS:
        for program, hash in (("ours", "ours"), ("byte box, record", "rust"), ("best, record", "unrolled")):
            count, calls = counted[f"{request}, 1 key"][program]
            sums = by_part(count, calls)
            compressions = sums["compression"] / one[hash]
            lines.append([f"{request}, {program}", f"{count.total / calls:,.0f}", f"{compressions:.0f}"] + [f"{sums[n]:,.0f}" for n in names])
    return table(["instructions, one key", "all", "compressions, number"] + names, lines)


def goals(ns, instructions):
    lines = []
    for name, most, starts, program in GOALS:
        by_time, by_count = (ratios(values, starts, [program]) for values in (ns, instructions))
        lines.append([name, f"{most:.2f}", between(by_time), between(by_count), "yes" if by_time[-1] <= most + 0.005 else "no"])
    return table(["", "at most", "by time", "by instructions", "met, by time"], lines)


def growth(counted):
    lines = []
    for series, programs in counted.items():
        if "ours" in programs:
            continue
        by_count = collections.defaultdict(list)
        for n, (count, _) in programs.items():
            by_count[count.total].append(int(n))
        lines.append([series, "; ".join(f"{total:,} for {', '.join(f'{n:,}' for n in ns)}" for total, ns in by_count.items())])
    return table(["", "instructions, by tenths or by bytes"], lines)


def sizes():
    symbols = [line.split() for line in open(FOLDER / "symbols.txt")]
    largest = [(int(s[1], 16), s[3]) for s in symbols if len(s) == 4 and s[2] in "tT"][-8:]
    text = open(FOLDER / "size.txt").read().split("\n")[-2].split()
    lines = [["code and constants, bytes", f"{int(text[0]):,}"], ["data, bytes", f"{int(text[1]) + int(text[2]):,}"]]
    lines += [[f"of it `{name}`", f"{size:,}"] for size, name in reversed(largest)]
    stack = re.finditer(r"^(tag_.*?)  +(\d+) bytes", open(FOLDER / "stack.txt").read(), re.M)
    return table(["libfirmware.a, x86-64", ""], lines) + "\n" + table(["stack, bytes", ""], [[f"`{m[1].strip()}`", f"{int(m[2]):,}"] for m in stack])


def blocks():
    ns, sums = times()
    counted = counts()
    instructions = {s: {p: c.total / n for p, (c, n) in programs.items()} for s, programs in counted.items()}
    return {
        "machine": "Measured on: " + ", ".join(line.strip() for line in open(FOLDER / "machine.txt")) + ".\n",
        "headline": headline(ns),
        "goals": goals(ns, instructions),
        "answers": answers(sums),
        "requests": requests(ns, instructions, sums),
        "parts": parts(counted),
        "primitives": primitives(ns, instructions, sums),
        "growth": growth(counted),
        "sizes": sizes(),
    }


def main():
    found = blocks()
    if len(sys.argv) < 3:
        print("\n".join(f"{name}\n\n{text}" for name, text in found.items()))
        return
    page = pathlib.Path(sys.argv[2])
    text = page.read_text()
    for name, figures in found.items():
        mark = f"<!-- figures: {name} -->\n"
        if mark not in text:
            sys.exit(f"{page} has no figures: {name}")
        text = re.sub(re.escape(mark) + r".*?(?=<!-- end -->)", lambda _: mark + figures, text, flags=re.S)
    page.write_text(text)


main()
