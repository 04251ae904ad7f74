#!/usr/bin/env python3
"""Makes docs/TRACE.md: which definition, must-fail edit, theorem, session or document answers which sentence of the papers.

    python3 compare/trace.py                    fails unless everything holds and docs/TRACE.md is what this program would write
    python3 compare/trace.py --write            writes docs/TRACE.md
    python3 compare/trace.py --unmatched        also lists the quotations in crates/*/specs that are of no sentence of the list
    python3 compare/trace.py --papers FILE ..   also holds every sentence of the list against the papers, word for word

The sentences stand in docs/sentences.txt, whose head says how. What answers one is found in three ways: a must-fail edit whose first line
`# clause: SOURCE: "words"` quotes it; a comment in crates/*/specs that quotes it, and then the definitions below that comment up to the next one (the
whole file, for the comment at its head); and what the list says itself. It is an error
- if a sentence has no answer, or an answer names something that does not exist, or a theorem that nothing proves;
- if an edit's first line quotes nothing, or words of a paper that no sentence of the list has, or that a landed request superseded, or words of
  this repository that do not stand at the place named. Quotations of the standards are taken as they are;
- if a public call is not among the `public calls` of the list, has fewer than two edits, or asks something of its caller (`requires`), or if the archive's
  crate does not export each of the library's calls as it stands there;
- if docs/ACCEPTANCE.md does not have the letter's conditions word for word, if a page names an edit, a file or a definition of a crate that does not
  exist, or if README.md leaves a crate out.
"""
import pathlib
import re
import sys

from tracing.answers import answer, antt, cell, check_names
from tracing.quotations import EDITS, PAPER, match_clause, match_specs
from tracing.sentences import CALLS, ROOT, fail, failures, runs, sentences, words

OUTPUT = ROOT / "docs/TRACE.md"
PUBLIC = {
    "tag": r"^pub fn (\w+)",
    "hash_calls": r"^pub fn (\w+)",
    "cipher_calls": r"^pub fn (\w+)",
    "session_ends": r"^pub fn (\w+)",
    "replay": r"^pub fn (\w+)",
    "firmware": r'^pub extern "C" fn (\w+)',
}


def check_calls(listed):
    told = {s.text: s for s in listed if s.section == CALLS}
    there = set()
    for crate, pattern in PUBLIC.items():
        text = (ROOT / f"crates/{crate}/src/lib.rt").read_text()
        for call in re.finditer(pattern, text, re.M):
            there.add(f"{crate}::{call[1]}")
            if "requires" in text[call.start():text.index("\n{", call.start())]:
                fail(f"{crate}::{call[1]}: asks something of its caller")
    for name in sorted(there - told.keys()):
        fail(f"docs/sentences.txt: the public call {name} is not listed")
    for name in sorted(told.keys() - there):
        fail(f"docs/sentences.txt: there is no public call {name}")
    for name in sorted(there & told.keys()):
        if len(told[name].edits) < 2:
            fail(f"{name}: fewer than two edits")


def check_archive():
    """The archive's crate has the library's calls, no fewer and no more, each with the library's signature and clauses, under the library's imports of them."""
    parts = r'^ghost use .*?;|^#\[unsafe\(no_mangle\)\]\npub extern "C" fn .*?(?=\n\{)'
    library, archive = (set(re.findall(parts, (ROOT / f"crates/{crate}/src/lib.rt").read_text(), re.M | re.S)) for crate in ("firmware", "firmware_c"))
    for part in sorted(library ^ archive):
        fail(f"firmware and firmware_c differ in: {part}")


def check_documents(listed):
    """The letter's conditions stand in ACCEPTANCE.md word for word, and the edits and files of crates that the pages name exist."""
    acceptance = words((ROOT / "docs/ACCEPTANCE.md").read_text().replace("\n> ", " "))
    for s in listed:
        if s.section.startswith("the letter") and not runs(s.words, acceptance):
            fail(f"docs/ACCEPTANCE.md does not have: {s.text}")
    crates = {path.name for path in (ROOT / "crates").iterdir()}
    for path in [ROOT / "README.md", *sorted(set((ROOT / "docs").glob("*.md")) - {OUTPUT})]:
        text, page = path.read_text(), path.relative_to(ROOT)
        for label in re.findall(r"`(\w+:\w+)`", text):
            if label.split(":")[0] in crates and label not in EDITS:
                fail(f"{page}: there is no edit {label}")
        for crate, folder, file in re.findall(r"\b(\w+)/(specs|proofs|src)/(\w+(?:\.\w+)?)", text):
            named = ROOT / "crates" / crate / folder / file
            if crate in crates and not named.exists() and not named.with_suffix(".antt").exists():
                fail(f"{page}: there is no {crate}/{folder}/{file}")
        for crate, folder, file, names in re.findall(r"`(\w+)/(specs|proofs)/(\w+)`: ((?:`[^`]+`(?:, )?)+)", text):
            check_names(antt(crate, folder, file), re.findall(r"`([^`]+)`", names), page)
    for crate in sorted(crates - set(re.findall(r"`(\w+)`", (ROOT / "README.md").read_text()))):
        fail(f"README.md does not name the crate {crate}")


HEAD = """# What answers which sentence

Made by `compare/trace.py` from docs/sentences.txt, from the first lines of the must-fail edits and from the quotations in crates/*/specs; `--write` makes it
anew, and without it the program fails where this page is not what it would write. For the essence read ACCEPTANCE.md.

- A definition is `crate/specs/File`: `name`, of crates/CRATE/specs/FILE.antt; without a name the whole file.
- An edit `crate:label` is crates/CRATE/must-fail/LABEL.edit: one change to the code or to a statement, after which the prover refuses the crate because a fact
  no longer holds.
- A theorem is a statement that the crate's proofs/ prove; `Name.part` is a part of it. A law is a proved fact in proofs/.
- A session is crates/replay_cases/data/sessions/NAME.txt, with answers of the independent program in compare/reference; a case is an input in
  crates/replay_cases/data/malformed with answers made by hand. Both are run by the program `replay_cases`.
- A program is run by the gate and held to the answers in its crate: `records` runs each call over damaged records and with too little room, with answers of the
  same independent program; `vectors` runs the vectors of the standards, and sizes at the edges.
- "–" with words in brackets: the sentence asks for nothing that could be held against the tag. An empty cell: nothing of that kind.

{counts}
"""


def definitions(items):
    files = {}
    for place, name in items:
        files.setdefault(place, []).append(name)
    shown = []
    for place, names in files.items():
        names = cell(n for n in names if n)
        shown.append(f"`{place}`" + (f": {names}" if names else ""))
    return "; ".join(shown)


def table(rows, title):
    lines = [f"| {title} | definition | edits | other |", "|---|---|---|---|"]
    for s in rows:
        text = f"`{s.text}`" if s.section == CALLS else s.text
        lines.append(f"| {text} | {definitions(s.definitions)} | {cell(s.edits)} | {'; '.join(s.others)} |")
    return lines


def page(listed):
    papers = [s for s in listed if s.section != CALLS]
    counts = f"{len(papers)} sentences, {len(EDITS)} edits, {len(listed) - len(papers)} public calls."
    lines = [HEAD.format(counts=counts)]
    for section in dict.fromkeys(s.section for s in papers):
        lines += [f"## {section[0].upper()}{section[1:]}", *table([s for s in papers if s.section == section], "sentence"), ""]
    lines += ["## Public calls", "What each promises is the definition; no call has a `requires`. An edit stands in the call's own body, or in a function or a statement that its promise rests on.", ""]
    lines += table([s for s in listed if s.section == CALLS], "call")
    lines += ["", "## Edits that break a standard or a promise of our own", "| words | edits |", "|---|---|"]
    others = {}
    for clause in EDITS.values():
        for source, quotation in clause.quotations:
            if not PAPER.match(source):
                others.setdefault((source, quotation), []).append(clause.label)
    for (source, quotation), labels in sorted(others.items()):
        lines.append(f'| {source}: "{quotation}" | {cell(labels)} |')
    return "\n".join(lines) + "\n"


def hold_against(papers, listed):
    texts = [words(pathlib.Path(p).read_text()) for p in papers]
    for s in listed:
        if s.section != CALLS and not any(runs(s.words, t) for t in texts):
            fail(f"{s.section}: no paper says {s.text}")


def main():
    listed = sentences()
    for s in listed:
        for text in s.explicit:
            answer(s, text)
    for clause in EDITS.values():
        match_clause(clause, listed)
    match_specs(listed, "--unmatched" in sys.argv)
    check_calls(listed)
    check_archive()
    check_documents(listed)
    for s in listed:
        if not (s.definitions or s.edits or s.others):
            fail(f"{s.section}: nothing answers {s.text}")
    if "--papers" in sys.argv:
        hold_against(sys.argv[sys.argv.index("--papers") + 1:], listed)
    made = page(listed)
    if "--write" in sys.argv:
        OUTPUT.write_text(made)
    elif not OUTPUT.is_file() or OUTPUT.read_text() != made:
        fail("docs/TRACE.md is not what compare/trace.py --write makes")
    for text in failures:
        print(text)
    if failures:
        sys.exit(1)
    print(f"trace: {len(listed)} sentences and public calls, {len(EDITS)} edits")


main()
