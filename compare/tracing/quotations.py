"""The quotations in the first lines of the must-fail edits and in the comments of crates/*/specs, and the sentences that they are of."""
import re

from .sentences import CALLS, ROOT, fail, runs, words

PAPER = re.compile(r"the letter, |01, |02, ")
STANDARD = re.compile(r"(FIPS 180-4|FIPS 197|RFC \d+|SEC [12]), section ")
DEFINES = re.compile(r"^(\s*)(?:(?:unfoldable|abbrev|pub)\s+)+(?:(data|record)\s+)?([^\s:({]+)")


class Clause:
    """The first line of an edit: quotations with their sources, and what the edit does."""
    def __init__(self, label, line):
        self.label, self.quotations = label, []
        told, _, self.here = line.removeprefix("# clause: ").partition("; here ")
        self.told, source = told, None
        for named, quotation in re.findall(r'(?:(?:^|; )([^"]+?): |, )"([^"]+)"', told):
            source = named or source
            self.quotations.append((source, quotation))


def edits():
    found = {}
    for path in sorted(ROOT.glob("crates/*/must-fail/*.edit")):
        label, line = f"{path.parts[-3]}:{path.stem}", path.read_text().split("\n", 1)[0]
        found[label] = Clause(label, line)
        if not line.startswith("# clause: ") or not found[label].quotations:
            fail(f"{label}: its first line quotes nothing")
    return found


def own_text(source):
    """The text of a place in this repository, its comments as running text; None where there is no such place."""
    file, _, heading = source.partition(", ")
    path = ROOT / file if file.startswith("docs/") else ROOT / "crates" / file
    path = path if path.suffix else path.with_suffix(".antt")
    if not path.is_file():
        return None
    text = path.read_text()
    if heading:
        parts = [p for p in re.split(r"^#+ ", text, flags=re.M) if p.startswith(heading + "\n")]
        return parts[0] if parts else None
    return re.sub(r"\n\s*(--|//) ?", " ", text)


def match_clause(clause, listed):
    for source, quotation in clause.quotations:
        if PAPER.match(source):
            section = [s for s in listed if s.section == source]
            hits = [s for s in section if s.quoted(quotation)]
            if not all(any(s.quoted(piece) for s in section) for piece in quotation.split("..")):
                fail(f'{clause.label}: no sentence of "{source}" in docs/sentences.txt has "{quotation}"')
            for s in hits:
                s.add(s.edits, clause.label)
                if s.superseded:
                    fail(f"{clause.label}: quotes a sentence that {s.superseded} superseded")
        elif "/" in source:
            text = own_text(source)
            if text is None:
                fail(f"{clause.label}: there is no {source}")
            elif not runs(words(quotation), words(text)):
                fail(f'{clause.label}: {source} does not say "{quotation}"')
        elif not STANDARD.match(source):
            fail(f"{clause.label}: what is {source}?")


EDITS = edits()


def quotations(path):
    """The quotations in a file's comments, each with the definitions below it up to the next comment, or with None at the head of the file. A
    comment inside a definition stands for that one."""
    lines, found, current, seen_code = path.read_text().splitlines(), [], None, False
    at = 0
    while at < len(lines):
        if not comment(lines[at]):
            seen_code |= bool(lines[at].strip())
            if (defined := DEFINES.match(lines[at])) and not defined[1]:
                current = defined[3]
            at += 1
            continue
        start = at
        while at < len(lines) and comment(lines[at]):
            at += 1
        names = [None]
        if seen_code:
            indent = lines[start].startswith(" ")
            names = below(lines, at) if not indent or at < len(lines) and DEFINES.match(lines[at]) else [current]
        text = " ".join(line.lstrip().removeprefix("--").strip() for line in lines[start:at])
        found += [(quotation, names) for quotation in re.findall(r'"([^"]+)"', text)]
    return found


def comment(line):
    return line.lstrip().startswith("--")


def below(lines, at):
    names = []
    for line in lines[at:]:
        if comment(line) and names:
            break
        if (defined := DEFINES.match(line)) and (not defined[1] or not names):
            names.append(defined[3])
    return names


def match_specs(listed, tell):
    for path in sorted(ROOT.glob("crates/*/specs/*.antt")):
        place = f"{path.parts[-3]}/specs/{path.stem}"
        for quotation, names in quotations(path):
            hits = [s for s in listed if s.section != CALLS and s.quoted(quotation)]
            if not hits and tell:
                print(f'{place}: "{quotation}"')
            if len(words(quotation)) < 2 or len(hits) > 1 and len(words(quotation)) < 5:
                continue
            for s in hits:
                for name in names:
                    s.add(s.definitions, (place, name))
