"""The sentences of docs/sentences.txt, and the failures that are found."""
import pathlib
import re

ROOT = pathlib.Path(__file__).resolve().parent.parent.parent
LIST = ROOT / "docs/sentences.txt"
CALLS = "public calls"
failures = []


def fail(text):
    failures.append(text)


def words(text):
    return re.findall(r"\w+(?:[,']\w+)*", text)


def runs(some, all_):
    """Whether some words stand in others one behind the other."""
    return f" {' '.join(some)} " in f" {' '.join(all_)} "


class Sentence:
    def __init__(self, section, text, answers):
        self.section, self.text, self.words = section, text, words(text)
        self.definitions, self.edits, self.others = [], [], []
        self.explicit, self.superseded = answers, None

    def quoted(self, quotation):
        """Whether a quotation, or a whole sentence in it, is of this sentence. Two points in it leave words out, also from one sentence to another."""
        inside = [s for s in re.split(r"(?<!\.)\. ", quotation) if len(words(s)) > 2]
        return any(self.has(q) for q in [quotation, *inside])

    def has(self, quotation):
        pieces = [words(p) for p in quotation.split("..")]
        if len(pieces) == 1 and runs(self.words, pieces[0]):
            return True
        there = [runs(p, self.words) for p in pieces]
        return all(there) or len(pieces) > 1 and any(t and len(p) > 4 for t, p in zip(there, pieces))

    def add(self, column, item):
        if item not in column:
            column.append(item)


def sentences():
    found = []
    for number, line in enumerate(LIST.read_text().splitlines(), 1):
        if not line.strip() or line.startswith("#"):
            continue
        cells = [c.strip() for c in line.split("|")]
        if len(cells) != 3 or not cells[1]:
            fail(f"docs/sentences.txt:{number}: not SECTION | sentence | answers")
            continue
        found.append(Sentence(cells[0], cells[1], [a.strip() for a in cells[2].split(";") if a.strip()]))
    return found
