"""What docs/sentences.txt names as answers: that it exists, and how it is shown."""
import re

from .quotations import DEFINES, EDITS
from .sentences import ROOT, fail


def antt(crate, folder, file):
    return ROOT / "crates" / crate / folder / f"{file}.antt"


def names_in(path):
    """The names that a file defines, and those of fields and constructors as Name.field."""
    text, found, current = path.read_text(), set(), None
    if path.suffix == ".rt":
        return set(re.findall(r"\b(?:fn|const|struct|enum|static)\s+(\w+)", text))
    for line in text.splitlines():
        if defined := DEFINES.match(line):
            indented, kind, name = defined.groups()
            found.add(name)
            if indented and current:
                found.add(f"{current}.{name}")
            if not indented:
                current = name if kind else None
        elif inner := re.match(r"^(\s*)([^\s:({]+)\s+:\s", line):
            found.add(inner[2])
            if inner[1] and current:
                found.add(f"{current}.{inner[2]}")
        elif line.startswith("module"):
            current = None
    return found


def check_names(path, names, where):
    if not path.is_file():
        return fail(f"{where}: there is no {path.relative_to(ROOT)}")
    for name in names:
        if name not in names_in(path):
            fail(f"{where}: {path.relative_to(ROOT)} has no {name}")


def proof_of(crate, statement):
    """The name under which a crate's proofs prove a statement."""
    for path in sorted((ROOT / "crates" / crate / "proofs").rglob("*.antt")):
        if proved := re.search(rf"^pub ([^\s:]+) : {re.escape(statement)}$", path.read_text(), re.M):
            return proved[1]
    return None


def cell(items):
    return ", ".join(f"`{i}`" for i in items)


def listed_names(text):
    return [n.strip() for n in (text or "").split(",") if n.strip()]


def no_rule(sentence, where, why):
    sentence.add(sentence.others, f"– ({why})")


def superseded(sentence, where, request):
    sentence.superseded = request
    sentence.add(sentence.others, f"superseded by {request}")
    if not (ROOT / f"docs/requests/{request}.md").is_file():
        fail(f"{where}: there is no docs/requests/{request}.md")


def replayed(sentence, where, kind, text):
    folder = {"session": "sessions", "case": "malformed"}[kind]
    for name in listed_names(text):
        if not (ROOT / f"crates/replay_cases/data/{folder}/{name}.txt").is_file():
            fail(f"{where}: there is no {kind} {name}")
    sentence.add(sentence.others, f"{kind} {cell(listed_names(text))}")


def program(sentence, where, name):
    sentence.add(sentence.others, f"program `{name}`")
    if not (ROOT / f"crates/{name}/src/main.rt").is_file():
        fail(f"{where}: there is no program {name}")


def theorem(sentence, where, crate, file, text):
    names = listed_names(text)
    check_names(antt(crate, "specs", file), names, where)
    proofs = [p for p in (proof_of(crate, n) for n in dict.fromkeys(n.split(".")[0] for n in names)) if p]
    sentence.add(sentence.others, f"theorem `{crate}/specs/{file}`: {cell(names)}, proved as {cell(proofs)}")
    if not proofs:
        fail(f"{where}: {crate}/proofs proves no {', '.join(names)}")


def law(sentence, where, crate, file, text):
    names = listed_names(text)
    check_names(antt(crate, "proofs", file), names, where)
    sentence.add(sentence.others, f"law `{crate}/proofs/{file}`" + (f": {cell(names)}" if names else ""))


def edit(sentence, where, label):
    sentence.add(sentence.edits, label)
    if label not in EDITS:
        fail(f"{where}: there is no edit {label}")


def definition(sentence, where, crate, file, text):
    check_names(antt(crate, "specs", file), listed_names(text), where)
    for name in listed_names(text) or [None]:
        sentence.add(sentence.definitions, (f"{crate}/specs/{file}", name))


def code(sentence, where, crate, file, text):
    check_names(ROOT / f"crates/{crate}/src/{file}", listed_names(text), where)
    sentence.add(sentence.others, f"code `{crate}/src/{file}`: {cell(listed_names(text))}")


def document(sentence, where, path, heading):
    sentence.add(sentence.others, path + (f', "{heading}"' if heading else ""))
    if not (ROOT / path).is_file():
        fail(f"{where}: what is {path}?")
    elif heading and heading not in re.findall(r"^#+ (.*)$", (ROOT / path).read_text(), re.M):
        fail(f"{where}: {path} has no heading {heading}")


ANSWERS = [
    (r"no rule: (.*)", no_rule),
    (r"superseded by (\S+)", superseded),
    (r"(session|case) (.*)", replayed),
    (r"program (\w+)", program),
    (r"theorem (\w+)/specs/(\w+): (.*)", theorem),
    (r"law (\w+)/proofs/(\w+)(?:: (.*))?", law),
    (r"(\w+:\w+)", edit),
    (r"(\w+)/specs/(\w+)(?:: (.*))?", definition),
    (r"(\w+)/src/(\w+\.rt): (.*)", code),
    (r"([^,]+)(?:, (.*))?", document),
]


def answer(sentence, text):
    for pattern, add in ANSWERS:
        if found := re.fullmatch(pattern, text):
            return add(sentence, f"{sentence.section}: {sentence.text[:40]}", *found.groups())
