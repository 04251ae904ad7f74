#!/usr/bin/env python3
"""Whether a module that was lowered for x86-64 means the same on a 32-bit ARM. Usage: layout_check.py MODULE.ll

The module is taken only if every line has a form that is listed here, and none of these forms looks at the size of a pointer, at an address
as a number, or at the order in which memory is laid out beyond what the text itself says (bytes at offsets, little-endian). A pointer may be held
to null, as each export does with a slice's. What is refused by name: globals, casts between pointers and integers, copies of variable length,
by-value and struct-return attributes, alignment above 8, and a place in memory that is used both as a pointer and as a number (places.py).
Anything else that is not listed is refused as unknown.
Ends with status 0 and one line, or with status 1 and one line for each refusal (20 at most)."""
import re
import sys

import places

INTEGER = r"i(?:1|8|16|32|64)"
NAME = r'@(?:"[^"]+"|[\w.$]+)'
NUMBER = r"(?:-?\d+|true|false)"
VALUE = rf"(?:%[\w.]+|{NUMBER})"
ALIGN = r"align (?P<align>\d+)"
MARKS = r"(?:, !(?:noundef|range) !\d+)*"
BINARY = r"(?:add|sub|mul|udiv|urem|sdiv|srem|shl|lshr|ashr|and|or|xor)"
FLAGS = r"(?: nuw| nsw| exact| disjoint)*"
COMPARE = r"(?:eq|ne|ult|ule|ugt|uge|slt|sle|sgt|sge)"
RESULT = r"(?P<result>%[\w.]+) = "

# Refused by name, whatever else the line says.
REFUSED = [
    (r"^@", "a global"),
    (r"\b(?:ptrtoint|inttoptr|ptrtoaddr|addrspacecast|bitcast)\b", "a cast between a pointer and an integer"),
    (r"\b(?:byval|sret|inalloca|preallocated|byref)\b", "a by-value or struct-return attribute"),
    (r"@llvm\.mem(?:cpy|move|set)[\w.]*\((?:[^,]*, ){2}i(?:32|64) %", "a copy of variable length"),
    (r"\bicmp \w+ ptr (?!%[\w.]+, null$)", "a comparison of pointers"),
    (r"\b(?:half|bfloat|float|double|fp128|i(?!1\b|8\b|16\b|32\b|64\b)\d+)\b|<\d+ x ", "a type other than a byte, an integer of up to 64 bits or a pointer"),
]

# The instructions, each with the name of what places.py does with it.
FORMS = [(name, re.compile(pattern + "$")) for name, pattern in [
    ("slot", RESULT + rf"alloca (?:(?P<type>{INTEGER}|ptr)|\[(?P<bytes>\d+) x i8\]), {ALIGN}"),
    ("read", RESULT + rf"load (?P<type>{INTEGER}|ptr), ptr (?P<at>%[\w.]+), {ALIGN}{MARKS}"),
    ("written", rf"store (?P<type>{INTEGER}|ptr) (?P<value>{VALUE}), ptr (?P<at>%[\w.]+), {ALIGN}"),
    ("fixed", RESULT + r"getelementptr(?: inbounds)?(?: nuw)? i8, ptr (?P<at>%[\w.]+), i64 (?P<offset>\d+)"),
    ("moving", RESULT + r"getelementptr(?: inbounds)?(?: nuw)? i8, ptr (?P<at>%[\w.]+), i64 %[\w.]+"),
    ("copied", r"call void @llvm\.mem(?:cpy|move)\.p0\.p0\.i64\(ptr (?P<to>%[\w.]+), ptr (?P<at>%[\w.]+), i64 (?P<bytes>\d+), i1 false\)"),
    ("filled", rf"call void @llvm\.memset\.p0\.i64\(ptr (?P<to>%[\w.]+), i8 (?P<value>{VALUE}), i64 (?P<bytes>\d+), i1 false\)"),
    ("called", rf"(?:{RESULT})?call (?:void|{INTEGER}) (?P<name>{NAME})\((?P<values>[^()]*)\)"),
    ("number", RESULT + rf"{BINARY}{FLAGS} {INTEGER} {VALUE}, {VALUE}"),
    ("number", RESULT + rf"icmp {COMPARE} {INTEGER} {VALUE}, {VALUE}"),
    ("number", RESULT + r"icmp (?:eq|ne) ptr %[\w.]+, null"),
    ("number", RESULT + rf"(?:zext|sext|trunc){FLAGS}(?: nneg)? {INTEGER} {VALUE} to {INTEGER}"),
    ("number", RESULT + rf"select i1 {VALUE}, {INTEGER} {VALUE}, {INTEGER} {VALUE}"),
    ("number", RESULT + rf"phi {INTEGER} \[.*\]"),
    ("ended", rf"ret (?:void|{INTEGER} {VALUE})"),
    ("ended", r"br label %[\w.]+|br i1 %[\w.]+, label %[\w.]+, label %[\w.]+|unreachable"),
    ("ended", rf"switch {INTEGER} %[\w.]+, label %[\w.]+ \[|{INTEGER} -?\d+, label %[\w.]+|\]"),
]]
DEFINITION = re.compile(rf"define (?P<internal>internal )?(?:noundef )?(?:zeroext )?(?:void|{INTEGER}) (?P<name>{NAME})\((?P<takes>[^()]*)\) #\d+ {{$")
TAKEN = re.compile(rf"(?P<type>{INTEGER}|ptr) noundef(?: zeroext)? (?P<name>%[\w.]+)$")
GIVEN = re.compile(rf"(?P<type>{INTEGER}|ptr) (?P<value>{VALUE})$")
OUTSIDE = re.compile(r"$|}$|[\w.]+:|declare void @llvm\.mem(?:cpy|move|set)\.")
# Not code: comments, metadata, and what retarget.py replaces and looks at.
APART = (";", "!", "source_filename = ", "target datalayout = ", "target triple = ", "attributes #")


def words(text):
    return text.split(", ") if text else []


class Reader:
    def __init__(self):
        self.errors, self.memory, self.function, self.functions = [], places.Memory(), "", 0

    def refuse(self, line, why):
        self.errors.append(f"line {line}, in {self.function or 'the module'}: {why}")

    def define(self, line, found):
        self.function, self.functions = found["name"].strip('@"'), self.functions + 1
        for place, taken in enumerate(words(found["takes"])):
            one = TAKEN.match(taken)
            if not one:
                self.refuse(line, f"a parameter that is not known: {taken}")
            elif one["type"] == "ptr":
                self.memory.parameter(self.function, place, one["name"], not found["internal"])
            elif not found["internal"] and one["type"] not in ("i32", "i64"):
                self.refuse(line, f"an exported call with a parameter narrower than a word: {taken}")

    def call(self, line, found):
        for place, given in enumerate(words(found["values"])):
            one = GIVEN.match(given)
            if not one:
                self.refuse(line, f"an argument that is not known: {given}")
            elif one["type"] == "ptr":
                self.memory.argument(line, self.function, one["value"], found["name"].strip('@"'), place)

    def instruction(self, line, text):
        for name, form in FORMS:
            found = form.match(text)
            if found:
                if int(found.groupdict().get("align") or 1) > 8:
                    self.refuse(line, "alignment above 8")
                elif name == "called":
                    self.call(line, found)
                elif name not in ("number", "ended"):
                    getattr(self.memory, name)(line, self.function, found)
                return
        self.refuse(line, f"an instruction that is not known: {text}")

    def line(self, line, text):
        bare = re.sub(r'@"[^"]*"', "@name", text)  # a function may be called double or half
        for pattern, why in REFUSED:
            if re.search(pattern, bare):
                return self.refuse(line, f"{why}: {text.strip()}")
        definition = DEFINITION.match(text)
        if definition:
            self.define(line, definition)
        elif text.startswith("  "):
            self.instruction(line, text.strip())
        elif not OUTSIDE.match(text):
            self.refuse(line, f"a line that is not known: {text}")


def main():
    reader = Reader()
    with open(sys.argv[1]) as module:
        for line, text in enumerate(module, 1):
            if not text.startswith(APART):
                reader.line(line, text.split(" ; ")[0].rstrip())
    errors = reader.errors or reader.memory.conflicts()
    for error in errors[:20]:
        print(f"layout_check: refused: {error}")
    if not errors:
        print(f"layout_check: {reader.functions} functions, {reader.memory.size()} places in memory: no form that depends on the layout")
    sys.exit(1 if errors else 0)


if __name__ == "__main__":
    main()
