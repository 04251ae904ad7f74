"""Reads what callgrind wrote about one stretch of a program."""
import collections, re

NAMED = re.compile(r"^(c?fn)=\((\d+)\)(?: (.*))?$")


class Counts:
    """total: all instructions; own: those of each function itself."""

    def __init__(self, path, names):
        """names: the names by number, which a file may take from the ones written before it."""
        self.total, self.own = 0, collections.Counter()
        here, of_a_call = None, False
        for line in open(path):
            if named := NAMED.match(line.strip()):
                kind, number, name = named.groups()
                if name:
                    names[number] = name
                if kind == "fn":
                    here = names[number]
            elif line.startswith("calls="):
                of_a_call = True
            elif line.startswith("summary:"):
                self.total = int(line.split()[1])
            elif line[:1] in "+-*0123456789" and line.strip():
                if not of_a_call:
                    self.own[here] += int(line.split()[1])
                of_a_call = False
