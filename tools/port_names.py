#!/usr/bin/env python3
"""Spells the repository's own definitions and lemmas as today's Rattle spells its own: words in snake case, a dash only beside a type.

usage: python3 tools/port_names.py        at the top of the repository, once, right after /opt/rattle/port/port.py

port_names.tsv, beside this file, has a row for each name: as it was, a tab, as it is. Where two names fell together the lemma's has
`_lem` behind it. It goes by whole words, in clauses, in `ghost use` lines, in specs/ and proofs/, and in code spans of comments and
pages; Rust names, strings, inputs and outputs are not touched.
"""

import os
import subprocess
import sys

HERE = os.path.dirname(os.path.realpath(__file__))
SNAKE = "/opt/rattle/port/notes/2026-11-18-names-are-in-snake-case/snake.py"
TABLE = os.path.join(HERE, "port_names.tsv")


def main():
    for kinds, paths in (("antt,rt", ["crates"]), ("md", ["README.md", "docs"])):
        words = [sys.executable, SNAKE, "--table", TABLE, "--only", kinds, *paths]
        done = subprocess.run(words, capture_output=True, text=True)
        sys.stdout.write(done.stdout)
        sys.stderr.write(done.stderr)
        if done.returncode > 1:
            return done.returncode
    return 0


if __name__ == "__main__":
    sys.exit(main())
