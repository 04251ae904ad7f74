#!/usr/bin/env python3
"""Makes replay files, for the gate and for the comparison of two tag cores.

    make.py store REPLAY          rewrite args, data/ and stdout of crates/replay_cases; REPLAY is the
                                  reference's replay program
    make.py malformed FOLDER      write the matrix of malformed inputs with its hand-made answers
    make.py random FOLDER SEED N  write N random sessions
    make.py check REPLAY SEED N   compare the model with the reference over N random sessions

The tags in the sessions are right unless a session damages one on purpose. For that a small model
of the tag runs along; it follows the papers and uses hashlib and hmac, and an AES of its own.
The answers that are stored come from the reference program; those to the malformed inputs are
written by hand. The model's own answers only check that each session does what it was made for.
"""

import os
import shutil
import subprocess
import sys

# The first eight are there for what they put into STORED.
import disconnecting
import frames
import keys
import matching
import nonces
import provisioning
import reaching
import refusals
import ringing
from malformed import LAST_LINES, MALFORMED, long_inputs
from mixed import random_input
from session import STORED

HERE = os.path.dirname(os.path.abspath(__file__))
CASES = os.path.join(HERE, "..", "..", "crates", "replay_cases")

# The most bytes of an input that is stored. replays.sh runs the larger ones too.
LARGEST = 4096


def as_bytes(data):
    return data if isinstance(data, bytes) else data.encode()


def put(folder, name, data):
    path = os.path.join(folder, name)
    os.makedirs(os.path.dirname(path), exist_ok=True)
    with open(path, "wb") as out:
        out.write(as_bytes(data))


def answers_of(replay, data):
    return subprocess.run([replay], input=data, stdout=subprocess.PIPE, check=True).stdout


def session_case(name, replay):
    """The text of a stored session, and what the reference answers."""
    session = STORED[name]()
    data = session.text().encode()
    found = answers_of(replay, data)
    if found != session.answer_text().encode():
        raise SystemExit(f"{name}: the reference and the model that made the session differ")
    return data, found


def store(replay):
    """Rewrites what the program replay_cases is run on, and what it must print. It is not run for that."""
    cases = [(f"malformed/{name}.txt", as_bytes(data), as_bytes(answer)) for name, data, answer in MALFORMED]
    cases = [case for case in cases if len(case[1]) <= LARGEST]
    cases += [(f"sessions/{name}.txt", *session_case(name, replay)) for name in sorted(STORED)]
    shutil.rmtree(os.path.join(CASES, "data"), ignore_errors=True)
    for name, data, _ in cases:
        put(os.path.join(CASES, "data"), name, data)
    put(CASES, "args", "".join(name + "\n" for name, _, _ in cases))
    # The program makes the long inputs itself, and prints what their last lines bring.
    cases += [(name, b"", as_bytes(answer)) for name, _, answer in LAST_LINES]
    put(CASES, "stdout", b"".join(as_bytes(name + "\n") + answer for name, _, answer in cases))
    print(f"{len(cases)} cases stored, {len(STORED)} of them sessions")


def malformed(folder):
    names = [name for name, _, _ in MALFORMED]
    assert len(set(names)) == len(names)
    for name, data, answer in list(MALFORMED) + list(long_inputs()):
        put(folder, name + ".txt", data)
        put(folder, name + ".out", answer)


def random_files(folder, seed, count):
    for number in range(count):
        put(folder, f"random-{number:05}.txt", random_input(seed, number)[0])


def check(replay, seed, count):
    whole = 0
    for number in range(count):
        data, answers = random_input(seed, number)
        found = answers_of(replay, data)
        if answers is not None:
            whole += 1
            if found != answers.encode():
                put(HERE, "difference.txt", data)
                put(HERE, "difference.model", answers)
                raise SystemExit(f"seed {seed}, session {number}: the reference and the model differ")
    print(f"{whole} whole sessions agree with the model")


def main(words):
    if len(words) == 2 and words[0] == "store":
        store(os.path.abspath(words[1]))
    elif len(words) == 2 and words[0] == "malformed":
        malformed(words[1])
    elif len(words) == 4 and words[0] == "random":
        random_files(words[1], words[2], int(words[3]))
    elif len(words) == 4 and words[0] == "check":
        check(os.path.abspath(words[1]), words[2], int(words[3]))
    else:
        raise SystemExit(__doc__)


if __name__ == "__main__":
    main(sys.argv[1:])
