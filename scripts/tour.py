#!/usr/bin/env python3
"""tour.py [WIRING [SKETCH]]: holds the sessions of the documents against the programs (crates/wiring/out/wiring, crates/sketch/out/sketch) and the gate.

A session is what stands in blocks of text: a command behind '> ', then its answer; three blanks or more begin a remark. All of docs/TOUR.md is one
session of WIRING; its commands and answers must stand in one run in crates/wiring/stdin and stdout, so that the gate runs them. README.md has a session
of WIRING and then one of SKETCH.
"""
import os
import re
import subprocess
import sys
import tempfile

top = os.path.dirname(os.path.dirname(os.path.abspath(__file__)))


def lines(name):
    with open(os.path.join(top, name), encoding="utf-8") as file:
        return file.read().split("\n")


def blocks(name):
    """The blocks of text of a document, each as its lines without remarks."""
    found = re.findall(r"^```text\n(.*?)^```$", "\n".join(lines(name)), re.M | re.S)
    return [[re.sub(r"(?<=\S) {3,}.*", "", line) for line in block.split("\n")[:-1]] for block in found]


def hold(name, session, program):
    """Ends with a message where the program answers otherwise than the session."""
    commands = [line[2:] for line in session if line.startswith("> ")]
    with tempfile.TemporaryDirectory() as folder:
        run = subprocess.run([program, "--echo"], input="\n".join(commands) + "\n", cwd=folder, stdout=subprocess.PIPE, text=True)
    written = run.stdout.split("\n")[:-1]
    for number, (told, said) in enumerate(zip(written, session)):
        if told != said:
            sys.exit("%s, line %d of the session: the document has %r, the program writes %r" % (name, number + 1, said, told))
    if len(written) != len(session):
        sys.exit("%s: the session has %d lines, the program writes %d" % (name, len(session), len(written)))
    print("%s: %d commands, %d lines of answers" % (name, len(commands), len(session) - len(commands)))


def within(part, whole):
    return any(whole[i:i + len(part)] == part for i in range(len(whole) - len(part) + 1))


programs = [os.path.abspath(word) for word in sys.argv[1:]] + [os.path.join(top, "crates", name, "out", name) for name in ("wiring", "sketch")][len(sys.argv) - 1:]
tour = sum(blocks("docs/TOUR.md"), [])
hold("docs/TOUR.md", tour, programs[0])
for session, program in zip(blocks("README.md"), programs):
    hold("README.md", session, program)
asked = [line for line in lines("crates/wiring/stdin") if line.strip() and not line.startswith("#")]
if not within([line[2:] for line in tour if line.startswith("> ")], asked):
    sys.exit("crates/wiring/stdin does not have the commands of docs/TOUR.md in one run")
if not within([line for line in tour if not line.startswith("> ")], lines("crates/wiring/stdout")):
    sys.exit("crates/wiring/stdout does not have the answers of docs/TOUR.md in one run")
