"""Reads the mutants of the crates. Each is a list of turns: a file of the crate, a text in it, and the text that
replaces it. A file NAME.edit of must-fail/ has one mutant, in lines `file: `, `old: ` and `new: `, as the toolchain
reads them. wrong-bodies.txt and tested-mutants.txt have all others of a crate:

  == FILE
  - TEXT
  + NAME: TEXT that replaces it, without its indentation
  ? PROGRAM OF TESTS: TEST, TEST ..

Each line `+` is a mutant of the line `-` above it, and its name says what is wrong with it. A mutant with several
turns has a line for each. In tested-mutants.txt the line `?` below a mutant says which tests fail with it."""

import os
import re

ROOT = os.path.dirname(os.path.dirname(os.path.abspath(__file__)))


class Mutant:
    """A mutant, and the program of tests and the tests that fail with it, if it is one of tested-mutants.txt."""

    def __init__(self):
        self.turns, self.test, self.fails = [], None, []


def edit(path):
    """The turns of a file NAME.edit."""
    turns = []
    with open(path, encoding="utf-8") as lines:
        for line in lines:
            key, _, value = line.rstrip("\n").partition(": ")
            if key == "file":
                file = value
            elif key == "old":
                old = value
            elif key == "new":
                turns.append((file, old, value))
    return turns


def listed(crate, name):
    """The mutants of a crate's wrong-bodies.txt or tested-mutants.txt, by their names."""
    path, found = os.path.join(ROOT, "crates", crate, name), {}
    if not os.path.exists(path):
        return found
    with open(path, encoding="utf-8") as lines:
        for number, line in enumerate(lines, 1):
            line = line.rstrip("\n")
            mutant = re.match(r"\+ (\w+): (.*)", line)
            if line.startswith("== "):
                file, old, last = line[3:], None, None
            elif line.startswith("- "):
                old = line[2:]
            elif mutant and old is not None:
                indentation = old[:len(old) - len(old.lstrip())]
                last = found.setdefault(mutant[1], Mutant())
                last.turns.append((file, old, indentation + mutant[2]))
            elif line.startswith("? ") and last is not None:
                last.test, _, fails = line[2:].partition(": ")
                last.fails = fails.split(", ") if fails else []
            elif line:
                raise SystemExit("%s:%d: no line of a mutant: %s" % (path, number, line))
    return found


def wrong_bodies(crate):
    return {name: mutant.turns for name, mutant in listed(crate, "wrong-bodies.txt").items()}


def tested(crate):
    return listed(crate, "tested-mutants.txt")
