"""The cases of the suite."""

import glob
import os

from conformance import answers

ROOT = os.path.dirname(os.path.dirname(os.path.dirname(os.path.abspath(__file__))))

FIELDS = ("Tests", "Source", "Guest")


# What a peer is compared with: the standard, all that the board does, or what KVM was measured to do.
PROFILES = ("tlfs", "board", "kvm")
KVM = os.path.join(ROOT, "conformance", "known", "kvm-6.1")


class BadSuite(Exception):
    """A case without a field, or a stored answer that is not the reference's."""


def read(path):
    with open(path, encoding="utf-8", errors="replace") as file:
        return file.read()


def events_of(text):
    """The board line and the events of a script; skipped lines and summaries are left out."""
    return [line for line in text.splitlines() if line and not line.startswith("#") and line != "summary"]


class Case:
    def __init__(self, path):
        self.path = path
        self.topic, self.name = path[:-len(".script")].split(os.sep)[-2:]
        text = read(path)
        self.header = dict(line[2:].split(": ", 1) for line in text.splitlines() if line.startswith("# ") and ": " in line)
        for field in FIELDS:
            if field not in self.header:
                raise BadSuite("%s: its header has no line '# %s: '" % (path, field))
        self.lines = events_of(text)
        self.answers = None

    @property
    def full_name(self):
        return "%s/%s" % (self.topic, self.name)

    @property
    def is_sparse(self):
        """Whether it is one of a sparse board, which a peer may leave out."""
        return self.lines[0].split(" ")[2] == "sparse"

    @property
    def is_profile(self):
        """Whether its rule, or a part of it, is this project's choice, and not that of the TLFS or the SDM."""
        return "(profile)" in self.header["Source"]

    def stored(self):
        """The stored answers."""
        if self.answers is None:
            output = read(self.path[:-len(".script")] + ".stdout")
            self.answers = answers.answers_of(output.encode(), len(self.lines) - 1)
        return self.answers


def topics(folder):
    """The topics, in the order of the file ORDER."""
    return [line for line in read(os.path.join(folder, "ORDER")).splitlines() if line]


def cases(folder=os.path.join(ROOT, "conformance"), wanted=()):
    """Each case of the topics that are wanted, or of all."""
    there = topics(folder)
    for topic in wanted:
        if topic not in there:
            raise BadSuite("there is no topic %s; there are %s" % (topic, ", ".join(there)))
    for topic in there:
        if not wanted or topic in wanted:
            for path in sorted(glob.glob(os.path.join(folder, topic, "*.script"))):
                yield Case(path)


def known(path):
    """The names of the cases of a file of known deviations, each with its reason."""
    found = {}
    for line in read(path).splitlines():
        name, _, reason = line.partition(" ")
        if name and not name.startswith("#"):
            found[name] = reason.strip()
    return found
