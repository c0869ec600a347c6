"""tools/conform read: the report of the guest in conformance/guest, against the stored answers."""

import collections
import os
import re

from conformance import report, running, suite

FOLDER = os.path.join(suite.ROOT, "conformance", "guest")
STORED = os.path.join(FOLDER, "suite.txt")
FIRST_LINE = "synicboard report 1"
VERDICTS = ("passed", "differs", "late", "skipped")
COLUMNS = report.VERDICTS + ("late",)
LATE = "too late at each turn, so nothing is known"
# What a report that ends early lacks.
MISSING = "not in the report"
OTHER = "the guest has another script, or other answers, for this case"
NOT_WANTED = "not wanted"


class GuestCase:
    """A case as the guest drives it: the lines, and for each event the answer; one that no guest sees is `done`."""

    def __init__(self, case, text):
        self.full_name, self.topic, self.name = case.full_name, case.topic, case.name
        self.header, self.is_profile = case.header, case.is_profile
        self.sum = sum_of("".join(line + "\n" for line in text))
        self.lines, self.seen, answered = [], [], []
        for line in text:
            if line.startswith("= "):
                answered[-1] = line[2:]
                self.seen.append(len(answered) - 1)
            elif not line.startswith("grain "):
                self.lines.append(line)
                answered.append("done")
        # The first is that of the board line.
        self.answers, self.seen = answered[1:], [at - 1 for at in self.seen]

    def with_answers(self, found):
        """All answers, with those that the guest saw."""
        got = list(self.answers)
        for at, answer in zip(self.seen, found):
            got[at] = answer
        return got


def sum_of(text):
    """FNV-1a of 32 bits, as the guest has it."""
    found = 2166136261
    for byte in text.encode():
        found = (found ^ byte) * 16777619 % 2 ** 32
    return "%x" % found


def stored_cases(text):
    """The cases of suite.txt, by name."""
    cases = {case.full_name: case for case in suite.cases()}
    found = {}
    for part in text.split("case ")[1:]:
        name, *lines = part.splitlines()
        if name not in cases:
            raise suite.BadSuite("%s: there is no case %s" % (STORED, name))
        found[name] = GuestCase(cases[name], lines)
    return found


class Report:
    """What a report says of each case: the verdict, and after it a sum, a reason or answers."""

    def __init__(self, path):
        # A serial port may add carriage returns, and firmware may have written to it before.
        text = suite.read(path).replace("\r", "")
        if FIRST_LINE not in text:
            raise suite.BadSuite("%s is no report: it has no line '%s'" % (path, FIRST_LINE))
        self.head, self.found, self.end = [], {}, None
        *lines, rest = text[text.rindex(FIRST_LINE):].split("\n")
        self.last = None
        # Without a newline a line may be cut, except the last of a report.
        for line in lines + [rest] * rest.startswith("end: "):
            self.last = self.read(line, self.last)
        self.is_cut = self.end is None
        if self.is_cut and self.last is not None and self.found[self.last][0] == "differs":
            del self.found[self.last]   # its answers may be cut

    def read(self, line, last):
        """Reads a line; returns the case that the lines after it concern."""
        word, _, rest = line.partition(" ")
        name = re.match(r"[a-z0-9/-]*", rest)[0]
        if line.startswith("end:"):
            self.end = line
        elif word in VERDICTS and "/" in name:
            self.found[name] = (word, rest[len(name):].partition(" # ")[0].strip(" :"), [])
            return name
        elif line.startswith("= ") and last is not None:
            self.found[last][2].append(line[2:])
        elif not self.found:
            self.head.append(line)
        return last

    def value(self, name):
        """The rest of the line of the head that begins with a word."""
        return next((line[len(name) + 1:] for line in self.head if line.startswith(name + " ")), None)


def result_of(case, told, known):
    """The result of a case by what the report says of it."""
    verdict, detail, found = told
    if verdict == "differs":
        if detail != case.sum:
            return running.Result(case, "skipped", None, case.answers, [], OTHER)
        return running.verdict_of(case, case.answers, case.with_answers(found), "guest", known)
    if verdict == "passed":
        if detail != sum_of("".join("= %s\n" % case.answers[at] for at in case.seen)):
            return running.Result(case, "skipped", None, case.answers, [], OTHER)
        return running.verdict_of(case, case.answers, case.answers, "guest", known)
    return running.Result(case, verdict, None, case.answers, [], LATE if verdict == "late" else detail)


def results(told, cases, known):
    for name, case in cases.items():
        yield result_of(case, told.found.get(name, ("skipped", MISSING, [])), known)


def head_lines(told):
    """What the guest found out about the hypervisor."""
    yield from (line for line in told.head if line.startswith(("hypervisor ", "offered:", "processors ", "unit ")))
    if told.end is not None and not told.found:
        yield told.end[5:]


def brief_lines(found):
    """The failed cases by name, and one line of counts."""
    for result in found:
        if result.verdict == "failed":
            line, got = result.case.lines[result.at + 1], result.peer[result.at]
            yield "%s: %s: wanted %s, got %s" % (result.case.full_name, line, result.reference[result.at], got)
    counts = collections.Counter(result.verdict for result in found)
    yield "%d cases: %s" % (len(found), ", ".join("%d %s" % (counts[verdict], verdict) for verdict in COLUMNS))


def late_lines(found):
    late = [result.case.full_name for result in found if result.verdict == "late"]
    if late:
        yield "late, which is no difference: %s" % ", ".join(late)


def read(given):
    """tools/conform read"""
    text = suite.read(STORED)
    told, cases = Report(given.report), stored_cases(text)
    print("\n".join(head_lines(told)))
    if told.value("suite") not in (None, sum_of(text)):
        print("the guest was built from another suite: cases that changed are skipped")
    known = running.known_cases(given, list(cases.values()))
    found = [result for result in results(told, cases, known) if result.detail != NOT_WANTED]
    if told.is_cut:
        print("the report is cut after %s: the hypervisor may have ended there" % (told.last or "its beginning"))
    lines = brief_lines(found) if given.brief else report.table(found, given.profile != "tlfs", COLUMNS)
    print("\n".join(lines))
    print("\n".join([*late_lines(found), report.two_counts(found)]))
    if any(result.verdict == "failed" for result in found):
        return 1
    return 2 if told.is_cut or not told.found else 0
