"""Makes a script that shows a difference small."""

import os
import re

from conformance import answers, peers, renaming, suite, words

# How many candidates are tried at the same time.
TOGETHER = 4

# How many lines make it worth while to try each other order of them.
WORTH_MOVING = range(9, 25)

MOST = 2 ** 64 - 1

SMALL_NUMBERS = (0, 1, 2, 16)

# The fields that are hexadecimal: the word of a line, and the places in it.
HEXADECIMAL = {"write": (2, 3), "read": (2,), "post": (2,), "assert": (2,), "absorb": (3,), "store": (1,), "load": (1,), "send": (2,)}
PAYLOAD = {"post": 3, "store": 2}


class Comparison:
    """Where the answers of two commands to a script differ."""

    def __init__(self, peer, reference, see):
        self.peer, self.reference, self.see = peer, reference, see

    def outcomes(self, scripts):
        """For each script (its lines up to the first difference, the answers of both), or None."""
        jobs = [(who, lines) for lines in scripts for who in (self.reference, self.peer)]
        outputs = peers.converse(jobs)
        return [self.outcome(lines, *outputs[2 * at:2 * at + 2]) for at, lines in enumerate(scripts)]

    def outcome(self, lines, told, other):
        if told == other:
            return None
        count = len(lines) - 1
        reference, peer = answers.answers_of(told, count), answers.answers_of(other, count)
        if answers.NO_ANSWER in peer:
            peer = answers.answers_of(peers.converse([(self.peer.by_line(), lines)])[0], count)
        try:
            at = answers.first_difference(lines, reference, peer, self.see)
        except answers.Unsupported:
            return None
        if at is None or reference[at] == answers.NO_ANSWER or reference[at].startswith("!"):
            return None
        return lines[:at + 2], reference[:at + 1], peer[:at + 1]


class Shrinker:
    def __init__(self, comparison, outcome):
        self.comparison, self.outcome = comparison, outcome

    @property
    def lines(self):
        return self.outcome[0]

    def first_of(self, candidates):
        """Takes the first candidate that still shows a difference. Whether there is one."""
        candidates = list(candidates)
        for first in range(0, len(candidates), TOGETHER):
            for outcome in self.comparison.outcomes(candidates[first:first + TOGETHER]):
                if outcome and len(outcome[0]) <= len(self.lines):
                    self.outcome = outcome
                    return True
        return False

    def drop_lines(self):
        """Halves, quarters, .. down to single lines."""
        is_smaller, size = False, max(1, (len(self.lines) - 1) // 2)
        while True:
            end = len(self.lines) - 1
            dropped = False
            while end > 1:
                starts = [max(1, end - size * (turn + 1)) for turn in range(TOGETHER)]
                starts = [start for at, start in enumerate(starts) if at == 0 or start < starts[at - 1]]
                ends = [end] + starts[:-1]
                candidates = [self.lines[:start] + self.lines[stop:] for start, stop in zip(starts, ends)]
                if self.first_of(candidates):
                    dropped = is_smaller = True
                    end = min(end, len(self.lines) - 1)
                else:
                    end = starts[-1]
            if size == 1 and not dropped:
                return is_smaller
            size = max(1, size // 2)

    def drop_pairs(self):
        """Two lines may depend on each other."""
        count = len(self.lines)
        if count > 30:
            return False
        pairs = [self.lines[:first] + self.lines[first + 1:second] + self.lines[second + 1:]
                 for first in range(1, count - 1) for second in range(first + 1, count - 1)]
        return self.first_of(pairs)

    def move_and_drop(self):
        """A line that comes just before the difference may make another one needless."""
        last = len(self.lines) - 1
        if last not in WORTH_MOVING:
            return False
        return self.first_of(
            [line for at, line in enumerate(self.lines[:last]) if at not in (moved, dropped)] + [self.lines[moved], self.lines[last]]
            for moved in range(1, last - 1) for dropped in range(1, last) if dropped != moved)

    def assert_instead(self):
        """An interrupt is the same, whatever raised it."""
        candidates = []
        for at, (line, answer) in enumerate(zip(self.lines[1:], self.outcome[1]), 1):
            found = re.search(r"^\. requested (\d+) (\w\w)$", answer, re.M)
            if found and not line.startswith("assert"):
                candidates.append(self.lines[:at] + ["assert %s %s" % found.groups()] + self.lines[at + 1:])
        return bool(candidates) and self.first_of(candidates)

    def rename(self):
        return self.first_of(renaming.renamed(self.lines))

    def simplify_fields(self):
        is_smaller, at = False, 0
        while at < len(self.lines):
            candidates = [self.lines[:at] + [line] + self.lines[at + 1:] for line in simpler(self.lines[at])]
            if self.first_of(candidates):
                is_smaller = True
            else:
                at += 1
        return is_smaller

    def run(self):
        self.drop_lines()
        steps = (self.assert_instead, self.rename, self.simplify_fields, self.drop_pairs, self.move_and_drop)
        while any(step() for step in steps):
            self.drop_lines()
        return self.outcome


def payload(text):
    """Shorter bytes, then plainer ones."""
    if len(text) > 2:
        yield from (text[:2], text[:len(text) // 4 * 2])
    if text.strip("0-") and len(text) <= 16:
        yield "0" * len(text)


def number(text, base):
    value = int(text, base)
    smaller = sorted({small for small in SMALL_NUMBERS if small < value} | {value & (value - 1), value // 2})
    return ["%x" % small if base == 16 else "%d" % small for small in smaller if small < value]


def tickets(text):
    """First tickets near the last make a script as short as those near 0."""
    value = int(text)
    return [] if value == 0 else ["0"] + ["%d" % last for last in range(MOST, MOST - 4, -1) if value < last and value > MOST // 2]


def simpler(line):
    """Lines like this one with one field smaller."""
    fields = line.split(" ")
    for place in range(len(fields) - 1, 0, -1):
        if fields[0] in PAYLOAD and PAYLOAD[fields[0]] == place:
            choices = payload(fields[place])
        elif not re.fullmatch(r"[0-9a-f]+", fields[place]) or (fields[0] in ("write", "read") and place == 2):
            continue
        elif fields[0] == "board" and place == 3:
            choices = tickets(fields[3])
        elif (fields[0], place) in (("assert", 2), ("send", 1)):
            choices = [] if fields[place] == "50" else ["50"]
        else:
            choices = number(fields[place], 16 if place in HEXADECIMAL.get(fields[0], ()) else 10)
        for choice in choices:
            yield " ".join(fields[:place] + [choice] + fields[place + 1:])


def report(outcome, out, note):
    """Writes the script, and says what differs."""
    lines, reference, peer = outcome
    with open(out, "w", encoding="ascii") as file:
        file.write("# %s\n" % note + "\n".join(lines) + "\n")
    print("%s: %d lines after the board line" % (os.path.relpath(out), len(lines) - 1))
    print("\n".join(["    " + lines[0]] + list(words.explained(lines, reference, peer, len(lines) - 2, len(lines)))))


def shrink(given, peer, reference):
    """tools/conform shrink"""
    comparison = Comparison(peer, reference, given.see)
    lines = suite.events_of(suite.read(given.script))
    peers.refuse_faults(given.script, reference, lines)
    if not peer.opens(lines[0]):
        raise suite.BadSuite("the peer does not open %s" % lines[0].rsplit(" ", 1)[0])
    outcome = comparison.outcomes([lines])[0]
    if outcome is None:
        print("%s: no difference" % given.script)
        return 0
    report(Shrinker(comparison, outcome).run(), given.out, "shrunk from %s" % os.path.basename(given.script))
    return 1
