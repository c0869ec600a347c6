"""tools/conform fuzz: random scripts up to the first difference."""

import sys
import time

from conformance import answers, coverage, making, peers, shrinking

# How many scripts are compared at the same time.
TOGETHER = 4

EVERY = 5  # seconds between lines of progress

# How many scripts there are for each one of a sparse board, if the peer opens the largest.
EACH_SPARSE = 4
LARGEST = "board 64 sparse 0"


def has_sparse(given, peer):
    return "sparse" not in given.without and peer.opens(LARGEST)


class Progress:
    """What was done so far, and a line about it now and then."""

    def __init__(self, output=sys.stderr):
        self.output = output
        self.started = self.told = time.monotonic()
        self.scripts = self.events = 0
        self.coverage = coverage.Coverage()

    @property
    def seconds(self):
        return time.monotonic() - self.started

    def add(self, lines, found):
        self.scripts += 1
        self.events += len(lines) - 1
        self.coverage.add(lines, found)

    def tell(self, is_last=False):
        if is_last or time.monotonic() - self.told >= EVERY:
            self.told = time.monotonic()
            print("fuzz: %d scripts, %d events, %d a second, %d kinds of answers" % (
                self.scripts, self.events, self.events / max(self.seconds, 0.001), len(self.coverage.seen)), file=self.output)


def search(given, comparison, progress):
    """The first difference, as (number of its script, outcome), or None."""
    number, without = 0, set(given.without)
    sparse = EACH_SPARSE if has_sparse(given, comparison.peer) else 0
    while progress.seconds < 60 * given.minutes and (not given.events or progress.events < given.events):
        scripts = [making.script(given.seed, number + at, sorted(without), sparse) for at in range(TOGETHER)]
        outputs = peers.converse([(who, lines) for lines in scripts for who in (comparison.reference, comparison.peer)])
        missing = {event for event in map(unsupported, scripts, outputs[1::2]) if event}
        if missing - without:
            print("fuzz: the peer does not know %s" % ", ".join(sorted(missing - without)), file=sys.stderr)
            without |= missing
            continue
        for at, lines in enumerate(scripts):
            outcome = comparison.outcome(lines, *outputs[2 * at:2 * at + 2])
            if outcome:
                return number + at, outcome
            progress.add(lines, answers.answers_of(outputs[2 * at], len(lines) - 1))
        number += TOGETHER
        progress.tell()
    return None


def unsupported(lines, output):
    """The first kind of event that the peer does not know, or None."""
    if b"= unsupported" not in output:
        return None
    for line, answer in zip(lines[1:], answers.answers_of(output, len(lines) - 1)):
        if answer.startswith(answers.UNSUPPORTED):
            return line.split(" ", 1)[0]
    return None


def fuzz(given, peer, reference):
    progress = Progress()
    comparison = shrinking.Comparison(peer, reference, given.see)
    found = search(given, comparison, progress)
    progress.tell(is_last=True)
    missing = list(progress.coverage.missing(given.without, has_sparse(given, peer)))
    print("never reached: %s" % ("; ".join(missing) or "nothing"), file=sys.stderr)
    if found is None:
        print("no difference: %d scripts, %d events" % (progress.scripts, progress.events))
        return 0
    number, outcome = found
    print("fuzz: script %d differs at event %d; shrinking" % (number, len(outcome[0]) - 1), file=sys.stderr)
    small = shrinking.Shrinker(comparison, outcome).run()
    shrinking.report(small, given.out, "found by seed %d, script %d" % (given.seed, number))
    return 1
