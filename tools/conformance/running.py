"""tools/conform run: the suite."""

import collections

from conformance import answers, peers, report, suite

# How many cases are run at the same time.
TOGETHER = 8

Result = collections.namedtuple("Result", "case verdict at reference peer detail")


def groups(items):
    items = list(items)
    return [items[first:first + TOGETHER] for first in range(0, len(items), TOGETHER)]


def reference_answers(case, output):
    """The reference's answers, which must be the stored ones."""
    found = answers.answers_of(output, len(case.lines) - 1)
    if found != case.stored():
        raise suite.BadSuite("%s: the reference does not give the stored answers" % case.full_name)
    return found


def verdict_of(case, reference, peer, see, known):
    try:
        at = answers.first_difference(case.lines, reference, peer, see)
    except answers.Unsupported as missing:
        return Result(case, "skipped", None, reference, peer, "the peer does not know %s" % missing)
    if at is None:
        detail = "known, and passes" if case.full_name in known else ""
        return Result(case, "passed", None, reference, peer, detail)
    if case.full_name in known:
        return Result(case, "known", at, reference, peer, known[case.full_name])
    return Result(case, "failed", at, reference, peer, "")


def peer_answers(cases, peer):
    """The peer's answers to each case."""
    if peer.reopens:
        output = peers.converse([(peer, [line for case in cases for line in case.lines])])[0]
        joined = answers.answers_of(output, sum(len(case.lines) - 1 for case in cases))
        if answers.NO_ANSWER not in joined:
            for case in cases:
                yield joined[:len(case.lines) - 1]
                joined = joined[len(case.lines) - 1:]
            return
    for some in groups(cases):
        for case, output in zip(some, peers.converse([(peer, case.lines) for case in some])):
            found = answers.answers_of(output, len(case.lines) - 1)
            yield by_line(peer, case.lines) if answers.NO_ANSWER in found else found


def by_line(peer, lines):
    """The answers of a peer that ended, up to its end."""
    return answers.answers_of(peers.converse([(peer.by_line(), lines)])[0], len(lines) - 1)


def wanted_answers(cases, reference):
    """The reference's answers to each case; the stored ones if it is None."""
    for some in groups(cases):
        if reference is None:
            yield from (case.stored() for case in some)
        else:
            yield from map(reference_answers, some, peers.converse([(reference, case.lines) for case in some]))


def is_opened(case, got, peer):
    """Whether the peer opened the board of a case that it answered. One of which it knows no event may have another reason."""
    return any(not answer.startswith(answers.UNSUPPORTED) for answer in got) or peer.opens(case.lines[0])


def results(cases, peer, reference, see, known):
    """The result of each case. Those of a board that the peer does not open are skipped."""
    given = [case for case in cases if not case.is_sparse or peer.opens(case.lines[0])]
    answered = dict(zip(given, peer_answers(given, peer)))
    for case, wanted in zip(cases, wanted_answers(cases, reference)):
        got = answered.get(case, [])
        if got and is_opened(case, got, peer):
            yield verdict_of(case, wanted, got, see, known)
        else:
            yield Result(case, "skipped", None, wanted, got, "the peer does not open %s" % case.lines[0].rsplit(" ", 1)[0])


def known_cases(given, cases):
    """The deviations that are accepted, by the file and by the profile."""
    known = suite.known(given.known) if given.known else {}
    if given.profile == "tlfs":
        known.update({case.full_name: "a choice of the profile" for case in cases if case.is_profile})
    elif given.profile == "kvm":
        known.update(suite.known(suite.KVM))
    return known


def run(given, peer, reference):
    cases = list(suite.cases(wanted=given.topic or ()))
    known = known_cases(given, cases)
    names = {case.full_name for case in suite.cases()}
    for name in known:
        if name not in names:
            raise suite.BadSuite("%s: there is no case %s" % (given.known or suite.KVM, name))
    found = list(results(cases, peer, reference, given.see, known))
    if given.junit:
        report.write_junit(given.junit, found)
    lines = report.tap(found) if given.tap else report.table(found, given.profile != "tlfs")
    print("\n".join(lines))
    if given.profile != "board" and not given.tap:
        print(report.two_counts(found))
    return 1 if any(result.verdict == "failed" for result in found) else 0
