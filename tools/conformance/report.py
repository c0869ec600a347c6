"""The results of the suite: as a table, as TAP, as JUnit's XML."""

import collections
import xml.etree.ElementTree

from conformance import words

VERDICTS = ("passed", "failed", "known", "skipped")


def counts(results):
    """For each topic how often each verdict was given."""
    found = {}
    for result in results:
        found.setdefault(result.case.topic, collections.Counter())[result.verdict] += 1
    return found


def explanation(result):
    header = result.case.header
    yield "%s: %s" % (result.case.full_name, header["Tests"])
    yield "    source: %s" % header["Source"]
    yield "    guest: %s" % header["Guest"]
    yield from words.explained(result.case.lines, result.reference, result.peer, result.at)


def table(results, names_passing=True, verdicts=VERDICTS):
    by_topic = counts(results)
    for result in results:
        if result.verdict == "failed":
            yield from explanation(result)
            yield ""
    yield "%-20s" % "topic" + "".join("%9s" % verdict for verdict in verdicts)
    for topic, found in by_topic.items():
        yield "%-20s" % topic + "".join("%9s" % (found[verdict] or "") for verdict in verdicts)
    total = sum(by_topic.values(), collections.Counter())
    yield "%-20s" % "all" + "".join("%9d" % total[verdict] for verdict in verdicts)
    missing = sorted({result.detail for result in results if result.verdict == "skipped"})
    for detail in missing:
        yield "skipped: %s" % detail
    for result in results if names_passing else ():
        if result.verdict == "passed" and result.detail:
            yield "%s is known to fail, but passed" % result.case.full_name


def two_counts(results):
    """How many cases of the standard passed, and how many of the profile."""
    parts = []
    for name, is_profile in (("standard", False), ("profile", True)):
        some = [result for result in results if result.case.is_profile == is_profile and result.verdict not in ("skipped", "late")]
        parts.append("%s: %d of %d" % (name, sum(result.verdict == "passed" for result in some), len(some)))
    return "; ".join(parts)


def tap(results):
    yield "TAP version 13"
    yield "1..%d" % len(results)
    for number, result in enumerate(results, 1):
        name, verdict = result.case.full_name, result.verdict
        if verdict == "skipped":
            yield "ok %d - %s # SKIP %s" % (number, name, result.detail)
        elif verdict == "known":
            yield "not ok %d - %s # TODO %s" % (number, name, result.detail)
        else:
            yield "%s %d - %s" % ("ok" if verdict == "passed" else "not ok", number, name)
        if verdict == "failed":
            yield from ("# " + line for line in explanation(result))


def write_junit(path, results):
    root = xml.etree.ElementTree.Element("testsuites")
    for topic, found in counts(results).items():
        place = xml.etree.ElementTree.SubElement(root, "testsuite", name=topic, tests=str(sum(found.values())),
                                                 failures=str(found["failed"]), skipped=str(found["skipped"] + found["known"]))
        for result in results:
            if result.case.topic == topic:
                put_case(place, result)
    xml.etree.ElementTree.ElementTree(root).write(path, encoding="utf-8", xml_declaration=True)


def put_case(place, result):
    case = xml.etree.ElementTree.SubElement(place, "testcase", classname=result.case.topic, name=result.case.name)
    if result.verdict == "failed":
        failure = xml.etree.ElementTree.SubElement(case, "failure", message=result.case.lines[result.at + 1])
        failure.text = "\n".join(explanation(result))
    elif result.verdict in ("skipped", "known"):
        xml.etree.ElementTree.SubElement(case, "skipped", message=result.detail)
