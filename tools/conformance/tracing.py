"""tools/conform trace: a recorded trace, or a report of KVM's tracepoints, against the reference."""

import importlib.machinery
import os

import boardlog
from conformance import answers, peers, suite, words

TOOLS = os.path.join(suite.ROOT, "tools")


def converter():
    """The classes of tools/from-kvm-trace."""
    return importlib.machinery.SourceFileLoader("from_kvm_trace", os.path.join(TOOLS, "from-kvm-trace")).load_module()


def recorder_of(source):
    """A converter that keeps the replies in the records, by the number of their line."""
    class Recorder(source.Converter):
        facts = {}

        def kvm_inj_virq(self, record, at):
            super().kvm_inj_virq(record, at)
            if self.lines[-1].startswith("take "):
                self.facts[len(self.lines)] = "taken %02x" % int(record.match(r"0x([0-9a-f]+)")[1], 16)

        def kvm_msr(self, record, at):
            super().kvm_msr(record, at)
            if self.lines[-1].startswith("#"):
                return
            found = record.match(r"^msr_(read|write) [0-9a-f]+ = 0x([0-9a-f]+)")
            fine = "value %s" % found[2] if found[1] == "read" else "done"
            self.facts[len(self.lines)] = "general protection" if "(#GP)" in record.text else fine

    return Recorder


def of_report(text):
    """The events of a report, each with the reply in its record, or None."""
    source = converter()
    records = list(source.records_of(text))
    if not records:
        raise suite.BadSuite("neither a trace nor a report of tracepoints")
    recorder = recorder_of(source)(records)
    whole = recorder.convert()
    events = [(line, None) for line in whole[:len(whole) - len(recorder.lines)]]
    events += [(line, recorder.facts.get(at)) for at, line in enumerate(recorder.lines, 1)]
    return [(line, fact) for line, fact in events if not line.startswith("#")]


def of_trace(text):
    """The events of a recorded trace with their replies."""
    rows = [line for line in text.splitlines() if line and not line.startswith("#")]
    events = [(rows[1], None)]
    for event, reply in zip(rows[2::2], rows[3::2]):
        if event[0].isdigit() and reply.startswith("= "):
            events.append((event.split(" ", 1)[1], reply[2:]))
    return events


def trace(given, reference):
    """tools/conform trace"""
    text = suite.read(given.report)
    is_trace = text.splitlines()[:1] in boardlog.TITLES
    if is_trace and text.splitlines()[1:2] == boardlog.IMAGE:
        raise suite.BadSuite(boardlog.NO_IMAGES)
    events = of_trace(text) if is_trace else of_report(text)
    lines = [line for line, _ in events]
    told = answers.answers_of(peers.refuse_faults(given.report, reference, lines), len(lines) - 1)
    # Replies alone are recorded, so the notices are left out of the comparison.
    replies = [answers.reply_of(answer) for answer in told]
    recorded = [reply if fact is None else fact for (_, fact), reply in zip(events[1:], replies)]
    at = answers.first_difference(lines, replies, recorded, given.see)
    if at is None:
        known = sum(fact is not None for _, fact in events)
        print("no difference: %d events, %d recorded replies" % (len(lines) - 1, known))
        return 0
    print("\n".join(words.explained(lines, told, recorded, at, who="recorded")))
    return 1
