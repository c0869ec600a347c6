"""Which kinds of events had which replies and which notices, and what never came."""

import collections

from boardevents import EVENTS

def reply_kind(reply):
    words = reply.split(" ")
    if words[0] == "taken":
        return "taken none" if words[1:] == ["none"] else "taken vector"
    return reply if words[0] in ("refused", "general") else words[0]


class Coverage:
    """How often each (kind of event, kind of reply, kinds of notices) came."""

    def __init__(self):
        self.seen = collections.Counter()
        self.memo = {}

    def add(self, lines, answers):
        seen, memo = self.seen, self.memo
        for line, answer in zip(lines[1:], answers):
            key = (line[:4], answer) if len(answer) < 24 else None
            found = memo.get(key)
            if found is None:
                found = self.kind(line, answer)
                if key and len(memo) < 50000:
                    memo[key] = found
            seen[found] += 1

    @staticmethod
    def kind(line, answer):
        reply, *notices = answer.split("\n")
        kinds = sorted({notice.split(" ", 2)[1] for notice in notices if notice.startswith(". ")})
        return line.split(" ", 1)[0], reply_kind(reply), " ".join(kinds)

    def missing(self, without=(), has_sparse=False):
        """What can happen by docs/MACHINE.md and docs/FORMATS.md, and has not."""
        replies = {(event, reply) for event, reply, _ in self.seen}
        notices = {(event, notice) for event, _, kinds in self.seen for notice in kinds.split()}
        for word, event in EVENTS.items():
            if word in without:
                continue
            numbers = event.refusals + (event.sparse_refusals if has_sparse else ())
            wanted = event.replies + tuple("refused %d" % number for number in numbers)
            for reply in wanted:
                if (word, reply) not in replies:
                    yield "%s: = %s" % (word, reply)
            for notice in event.notices:
                if (word, notice) not in notices:
                    yield "%s: . %s" % (word, notice)
