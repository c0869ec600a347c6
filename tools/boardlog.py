"""The replies of a board to the events of a script or a trace, and the state after each event."""

import re
import subprocess

import boardfaults

# the first line of a trace, and of an image, which may be the second of a trace
TITLES = (["trace 1"], ["trace 2"], ["trace 3"])
IMAGE = ["image 1"]
NO_IMAGES = "the trace begins with an image, which this tool does not read; `synicboard check` does"

# the registers that make an overlay visible, by the number that a script has, and the kind of its page
OVERLAYS = {"40000083": "sim", "40000082": "sief"}


class Fault(Exception):
    """There are no replies: the text is neither a script nor a trace, or the program failed."""


class Summary:
    """A parsed summary."""

    def __init__(self, lines):
        self.next, self.auto, self.pages, self.queues, self.timer = {}, {}, {}, {}, None
        for line in lines:
            kind, *words = line.split()[1:]
            if kind == "next":
                self.next[int(words[0])] = None if words[1] == "none" else int(words[1], 16)
            elif kind == "auto":
                self.auto[int(words[0])] = {int(vector, 16) for vector in words[1:]}
            elif kind == "timer" and words[0] != "none":
                self.timer = tuple(map(int, words))
            elif kind == "page":
                self.pages[int(words[0])] = (words[1], int(words[2]))
            elif kind == "queue":
                self.queues[int(words[0]), int(words[1])] = int(words[2])


class Step:
    """One event: its line, its actor (None in a script), its reply and notices, and the summary
    after it."""

    def __init__(self, line, actor, output):
        self.line, self.actor = line, actor
        self.words = line.split()
        self.reply = output[0][2:]
        self.notices = [text.split()[1:] for text in output if text.startswith(". ")]
        self.summary = Summary([text for text in output if text.startswith(": ")])

    @property
    def is_refused(self):
        return self.reply.startswith("refused") or self.reply == "general protection"


def events_of(text):
    """The board line, and each event with its actor, of a script or of a trace."""
    lines = [line for line in text.splitlines() if line and not line.startswith("#")]
    if lines[:1] in TITLES and lines[1:2] == IMAGE:
        raise Fault(NO_IMAGES)
    if lines[:1] in TITLES:
        numbered = [line.split(" ", 1) for line in lines[2:] if line[0].isdigit()]
        return lines[1], [(event, int(actor)) for actor, event in numbered]
    return lines[0] if lines else "", [(line, None) for line in lines[1:] if line != "summary"]


def answers(program, script):
    done = subprocess.run([program, "replay"], input=script.encode(), stdout=subprocess.PIPE, stderr=subprocess.PIPE)
    output = done.stdout.decode()
    if done.returncode:
        last = output.splitlines()[-1:] or [done.stderr.decode().strip()]
        named = re.fullmatch(r"! (\d+) (\w+)", last[0])
        raise Fault(boardfaults.explain(script, int(named[1]), named[2]) if named else last[0])
    return output.splitlines()


def steps_of(program, text):
    """The number of processors, and the steps of a script or of a trace."""
    if not text.startswith("trace "):
        answers(program, text)
    board, events = events_of(text)
    script = [board] + [line for event, _ in events for line in (event, "summary")]
    output = answers(program, "\n".join(script) + "\n")
    starts = [i for i, line in enumerate(output) if line.startswith("= ")] + [len(output)]
    steps = [Step(event, actor, output[starts[i]:starts[i + 1]]) for i, (event, actor) in enumerate(events)]
    processors, pages = board.split()[1:3]
    if pages == "sparse":
        show_overlays(steps)
    return int(processors), steps


def show_overlays(steps):
    """The summaries of a sparse board name no pages, so those with an overlay follow from the writes of SIMP
    and SIEFP. Of several overlays at one page the first is visible, by processor, SIMP before SIEFP."""
    enabled = {}
    for step in steps:
        words = step.words
        if words[0] == "write" and words[2] in OVERLAYS and step.reply == "done":
            enabled[int(words[1]), OVERLAYS[words[2]]] = int(words[3], 16)
        elif words[0] == "reset" and step.reply == "done":
            enabled = {place: value for place, value in enabled.items() if place[0] != int(words[1])}
        for (vp, kind), value in sorted(enabled.items(), key=lambda one: (one[0][0], one[0][1] != "sim")):
            if value & 1:
                step.summary.pages.setdefault(value >> 12, (kind, vp))


class State:
    """The state after the steps so far: requests, vectors in service, slots, queues, suspended
    processors, and the time."""

    def __init__(self):
        self.moment = 0
        self.requested, self.serving, self.slots, self.queues, self.pending = {}, {}, {}, {}, set()
        self.suspended = set()
        self.summary = None

    def go_on(self, step):
        words, auto = step.words, (self.summary or step.summary).auto
        for notice in step.notices:
            self.note(notice)
        if words[0] == "tick" and step.reply == "done":
            self.moment = int(words[1])
        if words[0] == "store" and step.reply == "done" and words[2] != "-":
            self.store(int(words[1], 16), bytes.fromhex(words[2]), (self.summary or step.summary).pages)
        if words[0] == "take" and step.reply not in ("taken none",) and not step.is_refused:
            vector = int(step.reply.split()[1], 16)
            self.requested.setdefault(int(words[1]), set()).discard(vector)
            if vector not in auto.get(int(words[1]), set()):
                self.serving.setdefault(int(words[1]), set()).add(vector)
        if words[0] == "write" and words[2] == "40000070" and step.reply == "done":
            serving = self.serving.get(int(words[1]), set())
            serving.discard(max(serving, default=None))
        if words[0] == "suspend" and step.reply == "done":
            self.suspended.add(int(words[1]))
        if words[0] == "resume" and step.reply == "done":
            self.suspended.discard(int(words[1]))
        if words[0] == "reset" and step.reply == "done":
            self.reset(int(words[1]))
        self.summary = step.summary

    def store(self, address, data, pages):
        """A guest may write MessagePending itself: bit 0 of byte 5 of a slot."""
        for at, byte in enumerate(data, address):
            kind, vp = pages.get(at // 4096, ("guest", 0))
            source = (vp, at % 4096 // 256)
            if kind == "sim" and at % 256 == 5 and source in self.slots:
                (self.pending.add if byte & 1 else self.pending.discard)(source)

    def reset(self, vp):
        """Its notices have emptied its slots and queues."""
        self.requested.pop(vp, None)
        self.serving.pop(vp, None)
        self.pending = {source for source in self.pending if source[0] != vp}
        self.suspended.discard(vp)

    def note(self, notice):
        kind, numbers = notice[0], notice[1:]
        if kind == "requested":
            self.requested.setdefault(int(numbers[0]), set()).add(int(numbers[1], 16))
        elif kind in ("accepted", "placed", "consumed", "withdrawn"):
            ticket, source = int(numbers[0]), (int(numbers[1]), int(numbers[2]))
            queue = self.queues.setdefault(source, [])
            if kind == "accepted":
                queue.append(ticket)
            elif kind == "withdrawn" and self.slots.get(source) == ticket:
                del self.slots[source]
            elif kind != "consumed":
                queue.remove(ticket)
            if kind == "placed":
                self.slots[source] = ticket
                self.pending.discard(source)
            elif kind == "consumed":
                self.slots.pop(source, None)
                self.pending.discard(source)
        elif kind == "pending":
            self.pending.add((int(numbers[0]), int(numbers[1])))
