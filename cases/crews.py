"""What holds for a crew's trace under any schedule: it is legal; it begins with the setup and ends
with the last absorbs of actor 0; each actor's entries are its script, and there are no others; each
raised vector is absorbed at least once and at most as often as it was raised; and its end line
counts the entries and the accepted posts."""

import collections
import random

ACTORS, LINES = 15, 16


class Script:
    """The sections of a crew script without faults, which has a board line, or else the image of its
    board. `beginning` is how its trace begins."""

    def __init__(self, text, image=None):
        lines = [line for line in text.decode().splitlines() if line and not line.startswith("#")]
        sends = any(line.startswith("send ") for line in lines)
        if image is None:
            board = lines.pop(0)
            self.beginning = "trace %d\n%s\n" % (3 if sends or " sparse " in board else 2, board)
        else:
            board = image.decode().splitlines()[1]
            self.beginning = "trace 3\n%s" % image.decode()
        self.processors, self.first_ticket = int(board.split()[1]), int(board.split()[3])
        self.setup, self.actors, self.lines = [], [], []
        section = self.setup
        for line in lines:
            if line == "actor":
                section = []
                self.actors.append(section)
            elif line == "line":
                section = []
                self.lines.append(section)
            else:
                section.append(line)

    def entries(self):
        """How many entries a history of the crew has: the setup, the scripts, and the last absorbs."""
        return len(self.setup) + sum(map(len, self.actors)) + 4 * self.processors

    def raised(self):
        """How often each vector of each processor is raised."""
        counts = collections.Counter()
        for line in self.lines:
            for step in line:
                _, vp, vector = step.split()
                counts[int(vp), int(vector, 16)] += 1
        return counts


class Trace:
    """The entries of a trace after its beginning: the actor, the event and the reply of each."""

    def __init__(self, text, beginning):
        self.begun = text.decode()[:len(beginning)]
        *body, self.end = text.decode()[len(beginning):].splitlines()
        self.entries = [(*event.split(" ", 1), reply) for event, reply in zip(body[::2], body[1::2])]

    def of(self, actor):
        return [(event, reply) for number, event, reply in self.entries if number == str(actor)]

    def accepted(self):
        """How many posts were accepted. No crew here has a timer that sends messages."""
        return sum(reply.startswith("= accepted ") for _, _, reply in self.entries)

    def absorbed(self):
        """How often each vector of each processor is among the bits of a performed absorb."""
        counts = collections.Counter()
        for _, event, reply in self.entries:
            words = event.split()
            if words[0] == "absorb" and reply == "= done":
                bits = int(words[3], 16)
                for bit in range(64):
                    if bits >> bit & 1:
                        counts[int(words[1]), 64 * int(words[2]) + bit] += 1
        return counts


def is_step(step, event):
    """Whether an event performs a step of a script: a sweep appears as the absorb of the bits that
    it took."""
    if step.startswith("absorb "):
        return event.startswith(step + " ")
    return event == step


def is_script(steps, entries):
    return len(steps) == len(entries) and all(
        is_step(step, event) for step, (event, _) in zip(steps, entries))


def complaints_of(script, trace):
    found = []
    last = ["absorb %d %d" % (vp, part) for vp in range(script.processors) for part in range(4)]
    if trace.begun != script.beginning:
        found.append("it begins %r, and not %r" % (trace.begun[:400], script.beginning[:400]))
    if trace.end != "end %d %d" % (len(trace.entries), script.first_ticket + trace.accepted()):
        found.append("it ends %r" % trace.end)
    begun = trace.entries[:len(script.setup)]
    ended = trace.entries[len(trace.entries) - len(last):]
    if any(number != "0" for number, _, _ in begun + ended):
        found.append("the setup or the last absorbs are not in their places")
    if not is_script(script.setup + last, trace.of(0)):
        found.append("actor 0 has other entries")
    for number, steps in enumerate(script.actors, 1):
        if not is_script(steps, trace.of(number)):
            found.append("actor %d has other entries than its script" % number)
    surplus = {number for number, _, _ in trace.entries} - {str(number) for number in range(len(script.actors) + 1)}
    if surplus:
        found.append("actors without a script have entries: %s" % ", ".join(sorted(surplus)))
    if len(trace.entries) != script.entries():
        found.append("it has %d entries, and not %d" % (len(trace.entries), script.entries()))
    raised, absorbed = script.raised(), trace.absorbed()
    for vector in raised:
        if not 1 <= absorbed[vector] <= raised[vector]:
            found.append("vector %r was raised %d times and absorbed %d times"
                         % (vector, raised[vector], absorbed[vector]))
    found += ["vector %r was absorbed and never raised" % (vector,)
              for vector in absorbed if vector not in raised]
    return found


def split(script):
    """The board line and the setup of a crew script, and its sections."""
    lines = script.splitlines(True)
    at = next((at for at, line in enumerate(lines) if line in (b"actor\n", b"line\n")), len(lines))
    return b"".join(lines[:at]), b"".join(lines[at:])


def crowd(seed, steps):
    """A crew of the greatest size on one board: every actor posts, sweeps, takes and ends,
    suspends, resumes and resets, and every line raises."""
    chance = random.Random(seed)
    text = ["board 8 4 0"]
    for vp in range(8):
        text += ["write %d 40000080 1" % vp, "write %d 40000083 2001" % vp, "write %d 40000092 50" % vp,
                 "open %d message %d 2 4" % (vp, vp)]
    for actor in range(ACTORS):
        text.append("actor")
        for _ in range(steps):
            vp = chance.randrange(8)
            text.append(chance.choice(["absorb %d %d" % (vp, chance.randrange(4)), "take %d" % vp,
                                       "write %d 40000070 0" % vp, "write %d 40000084 0" % vp,
                                       "post %d 1 %02x" % (vp, actor), "read %d 40000072" % vp,
                                       "suspend %d" % vp, "resume %d" % vp, "reset %d" % vp,
                                       "write %d 40000080 1" % vp, "write %d 40000083 2001" % vp]))
    for _ in range(LINES):
        text.append("line")
        text += ["raise %d %02x" % (chance.randrange(8), chance.randrange(0x20, 0x40) * 4)
                 for _ in range(8 * steps)]
    return ("\n".join(text) + "\n").encode()


def lines_alone():
    """Sixteen lines of one raise each, and no actor."""
    return ("board 1 1 0\n" + "line\nraise 0 60\n" * LINES).encode()


def full(processors, more):
    """As many steps as a history has capacity for, plus `more`, in one section."""
    room = 65536 - 4 * processors
    lines = ["board %d 1 0" % processors, "actor"] + ["take 0"] * (room + more)
    return ("\n".join(lines) + "\n").encode(), room + 3
