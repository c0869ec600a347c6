"""Generates scripts of events near every limit, from a seed. The program's own check of traces
validates their replies; no expected output is stored."""

import random

EVENTS = 40

# EOI and task priority, the SynIC's registers, its sources, the timers, and registers that do not
# exist
REGISTERS = ([0x40000070, 0x40000072] + list(range(0x40000080, 0x40000085))
             + list(range(0x40000090, 0x400000A0)) + list(range(0x400000B0, 0x400000B8))
             + [0, 0x40000071, 0x400000A0, 0xFFFFFFFF])

SCONTROL, SIEFP, SIMP, EOM = 0x40000080, 0x40000082, 0x40000083, 0x40000084

MOST = 2 ** 64 - 1

PAGE = 4096

SLOT = 256


class Maker:
    """Generates the lines of one script."""

    def __init__(self, seed):
        self.random = random.Random(seed)
        self.processors = self.random.choice((1, 2, 8))
        self.pages = self.random.choice((1, 4, 64))
        self.sims = [self.random.randrange(self.pages) for _ in range(self.processors)]
        self.moment = 0

    def mostly(self, usual, others):
        return usual if self.random.random() < 0.9 else self.random.choice(others)

    def processor(self):
        return self.mostly(self.random.randrange(self.processors), (self.processors, 7, 8, 255))

    def port(self, usual):
        return self.mostly(usual, (0, 1, 2, 15, 16, 255))

    def page(self):
        return self.mostly(self.random.randrange(self.pages), (self.pages, 2 ** 40))

    def data(self, most):
        length = self.random.choice((0, 1, most - 1, most, self.random.randrange(most + 1)))
        filler = self.random.choice((b"\x00", b"\x01", b"\xff"))
        return (filler * length).hex() or "-"

    def address(self):
        place = self.random.choice((0, 1, PAGE - 1, PAGE - 8, SLOT * self.random.randrange(16),
                                    SLOT * self.random.randrange(16) + self.random.randrange(8),
                                    self.random.randrange(PAGE)))
        return self.mostly(self.page() * PAGE + place, (MOST,))

    def value(self, register):
        """A value that is valid for the register, or a random one."""
        if register in (SCONTROL, EOM):
            return self.random.choice((0, 1, 1, 1, 2))
        if register in (SIMP, SIEFP):
            return self.page() * PAGE + self.random.choice((0, 1, 1, 1, 3))
        if 0x40000090 <= register < 0x400000A0:
            vector = self.random.choice((0, 15, 16, 80, 81, 255))
            return vector + self.random.choice((0, 0, 0x10000, 0x20000, 0x30000, 0x40000))
        if 0x400000B0 <= register < 0x400000B8 and register % 2 == 0:
            direct = 0x1000 + 16 * self.random.choice((0, 15, 16, 64, 255))
            return self.random.choice((direct, 0x10000 * self.random.randrange(16))) + self.random.randrange(16)
        return self.random.choice((0, 1, 7, 10, 255, 2 ** 32, MOST, self.random.randrange(1000)))

    def write(self):
        register = self.random.choice(REGISTERS)
        return "write %d %x %x" % (self.processor(), register, self.value(register))

    def read(self):
        return "read %d %x" % (self.processor(), self.random.choice(REGISTERS))

    def open(self):
        source = self.random.choice((0, 2, 15, 16))
        where = (self.random.choice((2, 3, 15, 16)), self.random.choice(("message", "event")), self.processor(), source)
        if where[1] == "message":
            return "open %d %s %d %d %d" % (where + (self.random.choice((0, 1, 2, 16, 17)),))
        return "open %d %s %d %d %d %d" % (where + self.random.choice(((0, 1), (0, 64), (2047, 1), (2047, 2), (0, 2048), (65535, 65535), (0, 0))))

    def close(self):
        return "close %d" % self.random.choice((0, 1, 2, 3, 15, 16))

    def post(self):
        kind = self.mostly(1, (0, 2, 2 ** 31 - 1, 2 ** 31, 2 ** 32 - 1))
        return "post %d %x %s" % (self.port(0), kind, self.data(240))

    def signal(self):
        return "signal %d %d" % (self.port(1), self.random.choice((0, 1, 2, 3, 63, 64, 2047, 65535)))

    def interrupt(self):
        return "assert %d %02x" % (self.processor(), self.random.choice((16, 17, 31, 32, 80, 254, 255)))

    def absorb(self):
        bits = self.random.choice((0, 1, 2 ** 16 - 1, 2 ** 16, 2 ** 63, MOST))
        return "absorb %d %d %x" % (self.processor(), self.random.choice((0, 1, 3, 4, 255)), bits)

    def store(self):
        return "store %x %s" % (self.address(), self.data(8))

    def consume(self):
        """Empties the slot of source 2, if the message page is where it was first mapped."""
        return "store %x 00000000" % (self.sims[self.random.randrange(self.processors)] * PAGE + 2 * SLOT)

    def end(self):
        return "write %d %x 0" % (self.processor(), self.random.choice((0x40000070, EOM)))

    def timer(self):
        """Writes the count or the configuration of a timer, periodic or not, that requests a vector
        or sends messages."""
        vp, index = self.processor(), self.random.randrange(4)
        if self.random.random() < 0.5:
            return "write %d %x %x" % (vp, 0x400000B1 + 2 * index, self.random.choice((0, 1, 10, 100, 2 ** 32, MOST)))
        mode = self.random.choice((0x1000 + 16 * 64, 2 * 0x10000))
        return "write %d %x %x" % (vp, 0x400000B0 + 2 * index, mode + self.random.choice((1, 2, 3, 8, 9, 10, 11)))

    def load(self):
        return "load %x %d" % (self.address(), self.random.choice((0, 1, 7, 8, 9, 255)))

    def tick(self):
        self.moment = min(MOST, self.moment + self.random.choice((0, 1, 7, 10, 100, 2 ** 32)))
        return "tick %d" % self.mostly(self.moment, (max(self.moment - 1, 0), 2 ** 63, MOST))

    def take(self):
        return "take %d" % self.processor()

    def send(self):
        mask = self.random.randrange(2 ** self.processors)
        return "send %02x %x" % (self.random.choice((16, 80, 255)), self.mostly(mask, (2 ** self.processors, 2 ** 63 | mask, MOST)))

    def suspend(self):
        return "suspend %d" % self.processor()

    def resume(self):
        return "resume %d" % self.processor()

    def reset(self):
        return "reset %d" % self.processor()

    def setup(self):
        """Sets up each processor's SynIC with its two pages, a message port and an event port."""
        for vp in range(self.processors):
            yield "write %d %x 1" % (vp, SCONTROL)
            yield "write %d %x %x" % (vp, SIMP, self.sims[vp] * PAGE + 1)
            yield "write %d %x %x" % (vp, 0x40000092, self.random.choice((80, 0x20000 + 80, 0x10000 + 80)))
            yield "write %d %x %x" % (vp, SIEFP, self.page() * PAGE + 1)
            yield "write %d %x a" % (vp, 0x400000B1)
            yield "write %d %x %x" % (vp, 0x400000B0, self.random.choice((0x1403, 0x20003, 0x20002)))
        yield "open 0 message 0 2 16"
        yield "open 1 event 0 2 0 64"

    def lines(self):
        first = self.random.choice((0, 0, 0, MOST - 2, MOST - 1, MOST))
        yield "board %d %d %d" % (self.processors, self.pages, first)
        if self.random.random() < 0.9:
            yield from self.setup()
        often = (self.post, self.consume, self.end, self.timer, self.tick, self.take)
        seldom = (self.write, self.read, self.open, self.close, self.signal, self.interrupt, self.absorb,
                  self.store, self.load, self.suspend, self.resume, self.resume, self.reset, self.send)
        for _ in range(EVENTS):
            yield self.random.choice(often * 3 + seldom)()


def script(seed):
    return "".join(line + "\n" for line in Maker(seed).lines()).encode()
