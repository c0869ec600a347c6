"""Makes random scripts, from a seed: scenes in which the events concern the same few sources, vectors
and deadlines, with values near every limit now and then."""

import random

MOST = 2 ** 64 - 1
PAGE, SLOT = 4096, 256

EOI, TPR, SCONTROL, SIEFP, SIMP, EOM = 0x40000070, 0x40000072, 0x40000080, 0x40000082, 0x40000083, 0x40000084
SINT0, STIMER0 = 0x40000090, 0x400000B0

READABLE = ([0x40000020, EOI, TPR] + list(range(SCONTROL, EOM + 1)) + list(range(STIMER0, STIMER0 + 8)) * 2
            + [SINT0, SINT0 + 2, SINT0 + 15])
STRANGE = (0, 0x1B, 0x40000002, 0x40000020, 0x40000071, 0x40000073, 0x40000081, 0x40000085, 0x400000A0, 0x400000B8, 0xFFFFFFFF)

# How many events follow the setup of a scene, and how many scenes a script has.
EVENTS, SCENES = 60, 10

OFTEN = ("consume", "look", "post", "tick", "take", "end", "timer", "source", "look")
SELDOM = ("signal", "interrupt", "send", "absorb", "enable", "read", "strange", "store", "load", "port", "processor", "look_below", "priority", "hostile", "drain", "drain", "pause", "alarm", "crowd")


class Maker:
    """The lines of one script."""

    scenes = SCENES

    def __init__(self, seed, without=()):
        self.dice = random.Random(seed).random
        self.without = set(without)
        self.now = 0
        self.deadlines = []
        self.choose_board()

    def choose_board(self):
        self.processors, self.pages = self.pick((1, 1, 2, 3, 8)), self.pick((1, 2, 4, 4, 64))
        self.size = "%d %d" % (self.processors, self.pages)
        self.absent_vps = (self.processors, 8, 255)
        self.space, self.other_pages = range(self.pages), (0, self.pages - 1, self.pages, 2 ** 51)
        self.absent_masks = (2 ** self.processors, 2 ** 32 | 1, 2 ** 63 | 1, MOST)
        self.seldom = SELDOM

    def choose_scene(self):
        """The processors and ports of the next scene: even ports are for messages."""
        self.vps, self.ports = range(self.processors), (0, 1, 2, 3)
        self.other_openings, self.other_posts, self.other_signals = (0, 4, 15, 16, 255), (1, 4, 15, 16, 255), (0, 2, 5, 16)
        self.other_closings = (4, 16)

    def below(self, count):
        return int(self.dice() * count)

    def pick(self, choices):
        return choices[int(self.dice() * len(choices))]

    def rarely(self, part=0.06):
        return self.dice() < part

    def vp(self):
        return self.pick(self.vps) if self.dice() < 0.985 else self.pick(self.absent_vps)

    def page(self):
        return self.pick(self.used_pages) if self.dice() < 0.9 else self.pick(self.other_pages)

    # ---- A scene ----

    def scene(self):
        """What the events of the next scene concern, and its setup."""
        self.choose_scene()
        self.used_pages = [self.pick(self.space) for _ in range(3)]
        self.sources = [self.pick((1, 2, 2, 3, 15)), self.pick((0, 2, 4, 14))]
        first = self.pick((0x10, 0x3F, 0x50, 0x71, 0xE0))
        self.vectors = [first, min(255, first + 1), min(255, first + 16), self.pick((16, 31, 32, 64, 127, 255))]
        self.sims, self.siefs = {}, {}
        self.opened, self.deadlines = [], []
        self.is_calm = self.dice() < 0.6
        for vp in self.vps:
            if "reset" not in self.without and self.now:
                yield "reset %d" % vp
            if vp == self.vps[0] or self.dice() < 0.5:
                yield from self.setup(vp)
        for port in self.ports:
            yield "close %d" % port
            yield self.opening(port)

    def setup(self, vp):
        if self.dice() < 0.9:
            yield "write %d %x 1" % (vp, SCONTROL)
        if self.dice() < 0.9:
            yield self.mapped(vp, SIMP, self.sims)
        if self.dice() < 0.8:
            yield self.mapped(vp, SIEFP, self.siefs)
        for source in self.sources:
            yield "write %d %x %x" % (vp, SINT0 + source, self.sint())

    def mapped(self, vp, register, places):
        place = self.page()
        places[vp] = place
        return "write %d %x %x" % (vp, register, place * PAGE + (1 if self.dice() < 0.95 else self.pick((0, 3, 0xFFF))))

    def sint(self):
        if self.is_calm or self.dice() < 0.7:
            return self.pick(self.vectors) + self.pick((0, 0, 0, 0x20000, 0x20000, 0x10000))
        high = self.pick((0, 0x10000, 0x20000, 0x30000, 0x40000, 0x50000, 0x60000, 1 << 40))
        return high + self.pick((0, 15, 16, 255, 0x150))

    def opening(self, port):
        self.opened.append(port)
        if self.rarely():
            port = self.pick(self.other_openings)
        source = self.pick(self.sources) if self.dice() < 0.96 else self.pick((15, 16))
        if port % 2 == 0:
            return "open %d message %d %d %d" % (port, self.vp(), source, self.pick((1, 2, 3, 16, 0, 17)) if self.rarely() else 1 + self.below(3))
        shape = (self.pick((0, 1, 8, 60)), self.pick((1, 4, 64)))
        if self.rarely(0.15):
            shape = self.pick(((2047, 1), (2047, 2), (0, 2048), (65535, 65535), (0, 0)))
        return "open %d event %d %d %d %d" % (port, self.vp(), source, *shape)

    # ---- Events ----

    def slot(self, vp=None):
        """The address of a slot that is used, of a page that was mapped."""
        if not self.sims:
            return self.page() * PAGE
        vp = self.pick(list(self.sims)) if vp is None else vp
        return self.sims[vp] * PAGE + SLOT * self.pick(self.sources)

    def consume(self):
        if not self.is_calm and self.rarely(0.2):
            return "store %x %s" % (self.slot() + self.below(4), self.pick(("00", "0000", "01", "0000000000000000", "000000000080")))
        return "store %x 00000000" % self.slot()

    def look(self):
        where = self.dice()
        if where < 0.2 and self.siefs:
            vp = self.pick(list(self.siefs))
            return "load %x 8" % (self.siefs[vp] * PAGE + SLOT * self.pick(self.sources) + self.pick((0, 0, 0, 8, 248)))
        return "load %x 8" % (self.slot() + self.pick((0, 0, 8, 16, 16, 24, 32, 40)))

    def look_below(self):
        return "load %x 8" % (self.page() * PAGE + self.pick((0, 0x200, SLOT * self.pick(self.sources))))

    def drain(self):
        """A guest that receives what waits for one source."""
        vp = self.pick(list(self.sims)) if self.sims else 0
        slot = self.slot(vp) if self.sims else 0
        for _ in range(1 + self.below(4)):
            yield "load %x 8" % (slot + 16)
            yield "load %x 8" % (slot + 24)
            yield "store %x 00000000" % slot
            yield "write %d %x 0" % (vp, EOM)

    def alarm(self):
        """A one-shot, and what there is just before and at its deadline."""
        vp, index, wait = self.pick(self.vps), self.below(4), self.pick((2, 4, 10, 50))
        target = self.pick((0x1000 | self.pick(self.vectors) << 4, self.pick(self.sources) << 16))
        yield "write %d %x %x" % (vp, STIMER0 + 2 * index, target | self.pick((8, 8, 12)))
        yield "write %d %x %x" % (vp, STIMER0 + 2 * index + 1, self.now + wait)
        for time in (self.now + wait - 1, self.now + wait, self.now + wait + wait // 4):
            yield "tick %d" % time
            yield "take %d" % vp
        self.now += wait + wait // 4
        yield "read %d %x" % (vp, STIMER0 + 2 * index)

    def crowd(self):
        """Timers that send to one source, the last first, and what its guest receives."""
        vp, target = self.pick(self.vps), self.pick(self.sources) << 16 | 8
        for index in self.pick(((2, 1, 0), (3, 2, 0), (1, 0))):
            yield "write %d %x %x" % (vp, STIMER0 + 2 * index, target)
            yield "write %d %x %x" % (vp, STIMER0 + 2 * index + 1, self.now + 1)
            self.now += 1
            yield "tick %d" % self.now
        yield from self.drain()

    def pause(self):
        """A periodic timer whose tick comes late, and what it makes up."""
        vp, vector = self.pick(self.vps), self.pick(self.vectors)
        yield "write %d %x %x" % (vp, STIMER0 + 1, 10)
        yield "write %d %x %x" % (vp, STIMER0, 0x1000 | vector << 4 | self.pick((3, 3, 7)))
        self.now += 10 * self.pick((2, 8, 9, 10, 12)) + self.pick((0, 0, 1, 4, 5, 9))
        for _ in range(self.pick((1, 3, 10))):
            yield "tick %d" % self.now
            yield "take %d" % vp
            yield "write %d %x 0" % (vp, EOI)
            self.now += self.pick((1, 1, 1, 2))
        yield "tick %d" % self.now

    def post(self):
        kind = 1 + self.below(3) if self.dice() < 0.95 else self.pick((0, 2 ** 31 - 1, 2 ** 31, 2 ** 32 - 1, 256))
        length = self.pick((0, 1, 2, 8, 16)) if self.dice() < 0.93 else self.pick((24, 239, 240))
        text = (self.pick(("0a", "0b", "ff", "01")) * length) or "-"
        return "post %d %x %s" % (self.pick(self.ports[::2]) if self.dice() < 0.95 else self.pick(self.other_posts), kind, text)

    def signal(self):
        flag = self.below(4) if self.dice() < 0.85 else self.pick((7, 8, 63, 64, 2047, 65535))
        return "signal %d %d" % (self.pick(self.ports[1::2]) if self.dice() < 0.93 else self.pick(self.other_signals), flag)

    def interrupt(self):
        return "assert %d %02x" % (self.vp(), self.pick(self.vectors))

    def mask(self):
        return self.below(2 ** self.processors)

    def send(self):
        mask = self.mask() if self.dice() < 0.9 else self.pick(self.absent_masks)
        return "send %02x %x" % (self.pick(self.vectors), mask)

    def absorb(self):
        vector = self.pick(self.vectors)
        if self.rarely(0.3):
            return "absorb %d %d %x" % (self.vp(), self.pick((0, 0, 1, 3, 4, 255)), self.pick((0, 1, 0x18000, 2 ** 63, 0xFFFF, MOST)))
        return "absorb %d %d %x" % (self.vp(), vector // 64, 1 << vector % 64)

    def tick(self):
        """To near a deadline, or near a multiple of its period, or somewhere."""
        time = self.now + self.pick((0, 1, 1, 3, 10, 100))
        if self.deadlines and self.dice() < 0.7:
            deadline, period = self.pick(self.deadlines)
            time = deadline + self.pick((0, 0, -1, 1)) + period * self.pick((0, 0, 0, 1, 2, 7, 8, 9, 20))
            if self.rarely(0.3):
                time += period * self.pick((1, 2, 3)) // 4
        if self.rarely(0.01):
            time = self.now - self.pick((1, 5))
        time = max(0, min(time, MOST))
        # a clock at its end would end the scenes after this one
        if time > self.now + 2 ** 40:
            time = self.now + 1
        self.now = max(self.now, time)
        return "tick %d" % time

    def timer(self):
        vp, index = self.vp(), self.below(4) if self.dice() < 0.3 else self.below(2)
        if self.dice() < 0.5:
            return self.timer_count(vp, index)
        target = self.pick(self.sources) << 16
        if self.dice() < 0.4:
            target |= 0x1000 | (self.pick(self.vectors) << 4)
        if self.rarely(0.08):
            target = self.pick((0, 0x1000, 0x10F0, 0x11000, 0x200F0, 0x10000))
        bits = self.pick((1, 1, 1, 3, 3, 7, 7, 5, 8, 8, 9, 10, 11, 14, 0))
        if self.rarely():
            bits |= self.pick((1 << 13, 1 << 20, 1 << 63))
        return "write %d %x %x" % (vp, STIMER0 + 2 * index, target | bits)

    def timer_count(self, vp, index):
        count = self.pick((4, 8, 10, 20, 100))
        self.deadlines = self.deadlines[-5:] + [(self.now + count, count)]
        if self.dice() < 0.4:
            count = self.now + self.pick((0, 5, 10, 10, 50))
            if self.rarely(0.3):
                count = max(0, self.now - self.pick((0, 1, 5)))
            self.deadlines = self.deadlines[-5:] + [(count, 10)]
        if self.rarely(0.12):
            count = self.pick((0, 0, 1, MOST, MOST - self.now, 2 ** 63))
        return "write %d %x %x" % (vp, STIMER0 + 2 * index + 1, min(count, MOST))

    def take(self):
        return "take %d" % self.vp()

    def end(self):
        value = 0 if self.dice() < 0.9 else self.pick((1, 0xFF, 2 ** 32, MOST))
        return "write %d %x %x" % (self.vp(), self.pick((EOI, EOM, EOM)), value)

    def priority(self):
        return "write %d %x %x" % (self.vp(), TPR, self.pick((0, 0, 0x0F, 0x10, 0x50, 0x5F, 0xF0, 0x150, 2 ** 32)))

    def source(self):
        return "write %d %x %x" % (self.vp(), SINT0 + self.pick(self.sources), self.sint())

    def enable(self):
        vp, register = self.vp(), self.pick((SCONTROL, SIEFP, SIMP, SIMP))
        if register == SCONTROL:
            return "write %d %x %x" % (vp, SCONTROL, self.pick((0, 1, 1, 1, 1, 2, 3)))
        if self.rarely(0.3):
            return "write %d %x 0" % (vp, register)
        return self.mapped(vp, register, self.sims if register == SIMP else self.siefs)

    def read(self):
        return "read %d %x" % (self.vp(), self.pick(READABLE))

    def strange(self):
        if self.dice() < 0.5:
            return "read %d %x" % (self.vp(), self.pick(STRANGE))
        return "write %d %x %x" % (self.vp(), self.pick(STRANGE), self.pick((0, 1, MOST)))

    def address(self):
        near_slot = max(0, SLOT * self.pick(self.sources) + self.below(12) - 4)
        place = self.pick((0, 1, PAGE - 1, PAGE - 4, PAGE - 8, SLOT * self.below(16), near_slot))
        return self.page() * PAGE + place if self.dice() < 0.95 else MOST

    def store(self):
        length = self.pick((1, 2, 4, 8)) if self.dice() < 0.95 else 0
        return "store %x %s" % (min(MOST, self.address()), (self.pick(("00", "01", "ff")) * length) or "-")

    def load(self):
        return "load %x %d" % (min(MOST, self.address()), self.pick((1, 4, 8)) if self.dice() < 0.9 else self.pick((0, 9, 255)))

    def port(self):
        if self.dice() < 0.5:
            return "close %d" % self.pick((*self.ports, *self.other_closings))
        return self.opening(self.pick(self.ports))

    def processor(self):
        kind = self.pick(("suspend", "suspend", "resume", "resume", "resume", "reset"))
        return "%s %d" % (kind, self.vp())

    def hostile(self):
        """A register that is written without regard to what it means."""
        register = self.pick((EOI, TPR, SCONTROL, SIEFP, SIMP, SINT0 + 2, STIMER0, STIMER0 + 1))
        value = self.pick((0, 1, 0x10000, 0xFFFFFFFF, 2 ** 32 + 1, MOST, 1 << 63, 0x20001))
        return "write %d %x %x" % (self.vp(), register, value)

    def lines(self):
        first = 0 if self.dice() < 0.7 else self.pick((1, 7, MOST - 1, MOST - 2, MOST - 4))
        yield "board %s %d" % (self.size, first)
        choices = [getattr(self, name) for name in OFTEN * 3 + self.seldom]
        for _ in range(self.scenes):
            yield from self.scene()
            for _ in range(EVENTS):
                made = self.pick(choices)()
                if isinstance(made, str):
                    yield made
                else:
                    yield from made


class SparseMaker(Maker):
    """The lines of one script on a sparse board of more than eight processors. Each scene concerns a few of them, also
    the last two. Its scenes are longer."""

    scenes = SCENES // 3

    def choose_board(self):
        self.processors = self.pick((9, 16, 33, 63, 64, 64))
        self.size = "%d sparse" % self.processors
        self.absent_vps = (self.processors, 64, 128, 255)
        self.space, self.other_pages = (0, 1, 2, 63, 64, 2 ** 20, 2 ** 52 - 1), (0, 5, 2 ** 51)
        self.absent_masks = (2 ** 63 | 1, MOST, 2 ** (self.processors - 1), 2 ** self.processors % 2 ** 64)
        self.seldom = SELDOM + ("storm", "fill")

    def choose_scene(self):
        last, count = self.processors - 1, 4 * self.processors
        self.vps = sorted({self.below(self.processors), self.below(self.processors), self.pick((0, 7, 8)), last - 1, last})
        first = 2 * self.below(count // 2 - 1)
        self.ports = (first, first + 1, count - 2, count - 1) if first < count - 4 else (0, 1, 2, 3)
        near = tuple(port % 256 for port in (first + 16, first + 48, count, 255))
        self.other_openings, self.other_posts, self.other_signals = near, (self.ports[1], *near), (self.ports[0], *near)
        self.other_closings = near

    def mask(self):
        return sum({1 << self.pick(self.vps) for _ in range(1 + self.below(4))})

    def some(self, count, of):
        """So many of the numbers below `of`, in any order."""
        return sorted(range(of), key=lambda _: self.dice())[:count]

    def started(self, timer, kind, deadline):
        vp, register = timer // 4, STIMER0 + 2 * (timer % 4)
        yield "write %d %x %x" % (vp, register + 1, deadline)
        yield "write %d %x %x" % (vp, register, kind | 1)

    def storm(self):
        """More timers than expire in one tick, and the ticks in which all do. Some are due first, and may not be ready."""
        timers = self.some(self.pick((33, 34, 36, 64)), 4 * self.processors)
        held = timers[:32] if self.rarely(0.25) else []
        for timer in timers:
            target = self.pick(self.sources) << 16 if timer in held else 0x1000 | self.pick(self.vectors) << 4
            yield from self.started(timer, target, self.now + (1 if timer in held else 2 + self.pick((0, 0, 0, 1))))
        self.now += 3
        for _ in range(3):
            yield "tick %d" % self.now
            yield "take %d" % (timers[-1] // 4)
            self.now += 1
        for timer in held:
            yield "write %d %x 0" % (timer // 4, STIMER0 + 2 * (timer % 4) + 1)

    def fill(self):
        """Ports with all buffers of a processor, or of two with less, and one more."""
        vps = self.pick(([self.pick(self.vps)], [self.vps[0], self.vps[-1]]))
        ports = [port for port in self.some(24, 4 * self.processors) if port not in self.ports][:18]
        for at, port in enumerate(ports):
            yield "open %d message %d %d 16" % (port, vps[at % len(vps)], self.pick(self.sources))
        again = self.pick(ports[:16])
        yield "close %d" % again
        yield "open %d message %d 2 %d" % (again, vps[0], self.pick((1, 15, 16)))
        yield "open %d event %d 2 0 1" % (ports[17], vps[0])
        for port in ports:
            yield "close %d" % port


def script(seed, number, without=(), each_sparse=0):
    """The lines of script `number` of a seed. One of `each_sparse` is of a sparse board."""
    kind = SparseMaker if each_sparse and number % each_sparse == each_sparse - 1 else Maker
    lines = kind("%d:%d" % (seed, number), without).lines()
    return [line for line in lines if not line.startswith(tuple(without))] if without else list(lines)
