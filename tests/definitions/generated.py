"""Scripts and texts from a seed. Those of cases/scripts.py are near every limit; these are wider: sparse boards of up to
64 processors, numbers of any size, and lines with a fault."""

import random

import scripts

REGISTERS = scripts.REGISTERS + list(range(0x40000090, 0x400000B8))


class Wide(scripts.Maker):
    def __init__(self, seed):
        super().__init__(seed)
        self.is_sparse = self.random.random() < 0.5
        if self.is_sparse:
            self.processors = self.random.choice((1, 2, 5, 16, 64))
            self.sims = [self.page() for _ in range(self.processors)]

    def page(self):
        if not self.is_sparse:
            return super().page()
        return self.random.choice((*range(8), 2 ** 52 - 1, self.random.randrange(2 ** 52)))

    def number(self, most):
        return self.random.choice((0, 1, most - 1, most, self.random.randrange(most + 1), self.random.randrange(min(most, 300) + 1)))

    def any(self):
        r, p = self.random, self.processor()
        place = self.sims[r.randrange(self.processors)] * scripts.PAGE + scripts.SLOT * r.randrange(16)
        return r.choice((
            "write %d %x %x" % (p, r.choice(REGISTERS), self.number(scripts.MOST)),
            "write %d %x %x" % (p, 0x400000B0 + r.randrange(8), r.getrandbits(r.randrange(65))),
            "write %d %x %x" % (p, 0x40000090 + r.randrange(16), r.getrandbits(20)),
            "open %d message %d %d %d" % (self.number(255), p, r.randrange(17), r.randrange(18)),
            "open %d event %d %d %d %d" % (r.randrange(17), p, r.randrange(17), self.number(2100), self.number(2100)),
            "post %d %x %s" % (r.randrange(17), self.number(2 ** 32 - 1), self.data(240)),
            "signal %d %d" % (r.randrange(17), self.number(65535)), "assert %d %02x" % (p, r.randrange(16, 256)),
            "absorb %d %d %x" % (p, r.randrange(5), r.getrandbits(64)), "store %x %s" % (self.address(), self.data(8)),
            "store %x %s" % (place + r.randrange(6), self.data(8)), "load %x 8" % (place + r.choice((0, 5, 8, 16))),
            "send %02x %x" % (r.randrange(16, 256), r.getrandbits(self.processors)), "close %d" % r.randrange(17),
            "read %d %x" % (p, r.choice(REGISTERS)), "summary"))

    def lines(self):
        r = self.random
        yield "board %d %s %d" % (self.processors, "sparse" if self.is_sparse else self.pages, self.number(scripts.MOST))
        yield from self.setup()
        often = (self.post, self.consume, self.end, self.timer, self.tick, self.take)
        seldom = (self.suspend, self.resume, self.resume, self.reset)
        for _ in range(r.choice((20, 40, 100))):
            yield self.any() if r.random() < 0.5 else r.choice(often * 2 + seldom)()
        if r.random() < 0.2:
            yield r.choice(("tick", "tick 01", "board 1 1 0", "post 1 1 0", "assert 0 0f", "take 256", "x" * 641, "# " + "c" * 600))
        yield "summary"


def wide(seed):
    return "".join(line + "\n" for line in Wide(seed).lines()).encode()


def changed(texts, seed):
    """One of these texts, with up to three bytes or lines changed, put in or left out, or cut."""
    r = random.Random(seed)
    text = bytearray(r.choice(texts))
    for _ in range(r.choice((1, 1, 2, 3))):
        at = r.randrange(len(text) + 1)
        byte = r.choice((*b"\0\t\n\r  #-019AFafgx\x80\xff", r.randrange(256)))
        text = r.choice((text[:at] + bytes([byte]) + text[at + 1:], text[:at] + bytes([byte]) + text[at:],
                         text[:at] + text[at + 1:], text[:at], with_lines_changed(r, text)))
    return bytes(text)


def with_lines_changed(r, text):
    """The text with a line left out, twice, or in place of another one."""
    lines = text.splitlines(True) or [b""]
    line, at = r.choice(lines), r.randrange(len(lines))
    return b"".join(lines[:at] + r.choice(([], [line], [line, lines[at]])) + lines[at + 1:])
