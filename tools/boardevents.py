"""The events of a board: for each its lines, its sentence, and what may answer it, as docs/FORMATS.md and
docs/MACHINE.md have them."""

import collections
import re

DECIMAL = "0|[1-9][0-9]*"
HEXADECIMAL = "0|[1-9a-f][0-9a-f]*"


class Number:
    """A field that is a number up to some greatest one."""

    def __init__(self, name, most, base=10):
        self.name, self.most, self.base = name, most, base
        top = "%d" % most if base == 10 else "%x" % most
        self.form = "a%s number from 0 to %s, without leading zeros" % ("" if base == 10 else " hexadecimal", top)

    def takes(self, text):
        return bool(re.fullmatch(DECIMAL if self.base == 10 else HEXADECIMAL, text)) and int(text, self.base) <= self.most


class Vector:
    name, form = "vector", "two hexadecimal digits, 10 to ff"

    def takes(self, text):
        return bool(re.fullmatch("[1-9a-f][0-9a-f]", text))


class Pages(Number):
    """A number of pages, or the word of a sparse board."""

    def __init__(self):
        super().__init__("pages", 255)
        self.form += ", or `sparse`"

    def takes(self, text):
        return text == "sparse" or super().takes(text)


class Bytes:
    """A field of at most so many bytes."""

    def __init__(self, name, most):
        self.name, self.most = name, most
        self.form = "0 to %d bytes, two hexadecimal digits (0 to 9, a to f) a byte, or - for none" % most

    def takes(self, text):
        return text == "-" or bool(re.fullmatch("(?:[0-9a-f]{2}){1,%d}" % self.most, text))


def small(*names):
    return [Number(name, 255) for name in names]


WORD, LONG = 2**32 - 1, 2**64 - 1

BOARD = small("processors") + [Pages(), Number("ticket", LONG)]

REGISTERS = {0x40000020: "the reference counter", 0x40000070: "EOI", 0x40000072: "TPR", 0x40000080: "SCONTROL",
             0x40000081: "SVERSION", 0x40000082: "SIEFP", 0x40000083: "SIMP", 0x40000084: "EOM"}


def register(number):
    if 0x40000090 <= number < 0x400000A0:
        return "SINT%d" % (number - 0x40000090)
    if 0x400000B0 <= number < 0x400000B8:
        kind = ("CONFIG", "COUNT")[number % 2]
        return "STIMER%d_%s" % ((number - 0x400000B0) // 2, kind)
    return REGISTERS.get(number, "register %x" % number)


def access(kind):
    return lambda n: "processor %s %s %s" % (n[0], kind, register(int(n[1], 16)))


def processors(mask):
    """The processors of a mask."""
    numbers = [str(p) for p in range(64) if mask >> p & 1]
    if not numbers:
        return "no processor"
    return "processor%s %s" % ("s" if len(numbers) > 1 else "", ", ".join(numbers))


# The fields of its line, or of each of its lines by the word after the port; its sentence, of the fields; its
# replies and its refusals, and those of a sparse board alone; its notices.
Event = collections.namedtuple("Event", "fields sentence replies refusals sparse_refusals notices", defaults=((), (), ()))

DONE = ("done",)

EVENTS = {
    "open": Event({"message": small("vp", "sint", "buffers"),
                   "event": small("vp", "sint") + [Number("base", 65535), Number("count", 65535)]},
                  lambda n: "port %s is opened for SINT%s of processor %s" % (n[0], n[3], n[2]), DONE, (1, 2, 4)),
    "close": Event(small("port"), lambda n: "port %s is closed" % n[0], DONE, (1,), notices=("withdrawn",)),
    "write": Event(small("vp") + [Number("register", WORD, 16), Number("value", LONG, 16)], access("writes"),
                   ("done", "general protection"), (14,), notices=("expired", "requested", "accepted", "placed", "pending")),
    "read": Event(small("vp") + [Number("register", WORD, 16)], access("reads"), ("value", "general protection"), (14,)),
    "post": Event(small("port") + [Number("type", WORD, 16), Bytes("payload", 240)],
                  lambda n: "a message of type %s is posted to port %s" % (n[1], n[0]),
                  ("accepted",), (1, 3, 5, 7, 8, 9), notices=("accepted", "placed", "pending", "requested")),
    "signal": Event(small("port") + [Number("flag", 65535)], lambda n: "flag %s of port %s is signalled" % (n[1], n[0]),
                    ("clear", "set"), (1, 3, 6, 7), notices=("flag", "requested")),
    "assert": Event(small("vp") + [Vector()], lambda n: "vector %s is asserted at processor %s" % (n[1], n[0]),
                    DONE, (14,), notices=("requested",)),
    "absorb": Event(small("vp", "part") + [Number("bits", LONG, 16)],
                    lambda n: "posted vectors of processor %s are taken in" % n[0], DONE, (14, 4), notices=("requested",)),
    "store": Event([Number("address", LONG, 16), Bytes("bytes", 8)], lambda n: "a guest stores at %s" % n[0],
                   DONE, (13, 11, 12), (17,), notices=("consumed",)),
    "load": Event([Number("address", LONG, 16)] + small("length"), lambda n: "a guest loads from %s" % n[0],
                  ("bytes",), (13, 11, 12), (17,)),
    "tick": Event([Number("time", LONG)], lambda n: "the clock goes on to %s" % n[0],
                  DONE, (10,), notices=("expired", "skipped", "requested", "accepted", "placed", "pending")),
    "take": Event(small("vp"), lambda n: "processor %s takes its next interrupt" % n[0], ("taken vector", "taken none"), (14,)),
    "suspend": Event(small("vp"), lambda n: "processor %s is suspended" % n[0], DONE, (14, 15)),
    "resume": Event(small("vp"), lambda n: "processor %s goes on" % n[0], DONE, (14, 16)),
    "reset": Event(small("vp"), lambda n: "processor %s is reset" % n[0], DONE, (14,), notices=("withdrawn",)),
    "send": Event([Vector(), Number("mask", LONG, 16)],
                  lambda n: "vector %s is sent to %s" % (n[0], processors(int(n[1], 16))), DONE, (14,), notices=("requested",)),
}
