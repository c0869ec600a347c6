"""Encodes scripts as inputs of the fuzz target, and makes inputs of the VMBus target (target.c and vmbus.c have the
forms of the bytes)."""

import glob
import os
import random

ROOT = os.path.dirname(os.path.dirname(os.path.dirname(os.path.abspath(__file__))))

TEXT = b"\xff"
RAISE_AND_ABSORB = (19, 20)
SPARSE = 16

# The action of each event, with the words of its line by the letter of their field. `forms` of target.c has the same
# letters in the same order, except that a payload and bytes are both B.
LINES = {
    ("open", "message"): (1, "p_vsb"), ("open", "event"): (2, "p_vsfc"), ("close",): (3, "p"), ("write",): (4, "vrx"),
    ("read",): (5, "vr"), ("post",): (6, "ptB"), ("signal",): (7, "pf"), ("assert",): (8, "vV"), ("absorb",): (9, "vPx"),
    ("store",): (10, "aB"), ("load",): (11, "al"), ("tick",): (12, "m"), ("take",): (13, "v"), ("suspend",): (14, "v"),
    ("resume",): (15, "v"), ("reset",): (16, "v"), ("send",): (17, "Vx"),
}
HEXADECIMAL = "rxtaV"


def number(value):
    length = (value.bit_length() + 7) // 8
    return bytes([length]) + value.to_bytes(length, "little")


def register(value):
    if 0x40000000 <= value < 0x400000FF:
        return bytes([value - 0x40000000])
    return b"\xff" + number(value)


def payload(word):
    data = b"" if word == "-" else bytes.fromhex(word)
    return bytes([len(data)]) + data


class Encoder:
    """Encodes one script. Ticks are encoded as the time since the last tick that was not refused."""

    def __init__(self):
        self.moment = 0

    def field(self, letter, word):
        if letter == "B":
            return payload(word)
        value = int(word, 16 if letter in HEXADECIMAL else 10)
        if letter == "r":
            return register(value)
        if letter == "m":
            since = (value - self.moment) % 2 ** 64
            self.moment = max(self.moment, value)
            return number(since)
        return number(value) if letter in "fctxa" else bytes([value])

    def event(self, words):
        action, letters = LINES[(words[0], words[2]) if words[0] == "open" else (words[0],)]
        fields = [(letter, word) for letter, word in zip(letters, words[1:]) if letter != "_"]
        if len(words) - 1 != len(letters):
            raise ValueError(words)
        return bytes([action]) + b"".join(self.field(letter, word) for letter, word in fields)

    def script(self, text):
        lines = [line.split() for line in text.splitlines() if line and not line.startswith("#")]
        _, processors, pages, ticket = lines[0]
        sizes = [SPARSE, int(processors) - 1] if pages == "sparse" else [int(processors) - 1 + 8 * (len(lines) % 2), int(pages) - 1]
        head = bytes(sizes) + number(int(ticket))
        return head + b"".join(b"\x00" if words[0] == "summary" else self.event(words) for words in lines[1:])


def paths():
    for pattern in ("cases/replay/*.script", "cases/sparse/*.script", "examples/*.script", "examples/differences/*.script", "conformance/*/*.script"):
        yield from sorted(glob.glob(os.path.join(ROOT, pattern)))


def traces():
    """Traces and images."""
    for pattern in ("cases/check/*.trace", "examples/*.trace", "cases/save/*.stdout"):
        yield from sorted(glob.glob(os.path.join(ROOT, pattern)))


def lines_input(sizes, vps):
    """Raises and absorbs through lines, which no script has, on a board of these sizes."""
    both = b"".join(bytes([RAISE_AND_ABSORB[0], 0, vp, vector, RAISE_AND_ABSORB[0], 0, vp, vector, RAISE_AND_ABSORB[1], 0, vp, vector // 64])
                    for vp in vps for vector in (15, 16, 64, 255))
    return bytes([*sizes, 0, 21, 1]) + both + bytes([22, 3, 23, 0, 24, 0])


def inputs():
    """Each input with a name. A script that does not decode is an input as a text alone."""
    yield "lines", lines_input([1, 1], (0, 1))
    yield "lines-sparse", lines_input([SPARSE, 63], (0, 62, 63, 64))
    for path in paths():
        name = os.path.relpath(path, ROOT).replace(os.sep, "-")
        with open(path, "rb") as file:
            text = file.read()
        if len(text) < 4096:
            yield name + "-text", TEXT + text
        try:
            yield name, Encoder().script(text.decode("ascii"))
        except (ValueError, KeyError, IndexError, OverflowError):
            pass
    for path in traces():
        with open(path, "rb") as file:
            text = file.read()
        if len(text) < 4096:
            yield os.path.relpath(path, ROOT).replace(os.sep, "-"), TEXT + text


# Actions of vmbus.c, and the four messages of `post_good`.
POST_WORDS, POST_GOOD, SIGNAL, DELIVER, TICK, TAKE, ANSWER, RESCIND = 1, 3, 7, 8, 9, 10, 11, 13
CONTACT, OFFERS, GPADL, OPEN = range(4)
USED_CONNECTION, TYPE = 1, 1


def good(message, channel=0, pages=4, version=0):
    return bytes([POST_GOOD, channel, pages]) + number(version) + bytes([message])


def words(*values):
    return bytes([POST_WORDS, USED_CONNECTION, 4 * len(values), TYPE]) + b"".join(map(number, values))


def vmbus_inputs():
    """A guest that makes contact, opens a channel, answers some requests, and ends it in one of three ways."""
    for version in (0, 0x20004, 0x40001, 0x50002):
        for channel in range(3):
            begin = good(CONTACT, version=version) + bytes([TAKE]) + good(OFFERS) + bytes([TAKE] * 4)
            opened = good(GPADL, channel) + bytes([TAKE]) + good(OPEN, channel) + bytes([TAKE])
            answer = bytes([ANSWER, channel, 0, 0])
            beats = answer + (bytes([TICK, channel, DELIVER, 0]) + answer) * 5 + bytes([SIGNAL, channel + 1, 0])
            relid = channel + 1
            ends = {
                "closed": words(7, 0, relid) + words(11, 0, relid, relid) + bytes([TAKE]),
                "rescinded": bytes([RESCIND, channel, TAKE]) + words(13, 0, relid) + bytes([TAKE]),
                "unloaded": words(22, 0, relid, 1) + words(16, 0) + bytes([TAKE]),
            }
            for how, end in ends.items():
                yield "%x-%d-%s" % (version, channel, how), begin + opened + beats + end + opened + beats


def write_all(folder, found):
    for name, data in found:
        with open(os.path.join(folder, name), "wb") as file:
            file.write(data)


def write(folder):
    write_all(folder, inputs())


def write_vmbus(folder):
    write_all(folder, vmbus_inputs())


def write_live(folder):
    """Actions at random, the same in each run."""
    source = random.Random(1)
    write_all(folder, ((str(count), bytes(source.randrange(256) for _ in range(source.randrange(2048)))) for count in range(64)))
