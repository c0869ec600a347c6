"""Scripts in which a processor, a port or a timer has a smaller number."""

# The place of the number in the line of each event.
PROCESSORS = {"write": 1, "read": 1, "assert": 1, "absorb": 1, "take": 1, "suspend": 1, "resume": 1, "reset": 1, "open": 3}
PORTS = {"open": 1, "close": 1, "post": 1, "signal": 1}

STIMER0, TIMERS = 0x400000B0, 4


def numbered(places):
    """How to read the number of a line, and to write another; None if it has none."""
    def get(words):
        return int(words[places[words[0]]]) if words[0] in places else None

    def put(words, number):
        at = places[words[0]]
        return words[:at] + ["%d" % number] + words[at + 1:]
    return get, put


def timer(words):
    if words[0] not in ("write", "read"):
        return None
    place = int(words[2], 16) - STIMER0
    return place // 2 if 0 <= place < 2 * TIMERS else None


def with_timer(words, index):
    register = STIMER0 + 2 * index + int(words[2], 16) % 2
    return words[:2] + ["%x" % register] + words[3:]


KINDS = (numbered(PROCESSORS), numbered(PORTS), (timer, with_timer))


def renamed(lines):
    """Each candidate: all lines with one number replaced by the least that is not used."""
    board, events = lines[0], [line.split(" ") for line in lines[1:]]
    for get, put in KINDS:
        used = {get(words) for words in events} - {None}
        for number in sorted(used):
            free = next((other for other in range(number) if other not in used), None)
            if free is not None:
                yield [board] + [" ".join(put(words, free) if get(words) == number else words) for words in events]
