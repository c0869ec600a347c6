"""Describes a step in words."""

from boardevents import EVENTS, register

REFUSALS = {
    1: "no such port is open", 2: "the port is open already", 3: "the port is of the other kind",
    4: "there is no such target", 5: "a post can't have this type", 6: "the port has no such flag",
    7: "the SynIC or its page is off", 8: "all buffers of the port are in use", 9: "no ticket is left",
    10: "the clock can't go back", 11: "no page lies there", 12: "it crosses into another page",
    13: "1 to 8 bytes are moved", 14: "there is no such processor", 15: "it is suspended already",
    16: "it is not suspended",
    17: "the page is in the memory of the caller",
}

def source_word(value):
    bits = [name for bit, name in ((16, "masked"), (17, "AutoEOI"), (18, "polling")) if value >> bit & 1]
    return ", ".join(["vector %02x" % (value & 0xff)] + bits)


def timer_word(value):
    bits = [name for bit, name in ((0, "enabled"), (1, "periodic"), (2, "lazy"), (3, "AutoEnable")) if value >> bit & 1]
    target = "vector %02x" % (value >> 4 & 0xff) if value >> 12 & 1 else "SINT%d" % (value >> 16 & 15)
    return ", ".join(bits + ["for " + target])


def page_word(value):
    return "lies at page %d" % (value >> 12) if value & 1 else "is off"


def written(step, state):
    """Describes a successful write."""
    words = step.words
    vp, number, value = int(words[1]), int(words[2], 16), int(words[3], 16)
    name = register(number)
    if name == "EOI":
        serving = state.serving.get(vp)
        return "vector %02x ends" % max(serving) if serving else "nothing was in service"
    if name == "EOM":
        return "its sources are tried" if step.notices else "nothing is to be placed"
    if name == "TPR":
        return "vectors up to %02x are held back" % ((value & 0xf0) | 0xf)
    if name == "SCONTROL":
        return "the SynIC is %s" % ("on" if value & 1 else "off")
    if name in ("SIMP", "SIEFP"):
        return "the page of %s %s" % ("messages" if name == "SIMP" else "event flags", page_word(value))
    if name.startswith("SINT"):
        return source_word(value)
    if name.endswith("CONFIG"):
        return timer_word(value)
    return "%d" % value


NOTICES = {
    "accepted": lambda n: "message %s joins the queue of SINT%s of processor %s" % (n[0], n[2], n[1]),
    "placed": lambda n: "message %s goes into slot %s of processor %s" % (n[0], n[2], n[1]),
    "pending": lambda n: "slot %s of processor %s is occupied: MessagePending set" % (n[1], n[0]),
    "consumed": lambda n: "slot %s of processor %s is empty: message %s was consumed" % (n[2], n[1], n[0]),
    "withdrawn": lambda n: "message %s is withdrawn from the queue of SINT%s of processor %s" % (n[0], n[2], n[1]),
    "requested": lambda n: "vector %s is requested at processor %s" % (n[1], n[0]),
    "flag": lambda n: "flag %s of SINT%s of processor %s is set" % (n[2], n[1], n[0]),
    "expired": lambda n: "timer %s of processor %s expires for moment %s" % (n[1], n[0], n[2]),
    "skipped": lambda n: "timer %s of processor %s skips %s periods" % (n[1], n[0], n[2]),
}


def reply(step, state):
    """What the reply says beyond the notices, or nothing."""
    words = step.reply.split()
    if words[0] == "refused":
        return "refused: %s" % REFUSALS[int(words[1])]
    if words[0] == "general":
        return "#GP"
    if words[0] == "taken":
        if words[1] == "none":
            return "none is next"
        auto = int(words[1], 16) in (state.summary.auto.get(int(step.words[1]), ()) if state.summary else ())
        return "vector %s%s" % (words[1], ", which ends by itself" if auto else "")
    if words[0] == "done":
        return written(step, state) if step.words[0] == "write" else ""
    return {"value": "it has %s", "bytes": "the bytes are %s", "accepted": "as message %s",
            "clear": "it was clear", "set": "it was set already"}[words[0]].replace("%s", words[-1])


def notice(words, before, state):
    """Describes a notice; `before` has the earlier notices of the same event, and the state is that
    before the event."""
    if words[0] == "pending" and any(other[0] == "placed" and other[2:] == words[1:] for other in before):
        return "more waits behind it: MessagePending set"
    if words[0] == "withdrawn" and state.slots.get((int(words[2]), int(words[3]))) == int(words[1]):
        return "message %s is withdrawn from slot %s of processor %s" % (words[1], words[3], words[2])
    return NOTICES[words[0]](words[1:])


def explain(step, state):
    """The sentences for a step, given the state before it: the event with its reply, and each
    notice."""
    answer = reply(step, state)
    first = EVENTS[step.words[0]].sentence(step.words[1:]) + (": " + answer if answer else "")
    return [first] + [notice(words, step.notices[:i], state) for i, words in enumerate(step.notices)]
