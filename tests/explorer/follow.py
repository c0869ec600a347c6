"""Compares the followed state of the explorer with the answers of the program: the summary after each
event, reads of every register, loads of the overlay pages, and the order in which vectors are taken."""

import os
import sys

ROOT = os.path.dirname(os.path.dirname(os.path.dirname(os.path.abspath(__file__))))

sys.dont_write_bytecode = True
sys.path.insert(0, os.path.join(ROOT, "tools"))
import boardlog  # noqa: E402 (the folder of the tools has to be known first)
from explorer.machine import Machine  # noqa: E402

MASKED, AUTO, POLLING = 1 << 16, 1 << 17, 1 << 18

NAMES = {0x40000072: "tpr", 0x40000080: "scontrol", 0x40000082: "siefp", 0x40000083: "simp"}

REGISTERS = ([0x40000020, 0x40000072] + list(range(0x40000080, 0x40000085))
             + list(range(0x40000090, 0x400000A0)) + list(range(0x400000B0, 0x400000B8)))


# each has a greater class than the one before
NESTED = ("2f", "4f", "80", "f0")


def next_of(state, vp):
    """The next vector, by the rules for priorities."""
    if state["p%d.suspended" % vp]:
        return None
    serving = [int(vector, 16) for vector in state["p%d.serving" % vp]]
    priority = max([int(state["p%d.tpr" % vp], 16) // 16] + [vector // 16 for vector in serving])
    awaited = [vector for vector in state["p%d.requested" % vp] if int(vector, 16) // 16 > priority]
    return max(awaited) if awaited else None


def auto_of(state, vp):
    sources = [int(state["p%d.sint%d" % (vp, sint)], 16) for sint in range(16)]
    return sorted({"%02x" % (value & 0xFF) for value in sources if value & AUTO and not value & (MASKED | POLLING)})


def owners_of(state, processors):
    owners = {}
    for vp in range(processors):
        for name, kind in (("simp", "sim"), ("siefp", "sief")):
            value = int(state["p%d.%s" % (vp, name)], 16)
            if value & 1 and value >> 12 < state["pages"]:
                owners.setdefault(value >> 12, (kind, vp))
    return owners


def earliest_of(state, processors):
    dues = [(int(state["p%d.timer%d" % (vp, index)][2]), vp, index) for vp in range(processors) for index in range(4)
            if state["p%d.timer%d" % (vp, index)][2] is not None and not state["p%d.suspended" % vp]]
    return min(dues) if dues else None


def value_of(state, vp, register):
    """What a read of the register answers."""
    fixed = {0x40000020: int(state["time"]), 0x40000081: 1, 0x40000084: 0}
    if register in fixed:
        return fixed[register]
    if register in NAMES:
        return int(state["p%d.%s" % (vp, NAMES[register])], 16)
    if register < 0x400000A0:
        return int(state["p%d.sint%d" % (vp, register - 0x40000090)], 16)
    timer = state["p%d.timer%d" % (vp, (register - 0x400000B0) // 2)]
    return int(timer[1]) if register % 2 else int(timer[0], 16)


def byte_of(state, kind, vp, place):
    if kind == "sim":
        page = bytes.fromhex(state["p%d.slot%d" % (vp, place // 256)][0]).ljust(256, b"\0")
        return page[place % 256]
    return sum(1 << (flag & 7) for flag in state["p%d.flags%d" % (vp, place // 256)] if flag >> 3 == place % 256)


def loaded(state, address, length, owners):
    """The bytes of a load from an overlay, or nothing for a guest page."""
    kind, vp = owners.get(address // 4096, (None, 0))
    return kind and bytes(byte_of(state, kind, vp, address % 4096 + i) for i in range(length)).hex()


def answer(state, words, processors):
    """The reply that the state foretells, or nothing."""
    if words[0] == "read" and int(words[2], 16) in REGISTERS:
        return "value %x" % value_of(state, int(words[1]), int(words[2], 16))
    if words[0] == "load":
        data = loaded(state, int(words[1], 16), int(words[2]), owners_of(state, processors))
        return data and "bytes " + data
    if words[0] == "take":
        return "taken %s" % (next_of(state, int(words[1])) or "none")
    if words[0] == "post":
        return "accepted %s" % state["ticket"]
    return None


def summary_complaints(state, summary, processors, changed):
    """The differences from a summary, as to next and auto-EOI vectors of the processors of changed keys."""
    for vp in {int(key[1]) for key in changed if key[0] == "p" and key[2] == "."}:
        told = summary.next[vp]
        if next_of(state, vp) != (None if told is None else "%02x" % told):
            yield "processor %d: next is %s" % (vp, next_of(state, vp))
        if auto_of(state, vp) != sorted("%02x" % auto for auto in summary.auto.get(vp, ())):
            yield "processor %d: auto-EOI are %s" % (vp, auto_of(state, vp))
    lengths = {(vp, sint): len(state["p%d.queue%d" % (vp, sint)]) for vp in range(processors) for sint in range(16)}
    if {source: length for source, length in lengths.items() if length} != summary.queues:
        yield "queues are %s" % summary.queues
    if owners_of(state, processors) != summary.pages:
        yield "pages are %s" % summary.pages
    if earliest_of(state, processors) != summary.timer:
        yield "the earliest timer is %s, not %s" % (summary.timer, earliest_of(state, processors))


def complaints_of(board, steps):
    """Each difference between the followed state and what the program says."""
    machine, processors = Machine(board), int(board.split()[1])
    for number, step in enumerate(steps, 1):
        if not step.is_refused:
            foretold = answer(machine.state, step.words, processors)
            if foretold is not None and foretold != step.reply:
                yield "event %d, %s: %s was foretold, the program answers %s" % (number, step.line, foretold, step.reply)
        changed = machine.follow(step)
        if not changed and step.words[0] in ("read", "load"):
            continue
        for complaint in summary_complaints(machine.state, step.summary, processors, changed):
            yield "event %d, %s: %s" % (number, step.line, complaint)


def reads(processors):
    return ["read %d %x" % (vp, register) for vp in range(processors) for register in REGISTERS]


def loads(state, kind, vp, page):
    """Loads of each part of an own page that holds something, and of the first bytes of the others."""
    for sint in range(16):
        part = state["p%d.%s%d" % (vp, "slot" if kind == "sim" else "flags", sint)]
        full = part[0] if kind == "sim" else part
        for place in range(0, 256 if full else 8, 8):
            yield "load %x 8" % (4096 * page + 256 * sint + place)


def look(state, processors):
    """Events that change nothing and show the registers and the visible overlays."""
    lines = reads(processors)
    for page, (kind, vp) in owners_of(state, processors).items():
        lines += loads(state, kind, vp, page)
    return lines


def last_look(state, processors):
    """Shows the registers and all own pages, takes all vectors, some of them nested, writes all bits of a
    configuration, and lets all timers run."""
    lines = look(state, processors)
    for vp in range(processors):
        lines += ["write %d 40000083 0" % vp, "write %d 40000082 0" % vp]
    for vp in range(processors):
        for kind, register in (("sim", 0x40000083), ("sief", 0x40000082)):
            lines += ["write %d %x 1" % (vp, register), *loads(state, kind, vp, 0), "write %d %x 0" % (vp, register)]
        lines += ["resume %d" % vp] if state["p%d.suspended" % vp] else []
        lines += ["take %d" % vp, "write %d 40000072 0" % vp]
        for vector in NESTED:
            lines += ["assert %d %s" % (vp, vector), "take %d" % vp]
        rounds = len(state["p%d.requested" % vp]) + len(state["p%d.serving" % vp]) + len(NESTED) + 1
        lines += ["take %d" % vp, "take %d" % vp, "write %d 40000070 0" % vp] * rounds
        lines += ["write %d 400000b6 ffffffffffffffff" % vp, "read %d 400000b6" % vp]
    lines += ["tick %d" % min(2 ** 64 - 1, int(state["time"]) + step) for step in (1, 1000, 2 ** 64)]
    return lines + reads(processors)


def with_looks(board, steps, every):
    """The lines of the events, with looks between them and at the end."""
    machine, processors, lines = Machine(board), int(board.split()[1]), []
    for number, step in enumerate(steps, 1):
        lines.append(step.line)
        machine.follow(step)
        if number % every == 0:
            lines += look(machine.state, processors)
    return lines + last_look(machine.state, processors)


def compare(program, text, every):
    """Follows a script or a trace, with looks, and returns the differences."""
    board, _ = boardlog.events_of(text)
    _, steps = boardlog.steps_of(program, text)
    script = "\n".join([board] + with_looks(board, steps, every)) + "\n"
    return list(complaints_of(board, boardlog.steps_of(program, script)[1]))
