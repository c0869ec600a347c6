"""The fullest boards, one that holds guest pages and a sparse one: each of their parts as many times as there
can be, and each field as wide as it can be. Their images are written here by docs/FORMATS.md alone."""

import os
import subprocess
import tempfile

SOURCES, BUFFERS = 16, 16

# the processors and the guest pages of each
BOARDS = (8, 64), (64, 0)

BLOCKS = range(0, 4096, 256)

# as many bytes as a payload can have
PAYLOAD = "5a" * 240

MOST = (1 << 64) - 1

# the source to which a port, and each timer of a processor, sends
FIRST_SINT, TIMER_SINT = 10, 15

SECONDS = 120


def ports(processors, pages):
    """How many ports the board has: 16, or on a sparse board four for each processor."""
    return 16 if pages else max(16, 4 * processors)


def first_ticket(processors, pages):
    """The first ticket, if the last one is the greatest that was given: those of all queued messages and slots."""
    return MOST - ports(processors, pages) * BUFFERS - processors * (4 + SOURCES)


def first_queued(processors, pages):
    """The ticket after those in the slots, which are before all that are queued."""
    return first_ticket(processors, pages) + processors * SOURCES


def target(port, processors):
    """The processor and the source of a port: the processors whose numbers are widest share the ports."""
    widest = [vp for vp in range(processors) if len(str(vp)) == len(str(processors - 1))]
    return widest[port % len(widest)], FIRST_SINT + port // len(widest)


def words(first):
    return " ".join(["%x" % first] + ["f" * 16] * 3)


def queued(vp, sint, tickets, processors, pages):
    """The messages of a source: those of its port, or those of all timers of its processor."""
    for port in range(ports(processors, pages)):
        if target(port, processors) == (vp, sint):
            for _ in range(BUFFERS):
                yield "message %d %d %d port %d 7fffffff %s" % (vp, sint, next(tickets), port, PAYLOAD)
    if sint == TIMER_SINT:
        for timer in range(4):
            yield "message %d %d %d timer %d %d %d" % (vp, sint, next(tickets), vp, timer, MOST)


def lines(processors, pages):
    tickets = iter(range(first_queued(processors, pages), MOST))
    yield "image 1"
    yield "board %d %d %d" % (processors, pages, MOST)
    yield "moment %d" % MOST
    for vp in range(processors):
        yield "lapic %d %s %s ff suspended" % (vp, words(MOST - 0xffff), words(MOST - 0xffff))
    for vp in range(processors):
        for name in ["scontrol", "siefp", "simp"] + ["sint%d" % sint for sint in range(SOURCES)]:
            yield "register %d %s %x" % (vp, name, MOST)
    for page in range(pages):
        for offset in BLOCKS:
            yield "page %d %x %s" % (page, offset, "a5" * 256)
    for vp in range(processors):
        for kind in ["sim", "sief"]:
            for offset in BLOCKS:
                yield "own %d %s %x %s" % (vp, kind, offset, "c3" * 256)
    for port in range(ports(processors, pages)):
        yield "open %d message %d %d %d" % (port, *target(port, processors), BUFFERS)
    for vp in range(processors):
        for timer in range(4):
            yield "timer %d %d f1fff %x due 1 %x" % (vp, timer, MOST, MOST - 1)
    for vp in range(processors):
        for sint in range(SOURCES):
            yield from queued(vp, sint, tickets, processors, pages)
    placed = iter(range(first_ticket(processors, pages), first_queued(processors, pages)))
    for vp in range(processors):
        for sint in range(SOURCES):
            yield "slot %d %d %d" % (vp, sint, next(placed))
    yield "end"


def image(processors, pages):
    return "".join(line + "\n" for line in lines(processors, pages))


def script_and_output(processors, pages):
    """Events on that board: port 0 has no buffer left, and closing it withdraws its messages."""
    vp, sint = target(0, processors)
    # those before it are of the timers of the processors below
    first = first_queued(processors, pages) + 4 * vp
    withdrawn = "".join(". withdrawn %d %d %d\n" % (first + k, vp, sint) for k in range(BUFFERS))
    return ("post 0 1 -\nclose 0\npost 0 1 -\n",
            "= refused 8\n= done\n%s= refused 1\n" % withdrawn)


def ran(binary, arguments, text):
    return subprocess.run([binary, *arguments], input=text.encode(), stdout=subprocess.PIPE,
                          stderr=subprocess.PIPE, timeout=SECONDS)


def complaints_of(binary, processors, pages):
    """It is restored, performs events, and is the start of a crew and of a trace, whose image is the
    same text."""
    text = image(processors, pages)
    script, output = script_and_output(processors, pages)
    with tempfile.TemporaryDirectory() as folder:
        path = os.path.join(folder, "image")
        with open(path, "w") as file:
            file.write(text)
        replayed = ran(binary, ["replay", "--from", path], script)
        if (replayed.returncode, replayed.stdout.decode()) != (0, output):
            yield "replay: %r" % ((replayed.returncode, replayed.stdout[:400], replayed.stderr),)
        crew = ran(binary, ["crew", "--from", path], "actor\npost 0 1 -\n")
        trace = crew.stdout.decode()
        if crew.returncode != 0 or not trace.startswith("trace 3\n%s1 post 0 1 -\n= refused 8\n" % text):
            yield "crew: %r" % ((crew.returncode, trace[:100], crew.stderr),)
        # the post, and the last absorbs: one for each part of each processor
        entries = 1 + 4 * processors
        checked = ran(binary, ["check"], trace)
        if (checked.returncode, checked.stdout) != (0, b"legal %d\n" % entries):
            yield "check: %r" % ((checked.returncode, checked.stdout, checked.stderr),)


def complaints(binary):
    for processors, pages in BOARDS:
        for complaint in complaints_of(binary, processors, pages):
            yield "%d processors: %s" % (processors, complaint)
