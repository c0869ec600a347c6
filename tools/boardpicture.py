"""Draws the steps of a board: one event per row, with lanes for each processor."""

from xml.sax.saxutils import escape

import boardlog

ROW, TOP, LEFT, LETTER = 20, 64, 10, 6.7

INK, QUIET, WRONG = "#222222", "#8a8a8a", "#c0392b"

REQUESTED, SERVING, SLOT, MARKED, TIMER = "#2e86c1", "#1b4f72", "#d5f5e3", "#e67e22", "#7d3c98"

SUSPENDED = "#d6dbe4"

LEGEND = (("o", REQUESTED, "requested"), ("*", SERVING, "taken, in service"), ("#", "#1e8449", "slot holds a message"),
          ("#", MARKED, "MessagePending set"), ("t", TIMER, "a timer expires, or skips (x)"), ("!", WRONG, "refused, or #GP"))


class Canvas:
    """An SVG drawing."""

    def __init__(self):
        self.parts, self.width = [], 0

    def reach(self, x):
        self.width = max(self.width, x)

    def text(self, x, y, words, colour=INK, size=11, weight="normal"):
        self.reach(x + LETTER * len(words) * size / 11)
        self.parts.append('<text x="%g" y="%g" fill="%s" font-size="%g" font-weight="%s" xml:space="preserve">%s</text>'
                          % (x, y, colour, size, weight, escape(words)))

    def line(self, x, y, to_x, to_y, colour, wide=1.0):
        self.parts.append('<line x1="%g" y1="%g" x2="%g" y2="%g" stroke="%s" stroke-width="%g"/>' % (x, y, to_x, to_y, colour, wide))

    def dot(self, x, y, fill, colour):
        self.parts.append('<circle cx="%g" cy="%g" r="4" fill="%s" stroke="%s" stroke-width="1.5"/>' % (x, y, fill, colour))

    def box(self, x, y, width, height, fill, colour="none"):
        self.parts.append('<rect x="%g" y="%g" width="%g" height="%g" fill="%s" stroke="%s" stroke-width="1.5"/>' % (x, y, width, height, fill, colour))

    def svg(self, height):
        head = '<svg xmlns="http://www.w3.org/2000/svg" width="%d" height="%d" font-family="monospace">' % (self.width + LEFT, height)
        return "\n".join([head, '<rect width="100%" height="100%" fill="white"/>'] + self.parts + ["</svg>", ""])


class Lanes:
    """The position of the lane of each vector, source and timer of the steps."""

    def __init__(self, processors, steps, x):
        self.vectors, self.sources, self.timers, self.heads = {}, {}, {}, []
        used = {"vector": set(), "source": set(), "timer": set()}
        for step in steps:
            for kind, key in keys_of(step):
                used[kind].add(key)
        for vp in range(processors):
            begin = x
            for kind, width, place in (("vector", 34, self.vectors), ("source", 84, self.sources), ("timer", 112, self.timers)):
                for key in sorted(key for key in used[kind] if key[0] == vp):
                    place[key] = x
                    x += width
            if x > begin:
                self.heads.append((begin, x, vp))
                x += 20
        self.end = x


def keys_of(step):
    for notice in step.notices:
        numbers = notice[1:]
        if notice[0] == "requested":
            yield "vector", (int(numbers[0]), int(numbers[1], 16))
        elif notice[0] in ("expired", "skipped"):
            yield "timer", (int(numbers[0]), int(numbers[1]))
        elif notice[0] in ("flag", "pending"):
            yield "source", (int(numbers[0]), int(numbers[1]))
        else:
            yield "source", (int(numbers[1]), int(numbers[2]))


def draw_head(canvas, lanes):
    for x, _, vp in lanes.heads:
        canvas.text(x, 20, "processor %d" % vp, size=13, weight="bold")
    for (_, vector), x in lanes.vectors.items():
        canvas.text(x + 2, TOP - 18, "%02x" % vector, REQUESTED)
    for (_, sint), x in lanes.sources.items():
        canvas.text(x, TOP - 18, "SINT%d" % sint, "#1e8449")
    for (_, index), x in lanes.timers.items():
        canvas.text(x, TOP - 18, "timer %d" % index, TIMER)


def draw_suspended(canvas, lanes, after, y):
    """The lanes of a suspended processor are grey."""
    for x, end, vp in lanes.heads:
        if vp in after.suspended:
            canvas.box(x - 4, y - 10, end - x, ROW, SUSPENDED)


def draw_vectors(canvas, lanes, step, before, after, y):
    for (vp, vector), x in lanes.vectors.items():
        if vector in after.requested.get(vp, ()):
            canvas.line(x + 7, y, x + 7, y + ROW, REQUESTED, 1.5)
        if vector in after.serving.get(vp, ()):
            canvas.line(x + 13, y, x + 13, y + ROW, SERVING, 5)
        if ["requested", str(vp), "%02x" % vector] in step.notices:
            canvas.dot(x + 7, y, "white", REQUESTED)
        if step.words[:2] == ["take", str(vp)] and step.reply == "taken %02x" % vector:
            canvas.dot(x + 10, y, SERVING, SERVING)
        if vector in before.serving.get(vp, ()) and vector not in after.serving.get(vp, ()):
            canvas.line(x + 8, y, x + 18, y, SERVING, 2)


def draw_sources(canvas, lanes, step, after, y):
    for key, x in lanes.sources.items():
        if key in after.slots:
            canvas.box(x, y - 8, 30, 16, SLOT, MARKED if key in after.pending else "#1e8449")
            canvas.text(x + 3, y + 4, brief(after.slots[key], 4), size=10)
        waiting = after.queues.get(key, [])
        if waiting:
            more = "" if len(waiting) <= 2 else " +%d" % (len(waiting) - 2)
            canvas.text(x + 36, y + 4, " ".join(brief(ticket, 4) for ticket in waiting[:2]) + more, QUIET, 10)
        flags = [notice[3] for notice in step.notices if notice[0] == "flag" and key == (int(notice[1]), int(notice[2]))]
        if flags:
            canvas.text(x, y + 4, "flag " + " ".join(flags), REQUESTED, 10)


def draw_timers(canvas, lanes, step, before, after, y):
    for (vp, index), x in lanes.timers.items():
        told = {notice[0]: notice[3] for notice in step.notices
                if notice[0] in ("expired", "skipped") and notice[1:3] == [str(vp), str(index)]}
        if "expired" in told:
            canvas.text(x, y + 4, "at " + brief(int(told["expired"]), 7), TIMER, 10, "bold")
        if "skipped" in told:
            canvas.text(x + 62, y + 4, "x" + brief(int(told["skipped"]), 6), TIMER, 10)
        due, was = after.summary.timer, before.summary and before.summary.timer
        if due and due != was and due[1:] == (vp, index) and not told:
            canvas.text(x, y + 4, "due " + brief(due[0], 8), QUIET, 10)


def draw_legend(canvas, y, any_suspended):
    x = LEFT
    for sign, colour, words in LEGEND + ((("=", SUSPENDED, "suspended"),) if any_suspended else ()):
        if sign == "#":
            canvas.box(x, y - 9, 14, 10, SLOT, colour)
        elif sign == "=":
            canvas.box(x, y - 9, 14, 10, colour)
        elif sign in "o*":
            canvas.dot(x + 6, y - 4, "white" if sign == "o" else colour, colour)
        else:
            canvas.text(x, y, {"t": "at", "!": "!"}[sign], colour, 11, "bold")
        canvas.text(x + 20, y, words, QUIET)
        x += 40 + LETTER * len(words)


def columns(steps):
    """The positions of the actor, the time, the line, the reply, and the first lane."""
    actor = LEFT + 34
    moment = actor + (34 if any(step.actor is not None for step in steps) else 0)
    line = moment + 70
    reply = line + LETTER * min(44, max([len(step.line) for step in steps] + [10])) + 20
    return actor, moment, line, reply, reply + LETTER * min(26, max([len(step.reply) for step in steps] + [8])) + 24


def short(words, most):
    return words if len(words) <= most else words[: most - 2] + ".."


def brief(number, most):
    """The last digits of a long number."""
    digits = "%d" % number
    return digits if len(digits) <= most else ".." + digits[2 - most:]


def draw(processors, steps, first, rows):
    """The rows of one page. The state after the steps before it is carried over."""
    shown, canvas = steps[first:first + rows], Canvas()
    actor, moment, line, reply, lane = columns(shown)
    lanes = Lanes(processors, shown, lane)
    canvas.reach(lanes.end)
    before, after, any_suspended = boardlog.State(), boardlog.State(), False
    for step in steps[:first]:
        before.go_on(step)
        after.go_on(step)
    for x, words in ((LEFT, "#"), (moment, "moment"), (line, "event"), (reply, "answer")):
        canvas.text(x, TOP - 18, words, QUIET)
    draw_head(canvas, lanes)
    for row, step in enumerate(shown):
        if step.is_refused or row % 2:
            canvas.box(LEFT - 4, TOP + ROW * row - 10, lanes.end, ROW, "#fdedec" if step.is_refused else "#f7f7f7")
    for row, step in enumerate(shown):
        y = TOP + ROW * row
        after.go_on(step)
        any_suspended = any_suspended or bool(after.suspended)
        canvas.text(LEFT, y + 4, "%d" % (first + row + 1), QUIET)
        if step.actor is not None:
            canvas.text(actor, y + 4, "%d" % step.actor, QUIET)
        canvas.text(moment, y + 4, brief(after.moment, 9), INK if after.moment != before.moment else QUIET)
        canvas.text(line, y + 4, short(step.line, 44), WRONG if step.is_refused else INK)
        canvas.text(reply, y + 4, short(step.reply, 26), WRONG if step.is_refused else INK)
        draw_suspended(canvas, lanes, after, y)
        draw_vectors(canvas, lanes, step, before, after, y)
        draw_sources(canvas, lanes, step, after, y)
        draw_timers(canvas, lanes, step, before, after, y)
        before.go_on(step)
    draw_legend(canvas, TOP + ROW * len(shown) + 16, any_suspended)
    return canvas.svg(TOP + ROW * len(shown) + 34)
