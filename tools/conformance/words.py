"""Says in words where two implementations differ."""

import boardlog
import boardwords

# How many events before the difference are shown.
BEFORE = 6


def step_of(line, answer):
    reply, *notices = answer.split("\n")
    return boardlog.Step(line, None, ["= " + reply] + notices)


def sentences(line, answer, state):
    """The sentences of an answer; of one that is malformed, its text."""
    try:
        first, *more = boardwords.explain(step_of(line, answer), state)
    except (KeyError, IndexError, ValueError):
        return [answer.replace("\n", "; ")]
    return [first] + more


def told(lines, reference, at):
    """The events before number `at`, as (line, sentences), and the state after them."""
    state, events = boardlog.State(), []
    for line, answer in zip(lines[1:at + 1], reference):
        events.append((line, sentences(line, answer, state)))
        try:
            state.go_on(step_of(line, answer))
        except (KeyError, IndexError, ValueError):
            pass
    return events, state


def short(line):
    return line if len(line) <= 34 else line[:31] + "..."


def in_columns(left, texts, sentences_of_them):
    """Texts with their sentences at the right, the first after `left`."""
    for at, text in enumerate(texts):
        said = sentences_of_them[at] if at < len(sentences_of_them) else ""
        yield ("%s %-36s %s" % (left if at == 0 else " " * len(left), text, said)).rstrip()


def event_lines(number, line, said):
    return in_columns("%7d" % number, [short(line)] + [""] * (len(said) - 1), said)


def answer_lines(who, line, answer, state):
    """Each line of an answer with what it says."""
    reply, *notices = answer.split("\n")
    said = sentences(line, answer, state)
    if reply == "no answer":
        return ["    %-10s no answer: it ended, or was silent for too long" % who]
    return in_columns("    %-10s" % who, ["= " + reply] + notices, said if len(said) == len(notices) + 1 else [])


def explained(lines, reference, peer, at, before=BEFORE, who="peer"):
    """The lines that explain the difference at event number `at`."""
    events, state = told(lines, reference, at)
    line = lines[at + 1]
    shown = events[-before:] if before else []
    if len(events) > len(shown):
        yield "        .. %d events before" % (len(events) - len(shown))
    for number, (event, said) in enumerate(shown, len(events) - len(shown) + 1):
        yield from event_lines(number, event, said)
    yield from event_lines(at + 1, line, ["<- the first difference"])
    yield from answer_lines("reference", line, reference[at], state)
    yield from answer_lines(who, line, peer[at], state)
