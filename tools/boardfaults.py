"""What is wrong with a line of a script, in words."""

import difflib

from boardevents import BOARD, EVENTS, small

# the words of lines
WORDS = sorted([*EVENTS, "summary"])


def shape(head, fields):
    return " ".join([head] + ["<%s>" % field.name for field in fields])


def of_fields(head, fields, given):
    """What is wrong with the fields after the first word."""
    if len(given) != len(fields):
        return "`%s` takes %d fields and not %d: `%s`" % (head.split()[0], len(fields), len(given), shape(head, fields))
    for field, text in zip(fields, given):
        if not field.takes(text):
            return "`%s` is no %s: `%s` takes %s" % (text, field.name, shape(head, fields), field.form)
    return "it is well formed"


def of_port(given):
    """What is wrong with a line `open <port> message ..` or `open <port> event ..`."""
    forms = EVENTS["open"].fields
    if len(given) < 2 or given[1] not in forms:
        lines = ["`%s`" % shape("open <port> %s" % word, fields) for word, fields in forms.items()]
        return "`open` takes a port, then `message` or `event`: " + ", ".join(lines)
    fields = small("port") + forms[given[1]]
    return of_fields("open <port> " + given[1], fields, given[:1] + given[2:]).replace("open <port> %s <port>" % given[1], "open <port> %s" % given[1])


def of_form(line):
    """What is wrong with a line that is no event."""
    if line != line.strip() or "  " in line or "\t" in line or "\r" in line:
        return "fields are separated by exactly one space, with none before the first and none after the last (and no carriage return)"
    word, *given = line.split(" ")
    if word == "board":
        return "a second board line: a script opens one board"
    if word == "open":
        return of_port(given)
    if word not in WORDS:
        near = difflib.get_close_matches(word, WORDS, 1)
        return "`%s` is no event%s" % (word, ": did you mean `%s`?" % near[0] if near else "; the events are " + ", ".join(WORDS))
    return of_fields(word, [] if word == "summary" else EVENTS[word].fields, given)


def of_first(line):
    """What is wrong with a first line that opens no board."""
    word, *given = line.split(" ")
    if not line:
        return "the script ends before its board line, `%s`" % shape("board", BOARD)
    if word != "board":
        return "the first line has to open the board: `%s`" % shape("board", BOARD)
    return of_fields("board", BOARD, given)


def explain(text, number, fault):
    """In words, the fault that the program named at a line of a text, counted from 1."""
    lines = text.split("\n")
    line = lines[number - 1] if number <= len(lines) else ""
    said = {
        "form": of_form,
        "first": of_first,
        "size": lambda _: "a board has 1 to 8 processors and 1 to 64 pages, or 1 to 64 processors and `sparse` in place of pages",
        "long": lambda _: "a line has at most 640 bytes",
        "cut": lambda _: "the text ends in the middle of this line: the last line needs a line feed too",
    }.get(fault)
    return "line %d: %s" % (number, said(line) if said else fault)
