"""Writes the page: the templates of this folder, and the events with what each of them changed."""

import base64
import html
import json
import os
import re
import zlib

import boardlog
import boardwords

from .machine import Machine

HERE = os.path.dirname(os.path.abspath(__file__))

SCRIPTS = ("data.js", "rules.js", "sections.js", "panel.js", "list.js", "strip.js", "hook.js", "page.js")

# the events of a page
ROWS = 100_000


def template(name):
    with open(os.path.join(HERE, name), encoding="utf-8") as file:
        return file.read()


def row(step, state, machine):
    """What the page has of an event. `state` is that before it."""
    sentences = boardwords.explain(step, state)
    notices = [" ".join(notice) for notice in step.notices]
    return [step.line, step.actor, step.reply, notices, sentences, machine.follow(step)]


def data_of(name, board, steps, first, rows):
    """The events of one page, and the state before them."""
    machine, state, events = Machine(board), boardlog.State(), []
    base = dict(machine.state)
    for number, step in enumerate(steps[:first + rows]):
        shown = row(step, state, machine)
        if number >= first:
            events.append(shown)
        elif number == first - 1:
            base = dict(machine.state)
        state.go_on(step)
    return {"name": name, "board": board, "first": first, "all": len(steps), "base": base, "events": events}


def packed(data):
    text = json.dumps(data, separators=(",", ":"), ensure_ascii=True)
    return base64.b64encode(zlib.compress(text.encode(), 6)).decode()


def page(name, board, steps, first, rows):
    """The page as one text without links to anything outside it."""
    parts = {
        "TITLE": html.escape(name),
        "STYLE": template("page.css"),
        "DATA": packed(data_of(name, board, steps, first, rows)),
        "SCRIPT": "\n".join(template(script) for script in SCRIPTS),
    }
    return re.sub(r"\{\{(\w+)\}\}", lambda found: parts[found[1]], template("page.html"))
