"""Opens pages of the explorer in headless Chromium, steps through them and compares what they show."""

import html
import json
import os
import re
import shutil
import subprocess
import tempfile
import time
import urllib.parse

import follow
import shown

import boardlog
from explorer import page as explorer
from explorer.machine import Machine

BROWSERS = ("chromium", "chromium-browser", "google-chrome")

SECONDS = 120

# of a page of 10,000 events: the seconds to open it, more than a small one takes, and its bytes
LONGER, MOST = 2, 20_000_000

# a busy machine may be slow once
TRIES = 3


def browser():
    return next((found for found in map(shutil.which, BROWSERS) if found), None)


def opened(program, text, name, asked, first=0, rows=explorer.ROWS):
    """What the hook of a page writes after these actions, the seconds that takes, and the page."""
    with tempfile.TemporaryDirectory() as folder:
        path = os.path.join(folder, "page.html")
        board, _ = boardlog.events_of(text)
        whole = explorer.page(name, board, boardlog.steps_of(program, text)[1], first, rows)
        with open(path, "w", encoding="utf-8") as file:
            file.write(whole)
        address = "file://%s#%s" % (path, urllib.parse.urlencode(asked))
        options = ["--headless", "--no-sandbox", "--disable-gpu", "--window-size=1280,800", "--user-data-dir=" + folder,
                   "--virtual-time-budget=60000", "--dump-dom"]
        started = time.monotonic()
        done = subprocess.run([browser(), *options, address], stdout=subprocess.PIPE, stderr=subprocess.DEVNULL, timeout=SECONDS)
        seconds = time.monotonic() - started
    found = re.search(r'<pre id="hook"[^>]*>(.*?)</pre>', done.stdout.decode(), re.S)
    return json.loads(html.unescape(found[1])) if found else None, seconds, whole


def machine_rules():
    with open(os.path.join(follow.ROOT, "docs", "MACHINE.md"), encoding="utf-8") as file:
        return re.sub(r"[`*]", "", file.read())


def step_complaints(name, step, machine, told, rules):
    """The differences between what a page shows after a step and what it has to show."""
    number = machine.number
    if told["state"] != json.loads(json.dumps(machine.state)):
        yield "event %d: the state of the page differs" % number
    if step.line not in told["words"] or step.reply not in told["words"] or told["chosen"] != [number]:
        yield "event %d: it is not what is shown" % number
    cells = {key: text for key, text, _, _ in told["cells"]}
    for vp, vector in step.summary.next.items():
        if cells["p%d.interrupts/next/1" % vp] != ("none" if vector is None else "%02x" % vector):
            yield "event %d: next of processor %d is %s" % (number, vp, cells["p%d.interrupts/next/1" % vp])
    for key, text in shown.CELLS.get((name, number), {}).items():
        if cells.get(key) != text:
            yield "event %d: %s is %r and not %r" % (number, key, cells.get(key), text)
    changed = {key for key, _, is_changed, _ in told["cells"] if is_changed}
    if changed != shown.CHANGED.get((name, number), changed):
        yield "event %d: %s are marked" % (number, sorted(changed))
    for rule in {rule for _, _, _, rule in told["cells"] if rule} - {None}:
        if rule not in rules:
            yield "event %d: no rule of docs/MACHINE.md is %r" % (number, rule)


def page_complaints(program, name, text):
    """Steps through the whole page of a script or a trace."""
    board, events = boardlog.events_of(text)
    _, steps = boardlog.steps_of(program, text)
    told, _, whole = opened(program, text, name, {"test": ",".join(str(i) for i in range(1, len(events) + 1))})
    if told is None or len(told["shown"]) != len(steps):
        yield "the page does not answer"
        return
    if re.search(r"(src|href)=|https?:|url\(|@import|fetch\(", whole):
        yield "the page names something outside it"
    machine, rules = Machine(board), machine_rules()
    for step, seen in zip(steps, told["shown"]):
        machine.follow(step)
        yield from step_complaints(name, step, machine, seen, rules)
    for (where, key), life in shown.LIVES.items():
        if where == name and [(entry["number"], entry["text"]) for entry in told["lives"].get(key, [])] != life:
            yield "the life of %s is %s" % (key, told["lives"].get(key))


def action_complaints(program, text):
    """The keys, the filters and the search."""
    told, _, _ = opened(program, text, "actions", {"test": ",".join(action for action, _ in shown.ACTIONS)})
    for (action, wanted), seen in zip(shown.ACTIONS, told["shown"] if told else [{}] * len(shown.ACTIONS)):
        for key, value in wanted.items():
            if key not in seen or seen[key] != value:
                yield "after %s: %s is %r and not %r" % (action, key, seen.get(key), value)


def part_complaints(program, name, text, first, rows):
    """A page that does not begin with the first event has the same states and numbers."""
    board, _ = boardlog.events_of(text)
    steps = boardlog.steps_of(program, text)[1]
    numbers = range(first, first + rows + 1)
    told, _, _ = opened(program, text, name, {"test": ",".join(map(str, numbers))}, first, rows)
    machine = Machine(board)
    for step in steps[:first]:
        machine.follow(step)
    for number, seen in zip(numbers, told["shown"] if told else [{"event": None}] * len(numbers)):
        if number > first:
            machine.follow(steps[number - 1])
        if seen["event"] != number or seen["state"] != json.loads(json.dumps(machine.state)):
            yield "event %d: another state is shown" % number


def large_complaints(program, small, large):
    """A page of 10,000 events opens soon, is small, and draws only the rows that are visible."""
    asked = {"test": "1,key:End", "brief": "1"}
    for _ in range(TRIES):
        _, least, _ = opened(program, small, "small", asked)
        told, seconds, whole = opened(program, large, "large", asked)
        if seconds <= least + LONGER:
            break
    else:
        yield "it takes %.1f seconds more than a small page" % (seconds - least)
    if len(whole) > MOST:
        yield "it has %d bytes" % len(whole)
    if told is None or told["shown"][1]["event"] < 9000:
        yield "the page does not answer"
    elif any(seen["drawn"] > 100 for seen in told["shown"]):
        yield "more rows are drawn than are visible"
