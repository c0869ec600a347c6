"""The expected result for each truncated text, derived from that of the whole text."""

import re

LONGEST = 640


def outputs_of_lines(lines, output):
    """The output of each of these lines of a script, without faults, split by what each kind of
    line prints."""
    left = output.splitlines(True)
    blocks = []
    for line in lines:
        if line == b"summary":
            taken = next((i for i, text in enumerate(left) if not text.startswith(b": ")), len(left))
        elif line.startswith(b"board") or line.startswith(b"#") or not line:
            taken = 0
        else:
            behind = (i for i, text in enumerate(left) if i and not text.startswith(b". "))
            taken = next(behind, len(left))
        blocks.append(b"".join(left[:taken]))
        left = left[taken:]
    return blocks


def fault_of(output):
    """The line of the fault that an output ends with, or None."""
    last = output.splitlines()[-1:]
    return int(last[0].split()[1]) if last and last[0].startswith(b"! ") else None


class Script:
    """A script and its output."""

    def __init__(self, text, output):
        self.text = text
        self.output = output
        self.fault = fault_of(output)
        lines = text.splitlines()
        good = len(lines) if self.fault is None else self.fault - 1
        self.blocks = outputs_of_lines(lines[:good], output)
        self.opening = next((i for i, line in enumerate(lines) if line and not line.startswith(b"#")), len(lines))

    def cut(self, size):
        """The status and the output for the first bytes."""
        begun = self.text[:size]
        whole = begun.count(b"\n")
        if self.fault is not None and whole >= self.fault:
            return 1, self.output
        written = b"".join(self.blocks[:whole])
        rest = len(begun) - begun.rfind(b"\n") - 1
        if rest > LONGEST:
            return 1, written + b"! %d long\n" % (whole + 1)
        if rest:
            return 1, written + b"! %d cut\n" % (whole + 1)
        if whole <= self.opening:
            return 1, written + b"! %d first\n" % (whole + 1)
        return 0, written


def verdict_of_cut(trace, verdict, size):
    """The status and the verdict for the first bytes of a trace that has this verdict."""
    begun = trace[:size]
    wrong = int(verdict.split()[1]) if verdict.startswith(b"refused") else None
    line = begun.count(b"\n") + 1
    if wrong is not None and line > wrong:
        return 3, b"refused %d\n" % wrong
    last = begun.splitlines()[-1:]
    if begun.endswith(b"\n") and last[0].startswith(b"end "):
        return 0, b"legal %s\n" % last[0].split()[1]
    return 3, b"refused %d\n" % line


def entries_of(lines, blocks):
    """The entries of a trace for the events among these lines, all by actor 0."""
    return [b"0 %s\n%s\n" % (line, block.split(b"\n", 1)[0]) for line, block in zip(lines, blocks) if block.startswith(b"= ")]


def trace_of(text, output, number):
    """The trace in this format of a script's events and their replies, all by actor 0, and the number of
    entries. Each accepted message took a ticket."""
    entries = entries_of(text.splitlines(), outputs_of_lines(text.splitlines(), output))
    board = next(line for line in text.splitlines() if line.startswith(b"board"))
    end = b"end %d" % len(entries)
    if number != 1:
        end += b" %d" % (int(board.split()[3]) + output.count(b"\n. accepted "))
    return b"trace %d\n%s\n%s%s\n" % (number, board, b"".join(entries), end), len(entries)


def trace_from(image, lines, blocks):
    """The trace of these lines of a script, with their outputs, on the board of an image, and the number of
    entries."""
    entries = entries_of(lines, blocks)
    board = image.splitlines()[1]
    ticket = int(board.split()[3]) + b"".join(blocks).count(b"\n. accepted ")
    return b"trace 3\n%s%send %d %d\n" % (image, b"".join(entries), len(entries), ticket), len(entries)


def is_sparse(text):
    """Whether a script opens a sparse board."""
    return re.search(rb"^board \d+ sparse ", text, re.MULTILINE) is not None


def format_for(text):
    """The format in which a script's trace is written: only format 3 has sparse boards and sends."""
    return 3 if is_sparse(text) or b"\nsend " in text else 2


def formats_of(text):
    """The formats that a script's trace can have: format 1 has no line for a reset."""
    if format_for(text) == 3:
        return (3,)
    return (2, 3) if b"\nreset " in text else (1, 2, 3)
