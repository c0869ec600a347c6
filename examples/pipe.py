#!/usr/bin/env python3
"""examples/pipe.py PROGRAM

A board over a pipe, and the run loop of one processor. Nothing marks the end of an event's notices,
so each event is followed by a read of SVERSION, whose reply ends them."""

import subprocess
import sys


class Board:
    """Sends events, and returns their replies and notices."""

    def __init__(self, program, opening):
        self.peer = subprocess.Popen([program, "replay"], stdin=subprocess.PIPE, stdout=subprocess.PIPE, text=True)
        self.peer.stdin.write(opening + "\n")

    def event(self, line):
        """The reply, and the notices in order."""
        self.peer.stdin.write(line + "\nread 0 40000081\n")
        self.peer.stdin.flush()
        reply, notices = self.peer.stdout.readline().strip(), []
        for text in self.peer.stdout:
            if text.startswith("= "):
                return reply, notices
            notices.append(text.strip())
        raise SystemExit(reply)


def run(board):
    """The processor accepts interrupts: it takes the next vector, reads and empties its slot, and
    writes EOM and EOI."""
    while True:
        taken, _ = board.event("take 0")
        if taken == "= taken none":
            return
        message, _ = board.event("load 2210 1")
        print("%s, %s" % (taken, message))
        for line in ("store 2200 00000000", "write 0 40000084 0", "write 0 40000070 0"):
            for notice in board.event(line)[1]:
                print("  %s: %s" % (line, notice))


def main():
    board = Board(sys.argv[1], "board 1 4 0")
    for line in ("write 0 40000080 1", "write 0 40000083 2001", "write 0 40000092 50", "open 3 message 0 2 4"):
        board.event(line)
    for byte in ("0a", "0b", "0c"):
        print("post %s: %s" % (byte, board.event("post 3 1 %s" % byte)[0]))
    run(board)


if __name__ == "__main__":
    main()
