"""Runs commands that answer scripts: the reference, and the peers that are compared with it."""

import copy
import os
import selectors
import signal
import time

SYNC = {"version": b"read 0 40000081\n", "sync": b"sync\n"}

CHUNK = 1 << 16


class NoPeer(Exception):
    """The command could not be started."""


class Peer:
    """How a command is run: which line ends an event's notices, how many lines are written at once (0:
    all), how many seconds it may be silent, and whether a board line opens a new board."""

    def __init__(self, command, sync="version", batch=0, seconds=10, reopens=False):
        self.command, self.sync, self.batch, self.seconds, self.reopens = command, SYNC[sync], batch, seconds, reopens
        self.opened = {}

    def parts(self, lines):
        """What is written at a time, and how many replies must have come before more is written."""
        size = self.batch or len(lines)
        replies = 0
        for first in range(0, len(lines), size):
            some = lines[first:first + size]
            is_last = first + size >= len(lines)
            replies += is_last + sum(not line.startswith("board") for line in some)
            yield "\n".join(some).encode() + b"\n" + (self.sync if is_last else b""), replies


    def by_line(self):
        """The same peer, with each line written after the answer to the line before: a peer that ends has
        then written all that it answered."""
        stepping = copy.copy(self)
        stepping.batch = 1
        return stepping

    def opens(self, board):
        """Whether it opens the board of this line, of which it is asked once for each size. A peer that does not
        answers `= unsupported`; one that was written before there were sparse boards may end."""
        size = board.rsplit(" ", 1)[0]
        if size not in self.opened:
            self.opened[size] = converse([(self, [size + " 0", "read 0 40000081"])])[0].startswith(b"= value")
        return self.opened[size]

    def greet(self):
        """Fails unless the peer opens a board and answers."""
        if not converse([(self, ["board 1 1 0"])])[0].startswith(b"="):
            raise NoPeer("%s does not answer %s" % (self.command[0], self.sync.decode().strip()))


class Conversation:
    """One script at one process."""

    def __init__(self, peer, lines):
        self.peer, self.parts = peer, list(peer.parts(lines))
        self.waiting, self.wanted = self.parts.pop(0)
        self.output, self.replies, self.is_silent = [], 0, False
        self.deadline = time.monotonic() + peer.seconds
        self.start()

    def start(self):
        given, self.to_peer = os.pipe()
        self.from_peer, taken = os.pipe()
        actions = [(os.POSIX_SPAWN_DUP2, given, 0), (os.POSIX_SPAWN_DUP2, taken, 1)]
        try:
            self.process = os.posix_spawnp(self.peer.command[0], self.peer.command, os.environ, file_actions=actions,
                                            setsigdef=[signal.SIGPIPE])
        except OSError as error:
            os.close(self.to_peer)
            os.close(self.from_peer)
            raise NoPeer("%s: %s" % (self.peer.command[0], error.strerror)) from error
        finally:
            os.close(given)
            os.close(taken)
        os.set_blocking(self.to_peer, False)
        os.set_blocking(self.from_peer, False)

    def write(self):
        """Whether more is to be written now."""
        try:
            self.waiting = self.waiting[os.write(self.to_peer, self.waiting):]
        except BlockingIOError:
            pass
        except BrokenPipeError:
            self.waiting, self.parts = b"", []
        return bool(self.waiting)

    def stop_writing(self):
        """Ends the peer's input once all of it is written."""
        if not self.parts and self.to_peer is not None:
            os.close(self.to_peer)
            self.to_peer = None

    def read(self):
        """Whether more answers are to come."""
        got = os.read(self.from_peer, CHUNK)
        self.output.append(got)
        self.replies += got.count(b"=")
        self.deadline = time.monotonic() + self.peer.seconds
        return bool(got) and not (self.replies >= self.wanted and not self.parts and got.endswith(b"\n"))

    def has_more(self):
        """Takes the next lines, if all answers before them have come. Whether there are such."""
        if self.waiting or not self.parts or self.replies < self.wanted:
            return False
        self.waiting, self.wanted = self.parts.pop(0)
        return True

    def end(self):
        for place in (self.to_peer, self.from_peer):
            if place is not None:
                os.close(place)
        # It may still wait for input, or for nothing.
        try:
            os.kill(self.process, signal.SIGKILL)
        except ProcessLookupError:
            pass
        os.waitpid(self.process, 0)


def converse(jobs):
    """The output of each (peer, lines), all run at the same time."""
    talks = []
    with selectors.DefaultSelector() as selector:
        try:
            for peer, lines in jobs:
                talk = Conversation(peer, lines)
                talks.append(talk)
                selector.register(talk.to_peer, selectors.EVENT_WRITE, talk)
                selector.register(talk.from_peer, selectors.EVENT_READ, talk)
            attend(selector, set(talks))
        finally:
            for talk in talks:
                talk.end()
    return [b"".join(talk.output) for talk in talks]


def refuse_faults(path, reference, lines):
    """The reference's output. Fails if a line is malformed."""
    output = converse([(reference, lines)])[0]
    faults = [line for line in output.decode(errors="replace").splitlines() if line.startswith("!")]
    if faults:
        raise NoPeer("%s: %s (counted without skipped lines)" % (path, faults[0]))
    return output


def attend(selector, open_talks):
    while open_talks:
        for key, _ in selector.select(0.2):
            talk = key.data
            if key.fd == talk.to_peer:
                if not talk.write() and not talk.has_more():
                    selector.unregister(talk.to_peer)
                    talk.stop_writing()
            elif not talk.read():
                leave(selector, talk, open_talks)
            elif talk.has_more():
                selector.register(talk.to_peer, selectors.EVENT_WRITE, talk)
        now = time.monotonic()
        for talk in [talk for talk in open_talks if talk.deadline < now]:
            talk.is_silent = True
            leave(selector, talk, open_talks)


def leave(selector, talk, open_talks):
    open_talks.discard(talk)
    for place in (talk.to_peer, talk.from_peer):
        if place is not None and place in selector.get_map():
            selector.unregister(place)
