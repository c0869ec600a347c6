#!/usr/bin/env python3
"""examples/first.py: the shared library from Python, by ctypes. It does what examples/c/first.c does.

    LD_LIBRARY_PATH=PREFIX/lib python3 first.py"""

import ctypes as c


class Board(c.Structure):
    _fields_ = [("at", c.c_void_p), ("is_open", c.c_bool)]


class Reply(c.Structure):
    _fields_ = [(name, c.c_uint8) for name in ("kind", "fault", "refusal", "vector", "length")]
    _fields_ += [("notices", c.c_uint16), ("value", c.c_uint64), ("ticket", c.c_uint64), ("bytes", c.c_uint8 * 8)]


OK, SCONTROL, SIMP, SINT0 = 0, 0x40000080, 0x40000083, 0x40000090

library = c.CDLL("libsynicboard.so.3")
library.synicboard_refusal_text.restype = c.c_char_p
library.synicboard_next.restype = c.c_uint8
for call in (library.synicboard_write, library.synicboard_open_message_port, library.synicboard_post):
    call.restype = Reply

board = Board()                                             # closed: all zeros
assert library.synicboard_open(c.byref(board), 1, 4, c.c_uint64(0)) == OK
for msr, value in ((SCONTROL, 1), (SIMP, 0x2001), (SINT0 + 2, 0x50)):
    library.synicboard_write(c.byref(board), 0, msr, c.c_uint64(value))
library.synicboard_open_message_port(c.byref(board), 3, 0, 2, 2)
reply = library.synicboard_post(c.byref(board), 3, 1, b"\n", c.c_size_t(1))
print("accepted %d, next %x" % (reply.ticket, library.synicboard_next(c.byref(board), 0)))
reply = library.synicboard_post(c.byref(board), 4, 1, None, c.c_size_t(0))
print("refused: %s" % library.synicboard_refusal_text(reply.refusal).decode())
library.synicboard_close(c.byref(board))
