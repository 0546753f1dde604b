#!/usr/bin/env python3
"""What words.c does, from Python: plays a client's frame and a move of its window, one turn more each time, and prints the lock
word after each turn, and the entry that the turn made.

usage: words.py LIBRARY SCENE, where LIBRARY is libdri.so, and for SCENE examples/c/move.scene is made
"""

import ctypes
import sys

HELD, CONTENDED = 1 << 31, 1 << 30
SERVER, CLIENT = 0, 1
ITEMS = [CLIENT] * 6 + [SERVER] * 3 + [CLIENT] * 2 + [SERVER] + [CLIENT] * 10
TITLE, DONE = b"journal 1\n", b"done\n"


class Played(ctypes.Structure):
    """struct dri_played."""

    _fields_ = [("events", ctypes.c_uint64), ("passed_written", ctypes.c_uint64), ("word", ctypes.c_uint32)]


class Answer(ctypes.Structure):
    """struct dri_answer."""

    _fields_ = [(name, ctypes.c_uint32) for name in ("status", "line", "reason", "entry")]
    _fields_ += [(name, ctypes.c_uint64) for name in ("picture_written", "notes_written", "picture_needed", "notes_needed")]


def play(library, scene, items):
    """The lock word, the flags of what was passed over, and the journal, after these items."""
    given = (ctypes.c_int32 * len(items))(*items)
    passed, picture, notes = ((ctypes.c_uint8 * room)() for room in (len(items), 1 << 16, 1 << 12))
    played, answer = Played(), Answer()
    arguments = [ctypes.c_char_p(scene), ctypes.c_size_t(len(scene))]
    for buffer in (given, passed, picture, notes):
        arguments += [buffer, ctypes.c_size_t(len(buffer))]
    library.dri_play(*arguments, ctypes.byref(played), ctypes.byref(answer))
    if answer.status:
        sys.exit(answer.status)
    return played.word, bytes(passed), bytes(notes[: answer.notes_written])


def main():
    library = ctypes.CDLL(sys.argv[1])
    library.dri_play.restype = None
    with open(sys.argv[2], "rb") as file:
        scene = file.read()
    before = len(TITLE + DONE)
    for count, item in enumerate(ITEMS, 1):
        word, passed, notes = play(library, scene, ITEMS[:count])
        entry = notes[before - len(DONE) : -len(DONE)].decode().rstrip("\n")
        held, contended = "held" if word & HELD else "free", "contended" if word & CONTENDED else ""
        did = "passed over" if passed[-1] else entry or "-"
        print(f"{'s' if item == SERVER else '1'} {word:08x} {held:4} {contended:9} context {word & ~(HELD | CONTENDED)}: {did}")
        before = len(notes)


if __name__ == "__main__":
    main()
