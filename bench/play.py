#!/usr/bin/env python3
"""Times the call dri_play from C: two clients on a screen of 4 by 2, one of which is killed while it holds the lock
(tests/cases/killed.scene), by so many turns that the other one has ended. Each call reads the text, plays it, and prints picture
and journal, which is compared in the timed loop. Beside it stands the same scene with no items. Nothing is taken off.

usage: bench/play.py [ARCHIVE]

It needs rt, which proves the library before it is built, and cc; with the ARCHIVE of the crate dri_c that was built before, rt builds
none. Run it on a quiet machine.
"""

import os
import subprocess
import sys
import tempfile

TOP = os.path.dirname(os.path.dirname(os.path.realpath(__file__)))
CASE = f"{TOP}/tests/cases/killed"
ITEMS = [1] * 8 + [2] * 2 + [-1] + [2] * 8
RUNS = 7


def times(command):
    """The least processor time and the least time by the clock of a call, in microseconds."""
    rows = [subprocess.run(command, check=True, capture_output=True, text=True).stdout.split() for _ in range(RUNS)]
    return [min(float(row[i]) for row in rows) / 1000 for i in range(2)]


def main():
    with tempfile.TemporaryDirectory() as folder:
        subprocess.run([f"{TOP}/tools/library", folder, *sys.argv[1:2]], check=True, stderr=subprocess.DEVNULL)
        program, empty = f"{folder}/play", f"{folder}/empty.journal"
        source = [f"{TOP}/bench/play.c", f"{folder}/libdri.a"]
        subprocess.run(["cc", "-O2", f"-I{TOP}/include", "-o", program, *source], check=True)
        with open(empty, "w", encoding="ascii") as file:
            file.write("journal 1\ndone\n")
        for journal, items in ((empty, []), (f"{CASE}.journal", ITEMS)):
            processor, clock = times([program, f"{CASE}.scene", journal, *map(str, items)])
            print(f"{len(items)} items: {processor:.1f} us of processor time a call, {clock:.1f} us by the clock")


if __name__ == "__main__":
    main()
