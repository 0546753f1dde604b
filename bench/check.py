#!/usr/bin/env python3
"""Times 'check': of the journal of bench/scene.py by the 'turns' that writes it, and of the longest journal.

'turns' draws and a check doesn't. So the check's time is divided by that of 'turns' on the scene of bench/scene.py --small,
with as many clients, frames and changes: its drawing costs next to nothing. The check is of that scene's journal too, and
'turns' on the scene at its full size stands beside it.

The longest journal that a scene's limits allow is made here by the table of entries: 32 clients whose windows are covered and
uncovered by each of 4,096 changes, so that each is told anew each time, with 100,000 commands. It has 828,384 entries, and all
are replayed; what 1,000,000 would take is printed as that time in proportion.

For each row it prints the median seconds by the clock and by the processors, and the most memory in MB.

usage: bench/check.py [--times N] [--clients N]        10 times with 4 clients, where nothing else is given
"""

import argparse
import os
import statistics
import subprocess
import sys
import tempfile
import time

TOP = os.path.dirname(os.path.dirname(os.path.realpath(__file__)))
CLIENTS, COMMANDS, CHANGES, ENTRIES = 32, 100_000, 4_096, 1_000_000
COVER = CLIENTS + 1
DONE, USAGE = 0, 1


def long_scene():
    """A column of one pixel for each client, and a window over all of them, which each change unmaps or maps."""
    yield "dri 1\nscreen %d 1 000000\nheap 1 256\n" % CLIENTS
    yield "window %d 0 0 %d 1 222222 0 up\n" % (COVER, CLIENTS)
    for client in range(1, CLIENTS + 1):
        yield "window %d %d 0 1 1 111111 %d up\n" % (client, client - 1, client)
    for client in range(1, CLIENTS + 1):
        yield "client %d %d\n" % (client, client) + "yield\n" * (COMMANDS // CLIENTS) + "end\n"
    yield "server\n" + ("unmap %d\nmap %d\n" % (COVER, COVER)) * (CHANGES // 2) + "end\ndone\n"


def long_journal():
    """The entries of its longest run: after each change each client is told, and in the last rounds it runs a command."""
    for change in range(1, CHANGES + 1):
        yield "change %d\n" % change
        place = change - (CHANGES - COMMANDS // CLIENTS)
        for c in range(1, CLIENTS + 1):
            yield "kernel %d 0\nstale %d\nleave %d\ninfo %d\n" % (c, c, c, c)
            if place > 0:
                yield "kernel %d 1\nrun %d %d\nleave %d\n" % (c, c, place, c)


def timed(program, word, text):
    """Runs the program once. Returns its status, its picture and its notes, and its seconds by the clock and by the processors
    with its most memory in MB."""
    with tempfile.TemporaryFile() as given, tempfile.TemporaryFile() as picture, tempfile.TemporaryFile() as notes:
        given.write(text)
        given.seek(0)
        began = time.monotonic()
        ran = subprocess.Popen([program, word], stdin=given, stdout=picture, stderr=notes)
        _, status, used = os.wait4(ran.pid, 0)
        figures = time.monotonic() - began, used.ru_utime + used.ru_stime, used.ru_maxrss / 1024
        written = []
        for it in (picture, notes):
            it.seek(0)
            written.append(it.read())
        return os.waitstatus_to_exitcode(status), *written, figures


def row(name, program, word, text, times, status, line=None):
    """Prints a row of medians."""
    figures = []
    for _ in range(times):
        ended, picture, notes, taken = timed(program, word, text)
        if ended != status or (line is not None and picture + notes != line):
            raise SystemExit(f"{name}: {word} ended with status {ended}: {notes[:80]!r}")
        figures.append(taken)
    medians = [statistics.median(it) for it in zip(*figures)]
    print("| %s | %.3f | %.3f | %.1f |" % (name, *medians), flush=True)
    return medians


def main():
    given = argparse.ArgumentParser(description=__doc__, formatter_class=argparse.RawDescriptionHelpFormatter)
    given.add_argument("--times", type=int, default=10)
    given.add_argument("--clients", type=int, default=4)
    given.add_argument("--program")
    given = given.parse_args()
    program = given.program
    if not program:
        found = subprocess.run([f"{TOP}/tools/program"], stdout=subprocess.PIPE, text=True)
        if found.returncode:
            return found.returncode
        program = found.stdout.rstrip("\n")
    silent = dict.fromkeys(("stdin", "stdout", "stderr"), subprocess.DEVNULL)
    if subprocess.run([program, "check"], **silent).returncode == USAGE:
        print("skipped: the program doesn't know the word check")
        return 0
    print("| | clock | processors | MB |\n|---|---|---|---|")
    name = f"{given.clients} clients"
    for words in (["--small"], []):
        made = [f"{TOP}/bench/scene.py", str(given.clients), *words]
        scene = subprocess.run(made, stdout=subprocess.PIPE, check=True).stdout
        journal = timed(program, "turns", scene)[2]
        size = "at a twentieth" if words else "at full size"
        turns = row(f"turns, {name} {size}", program, "turns", scene, given.times, DONE)
        entries = f"{journal.count(10) - 2} entries"
        check = row(f"check, {name} {size}, {entries}", program, "check", scene + journal, given.times, DONE)
        print("| check by turns, %s | %.2f | %.2f | |" % (size, check[0] / turns[0], check[1] / turns[1]))
    head, entries = "".join(long_scene()).encode(), "".join(long_journal()).encode()
    count = entries.count(10)
    whole = head + b"journal 1\n" + entries + b"done\n"
    right = b"entries %d frames 0 stood 0 whole\n" % count
    longest = row(f"check, {count:,} entries", program, "check", whole, given.times, DONE, right)
    print("| %s entries at that rate | %.3f | %.3f | |" % (f"{ENTRIES:,}", *(it * ENTRIES / count for it in longest[:2])))
    return 0


if __name__ == "__main__":
    sys.exit(main())
