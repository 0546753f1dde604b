#!/usr/bin/env python3
"""Times 'turns' against 'run' over the scenes of bench/scene.py, which have no schedule.

Both words are run in turn. For each number of clients it prints the median seconds by the clock and by the processors, and
what 'run' takes of 'turns'.

usage: bench/run_and_turns.py [--times N] [CLIENTS ..]        10 times with 1, 4 and 16 clients, where nothing else is given
"""

import argparse
import os
import resource
import statistics
import subprocess
import sys
import time

TOP = os.path.dirname(os.path.dirname(os.path.realpath(__file__)))
WORDS = ("turns", "run")
USAGE = 1


def seconds(program, word, scene):
    """Runs the program once. Returns the seconds by the clock and by the processors."""
    before, began = resource.getrusage(resource.RUSAGE_CHILDREN), time.monotonic()
    ran = subprocess.run([program, word], input=scene, stdout=subprocess.DEVNULL, stderr=subprocess.DEVNULL)
    ended, after = time.monotonic(), resource.getrusage(resource.RUSAGE_CHILDREN)
    if ran.returncode:
        raise SystemExit(f"{word} ended with status {ran.returncode}")
    return ended - began, after.ru_utime + after.ru_stime - before.ru_utime - before.ru_stime


def compare(program, clients, times):
    scene = subprocess.run([f"{TOP}/bench/scene.py", str(clients)], stdout=subprocess.PIPE, check=True).stdout
    taken = {word: [] for word in WORDS}
    for _ in range(times):
        for word in WORDS:
            taken[word].append(seconds(program, word, scene))
    medians = {word: [statistics.median(it) for it in zip(*taken[word])] for word in WORDS}
    cells = [f"{it:.3f}" for word in WORDS for it in medians[word]]
    cells += [f"{of_run / of_turns:.2f}" for of_turns, of_run in zip(*(medians[word] for word in WORDS))]
    print("| " + " | ".join([str(clients), *cells]) + " |")


def main():
    given = argparse.ArgumentParser(description=__doc__, formatter_class=argparse.RawDescriptionHelpFormatter)
    given.add_argument("--times", type=int, default=10)
    given.add_argument("clients", type=int, nargs="*", metavar="CLIENTS")
    given = given.parse_args()
    found = subprocess.run([f"{TOP}/tools/program"], stdout=subprocess.PIPE, text=True)
    if found.returncode:
        return found.returncode
    program = found.stdout.rstrip("\n")
    silent = dict.fromkeys(("stdin", "stdout", "stderr"), subprocess.DEVNULL)
    if subprocess.run([program, "run"], **silent).returncode == USAGE:
        print("skipped: the program doesn't know the word run yet")
        return 0
    print("| clients | turns: clock | processors | run: clock | processors | run of turns: clock | processors |")
    print("|---|---|---|---|---|---|---|")
    for clients in given.clients or (1, 4, 16):
        compare(program, clients, given.times)
    return 0


if __name__ == "__main__":
    sys.exit(main())
