#!/usr/bin/env python3
"""Times 'solo' of one frame against what 'turns' takes to draw it.

The frame has a clear and a hundred textured triangles with depth that cover half of their window of 640 by 480 each, or of the
sides that are given; the window is the whole screen. Of each word the least of several processor times counts, less that of the
same scene without the triangles, which both words read and write as well.

usage: bench/solo.py [--times N] [--triangles N] [--width W] [--height H] [--program PATH]
"""

import argparse
import os
import resource
import subprocess
import sys

TOP = os.path.dirname(os.path.dirname(os.path.realpath(__file__)))
SIDE = 64
WORDS = (["turns"], ["solo", "1", "1"])


def scene(width, height, triangles):
    """A window of the whole screen, and a frame whose triangles are the window's upper left half, each nearer than the last."""
    right, bottom, last = 16 * width, 16 * height, 16 * SIDE - 1
    yield f"dri 1\nscreen {width} {height} 203040\nheap 1 4096\nwindow 1 0 0 {width} {height} 102030 1 up\nclient 1 1"
    yield f"texture 1 l8 {SIDE} {SIDE} " + bytes((3 * x + 5 * y) % 256 for y in range(SIDE) for x in range(SIDE)).hex()
    yield "set shade smooth\nset depth less\nset write on\nset texmode modulate\nset bind 1\nclear 102030 65535"
    for number in range(triangles):
        z = 60000 - number
        corners = f"0 0 {z} ffffffff 0 0 {right} 0 {z} ff8080ff {last} 0 0 {bottom} {z} 8080ffff 0 {last}"
        yield f"triangle {corners}"
    yield "swap\nend\ndone\n"


def seconds(program, words, text):
    """Runs the program once. Returns its picture and the seconds by the processors."""
    before = resource.getrusage(resource.RUSAGE_CHILDREN)
    ran = subprocess.run([program, *words], input=text, stdout=subprocess.PIPE, stderr=subprocess.DEVNULL, check=True)
    after = resource.getrusage(resource.RUSAGE_CHILDREN)
    return ran.stdout, after.ru_utime + after.ru_stime - before.ru_utime - before.ru_stime


def main():
    given = argparse.ArgumentParser(description=__doc__, formatter_class=argparse.RawDescriptionHelpFormatter)
    given.add_argument("--times", type=int, default=10)
    given.add_argument("--triangles", type=int, default=100)
    given.add_argument("--width", type=int, default=640)
    given.add_argument("--height", type=int, default=480)
    given.add_argument("--program")
    given = given.parse_args()
    program = given.program
    if not program:
        found = subprocess.run([f"{TOP}/tools/program"], stdout=subprocess.PIPE, text=True)
        if found.returncode:
            return found.returncode
        program = found.stdout.rstrip("\n")
    texts = ["\n".join(scene(given.width, given.height, count)).encode() for count in (given.triangles, 0)]
    least, shown = {}, []
    for _ in range(given.times):
        for words in WORDS:
            for text in texts:
                picture, taken = seconds(program, words, text)
                key = words[0], text is texts[0]
                least[key] = min(taken, least.get(key, taken))
                shown += [picture] * (text is texts[0])
    if any(it != shown[0] for it in shown):
        raise SystemExit("the two words show different pixels")
    drawing = {word: least[word, True] - least[word, False] for word in ("turns", "solo")}
    print(f"turns: {least['turns', True]:.3f} s, of which the triangles {drawing['turns']:.3f} s")
    print(f"solo: {least['solo', True]:.3f} s, of which the triangles {drawing['solo']:.3f} s")
    print(f"solo of turns: {least['solo', True] / least['turns', True]:.2f}, of the triangles {drawing['solo'] / drawing['turns']:.2f}")
    return 0


if __name__ == "__main__":
    sys.exit(main())
