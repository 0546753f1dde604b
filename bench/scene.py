#!/usr/bin/env python3
"""Prints a scene for timing.

N clients have a window each and draw twenty frames of two textured triangles with depth, over three textures in turn, while
the server raises, moves, lowers and resizes their windows forty times. It has no block of turns. With --small all lengths on
the screen are a twentieth, so that the same is done and drawing it costs next to nothing.

usage: bench/scene.py N [--small]        N is 1 to 32
"""

import sys

WIDTH, HEIGHT = 640, 480
WINDOW_WIDTH, WINDOW_HEIGHT = 280, 220
SMALLER = 20
TEXTURES, TEXTURE_SIDE = 3, 64
FRAMES, CHANGES = 20, 40
# In texels.
LAST = 16 * TEXTURE_SIDE - 1


def windows(count, by):
    width, height = WINDOW_WIDTH // by, WINDOW_HEIGHT // by
    for n in range(1, count + 1):
        yield f"window {n} {61 * n % 320 // by} {43 * n % 200 // by} {width} {height} {7 * n:02x}4080 {n} up"


def texture(client, number):
    side = range(TEXTURE_SIDE)
    texels = bytes((x * number + y * client) % 256 for y in side for x in side)
    return f"texture {number} l8 {TEXTURE_SIDE} {TEXTURE_SIDE} {texels.hex()}"


def frame(client, number, by):
    """A frame's near triangle begins one pixel lower each time. Its corners are in sixteenths of a pixel."""
    right, bottom = 16 * (WINDOW_WIDTH // by), 16 * (WINDOW_HEIGHT // by)
    yield f"clear {10 * number:02x}{7 * client:02x}00 65535"
    yield f"set bind {(number - 1) % TEXTURES + 1}"
    far, near = "1000 ffffffff", "500 80ff80ff"
    yield f"triangle 0 0 {far} 0 0 {right} 0 {far} {LAST} 0 0 {bottom} {far} 0 {LAST}"
    yield f"triangle {right} {16 * number // by} {near} 0 0 {right} {bottom} {near} {LAST} 0 0 {bottom} {near} 0 {LAST}"
    yield "swap"


def block(client, by):
    yield f"client {client} {client}"
    for number in range(1, TEXTURES + 1):
        yield texture(client, number)
    yield "set depth less"
    yield "set write on"
    yield "set texmode modulate"
    for number in range(1, FRAMES + 1):
        yield from frame(client, number, by)
    yield "end"


def change(number, count, by):
    window = (number - 1) % count + 1
    return (
        f"resize {window} {(200 + number) // by} {(150 + number) // by}",
        f"raise {window}",
        f"move {window} {53 * number % 320 // by} {29 * number % 200 // by}",
        f"lower {window}",
    )[number % 4]


def scene(count, by):
    yield "dri 1"
    yield f"screen {WIDTH // by} {HEIGHT // by} 203040"
    yield "heap 16 4096"
    yield from windows(count, by)
    for client in range(1, count + 1):
        yield from block(client, by)
    yield "server"
    for number in range(1, CHANGES + 1):
        yield change(number, count, by)
    yield "end"
    yield "done"


def main(words):
    by = SMALLER if words[1:] == ["--small"] else 1
    if len(words) != (2 if by > 1 else 1) or not words[0].isdigit() or not 1 <= int(words[0]) <= 32:
        print("usage: bench/scene.py N [--small], with N from 1 to 32", file=sys.stderr)
        return 2
    print("\n".join(scene(int(words[0]), by)))
    return 0


if __name__ == "__main__":
    sys.exit(main(sys.argv[1:]))
