"""Each frame drawn alone, beside what stood on the screen right after its swap."""

from __future__ import annotations

from dataclasses import dataclass, replace
from typing import Iterator

from .course import Course, Frame
from .pictures import Picture, Pixel, picture_of
from .program import Failed, Laboratory, Program
from .svg import BAD, GOOD, INK, PALE, Svg, width_of
from .timeline import colour_of, name_of

HATCHES: tuple[Pixel, Pixel] = ((226, 230, 234), (242, 244, 246))
HATCH = 3
RED: Pixel = (208, 52, 44)
LEFT, HEAD, GAP, BETWEEN, ABOVE, BELOW = 96, 58, 8, 26, 22, 46
LEAST_WIDTH, MOST_WIDTH, LARGE_SIDE, LARGEST_TIMES = 640, 1180, 160, 4
SAID_SIZE = 10


@dataclass(frozen=True)
class Pair:
    """A frame as it is drawn alone and as it stood on the screen, both with its window's sides, and in words how it came out.
    `own` counts the pixels of its window that were its own at the swap, `differing` those of them that aren't as alone."""

    frame: Frame
    alone: Picture
    shown: Picture
    own: int
    differing: int
    said: list[str]


def hatched(x: int, y: int) -> Pixel:
    return HATCHES[(x + y) // HATCH % 2]


def reddened(pixel: Pixel) -> Pixel:
    red, green, blue = ((2 * a + b) // 3 for a, b in zip(RED, pixel))
    return red, green, blue


def said_of(course: Course, frame: Frame, own: int, differing: int) -> list[str]:
    """Returns how a frame came out, in one or two lines."""
    if frame.loss:
        entry = course.entries[frame.loss.entry - 1]
        cause = course.scene.changes[entry.numbers[0] - 1].line() if entry.kind == "change" else str(entry)
        return [f"entry {frame.loss.entry}, {cause}, took its stamp:", f"{differing} of {own} pixels differ"]
    return [f"stood: all {own} pixels equal" if own else "stood: it had no pixel"]


@dataclass(frozen=True)
class Asked:
    """The programs that draw: the one a frame alone, the other the screen after an entry."""

    program: Program
    laboratory: Laboratory


def pair_of(asked: Asked, course: Course, frame: Frame) -> Pair:
    """Asks for a frame's two pictures, and compares them."""
    alone = asked.program.alone(course.scene, frame.client, frame.number, frame.window)
    screen = asked.laboratory.screen_after(course.scene, course.entries, frame.swap)
    window, own, differing = frame.window, 0, 0
    shown = [[hatched(x, y) for x in range(window.width)] for y in range(window.height)]
    for y, row in enumerate(shown):
        for x, number in enumerate(frame.tops.row(window.y + y, window.x, window.x + window.width)):
            if number == window.number:
                pixel = screen.pixel(window.x + x, window.y + y)
                is_equal = pixel == alone.pixel(x, y)
                own, differing = own + 1, differing + (not is_equal)
                row[x] = pixel if is_equal else reddened(pixel)
    if frame.stood and differing:
        raise Failed(f"frame {frame.number} of client {frame.client} stood, and {differing} of its {own} pixels differ")
    return Pair(frame, alone, picture_of(shown), own, differing, said_of(course, frame, own, differing))


@dataclass(frozen=True)
class Row:
    """A client's frames, or some of them, and what is said beside and behind them."""

    client: int
    notes: list[str]
    pairs: list[Pair]
    end: str


class Sheet:
    """Draws the rows. All pairs take cells of one width, so that the frames of one number stand below each other."""

    def __init__(self, rows: list[Row]):
        pairs = [pair for row in rows for pair in row.pairs]
        side = max((max(it.shown.width, it.shown.height) for it in pairs), default=1)
        self.times = max(1, min(LARGEST_TIMES, LARGE_SIDE // side))
        self.cell = max(map(self.width_of, pairs), default=0) + BETWEEN
        self.each = max(1, int((MOST_WIDTH - LEFT) // self.cell))
        self.rows = [line for row in rows for line in self.wrapped(row)]

    def width_of(self, pair: Pair) -> float:
        """Returns how wide a pair is, with its words."""
        pictures = (pair.alone.width + pair.shown.width) * self.times + GAP
        return max(pictures, *(width_of(it, SAID_SIZE) for it in pair.said))

    def wrapped(self, row: Row) -> Iterator[Row]:
        """Returns a row as rows that are no wider than the drawing."""
        firsts = range(0, max(1, len(row.pairs)), self.each)
        for first in firsts:
            yield replace(row, pairs=row.pairs[first : first + self.each], end=row.end if first == firsts[-1] else "")

    def height(self, row: Row) -> int:
        return max((it.shown.height for it in row.pairs), default=0) * self.times + ABOVE + BELOW

    def draw(self) -> str:
        most = max((len(it.pairs) + bool(it.end) for it in self.rows), default=0)
        svg = Svg(
            max(LEFT + most * self.cell, LEAST_WIDTH),
            HEAD + sum(map(self.height, self.rows)),
            "Frames drawn alone and on the screen",
        )
        svg.text(16, 26, "Each frame drawn alone, and on the screen after its swap", 16, font_weight="bold")
        svg.text(16, 46, "hatched: pixels that other windows had then; red: pixels of its own that differ", 11, PALE)
        top = HEAD
        for row in self.rows:
            self.draw_row(svg, top, row)
            top += self.height(row)
        return svg.done()

    def draw_row(self, svg: Svg, top: float, row: Row) -> None:
        svg.text(16, top + 34, name_of(row.client), 13, colour_of(row.client), font_weight="bold")
        for at, note in enumerate(row.notes):
            svg.text(16, top + 50 + 14 * at, note, 10, PALE)
        for at, pair in enumerate(row.pairs):
            self.draw_pair(svg, LEFT + at * self.cell, top, pair)
        svg.text(LEFT + len(row.pairs) * self.cell, top + 14, row.end, SAID_SIZE, PALE)

    def draw_pair(self, svg: Svg, x: float, top: float, pair: Pair) -> None:
        colour = GOOD if pair.frame.stood else BAD
        svg.text(x, top + 14, f"frame {pair.frame.number}", SAID_SIZE + 1, INK, font_weight="bold")
        svg.picture(x + 1, top + 22, pair.alone.enlarged(self.times), PALE)
        svg.picture(x + 1 + pair.alone.width * self.times + GAP, top + 22, pair.shown.enlarged(self.times), colour)
        for at, line in enumerate(pair.said):
            svg.text(x, top + 22 + pair.shown.height * self.times + 16 + 13 * at, line, SAID_SIZE, colour)


def row_of(asked: Asked, course: Course, client: int, most: int) -> Row:
    """Returns the first so many of a client's frames that begin with a clear."""
    swapped = [it for it in course.frames if it.client == client]
    frames = [it for it in swapped if it.clear]
    more, uncleared = len(frames) - most, len(swapped) - len(frames)
    notes = [f"window {course.window_of(client)}"]
    notes += [f"{more} more"] if more > 0 else []
    notes += [f"{uncleared} without a clear"] if uncleared else []
    death = next((number for number, it in enumerate(course.entries, 1) if it.kind == "gone" and it.client == client), None)
    begun = f"frame {course.drawings[client].number} had begun: " if course.drawings[client].clear else ""
    end = f"{begun}the client died, entry {death}" if death else "" if frames else "no frame that begins with a clear"
    return Row(client, notes, [pair_of(asked, course, it) for it in frames[:most]], end)


def draw_frames(asked: Asked, course: Course, most: int) -> str:
    """Returns the frames of a run as SVG, of each client those that begin with a clear, and the first so many of them."""
    return Sheet([row_of(asked, course, client, most) for client in course.scene.clients]).draw()
