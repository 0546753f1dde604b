"""The window stack: what is topmost where, the stamps that changes give, and which window a change moved whole."""

from __future__ import annotations

from dataclasses import dataclass, replace
from typing import Callable, Optional

from .scene import Change, Scene, Window

NOBODY = 0
FIRST_STAMP = 1


@dataclass(frozen=True)
class Rect:
    """The pixels from x1 and y1 to before x2 and y2."""

    x1: int
    y1: int
    x2: int
    y2: int

    def has(self, x: int, y: int) -> bool:
        return self.x1 <= x < self.x2 and self.y1 <= y < self.y2

    def within(self, other: Rect) -> Rect:
        return Rect(max(self.x1, other.x1), max(self.y1, other.y1), min(self.x2, other.x2), min(self.y2, other.y2))


def rect_of(window: Window) -> Rect:
    return Rect(window.x, window.y, window.x + window.width, window.y + window.height)


class Tops:
    """Which window is topmost at each of the screen's pixels."""

    def __init__(self, windows: list[Window], screen: Rect):
        self.screen = screen
        self.rects = [(it.number, rect_of(it).within(screen)) for it in windows if it.is_mapped]

    def at(self, x: int, y: int) -> int:
        """Returns the topmost window's number, or 0 where there is none or the pixel isn't the screen's."""
        return next((number for number, rect in self.rects if rect.has(x, y)), NOBODY)

    def row(self, y: int, x1: int, x2: int) -> list[int]:
        """Returns the same for the pixels of a row from x1 to before x2."""
        numbers = [NOBODY] * (x2 - x1)
        for number, rect in reversed(self.rects):
            first, last = max(rect.x1, x1), min(rect.x2, x2)
            if rect.y1 <= y < rect.y2 and first < last:
                numbers[first - x1 : last - x1] = [number] * (last - first)
        return numbers

    def edges(self) -> tuple[set[int], set[int]]:
        """Returns the columns and the rows at which what is topmost may change."""
        rects = [self.screen, *(rect for _, rect in self.rects)]
        return {x for it in rects for x in (it.x1, it.x2)}, {y for it in rects for y in (it.y1, it.y2)}


def touched(before: Tops, after: Tops, where: list[Rect]) -> set[int]:
    """Returns the windows whose clips differ; nothing differs outside of the rectangles given."""
    (xs, ys), (more_xs, more_ys) = before.edges(), after.edges()
    numbers: set[int] = set()
    for y in ys | more_ys:
        for x in xs | more_xs:
            if any(it.has(x, y) for it in where):
                pair = {before.at(x, y), after.at(x, y)}
                numbers |= pair if len(pair) > 1 else set()
    return numbers - {NOBODY}


def is_moved_whole(before: Tops, after: Tops, old: Window, new: Window) -> bool:
    """A window's new clips are its old ones, moved as its corner is."""
    for row in range(new.height):
        was = before.row(old.y + row, old.x, old.x + old.width)
        now = after.row(new.y + row, new.x, new.x + new.width)
        if [it == old.number for it in was] != [it == new.number for it in now]:
            return False
    return True


class Stack:
    """The windows from top to bottom with their stamps, and the one that the last change moved whole, if it did."""

    def __init__(self, scene: Scene):
        self.screen = Rect(0, 0, scene.screen.width, scene.screen.height)
        self.windows = list(scene.windows)
        self.stamps = {it.number: FIRST_STAMP for it in scene.windows}
        self.last_stamp = FIRST_STAMP
        self.moved_whole: Optional[int] = None

    def window(self, number: int) -> Window:
        return next(it for it in self.windows if it.number == number)

    def tops(self) -> Tops:
        return Tops(self.windows, self.screen)

    def change(self, change: Change) -> dict[int, int]:
        """Makes a change, and returns the stamps that it gives, by the windows' numbers."""
        old = self.window(change.window)
        new = changed(old, change)
        self.moved_whole = None
        if new is None:
            return {}
        windows = [new if it is old else it for it in self.windows]
        if change.kind in ("raise", "lower"):
            windows.remove(new)
            windows.insert(0 if change.kind == "raise" else len(windows), new)
        if change.kind == "move" and is_moved_whole(self.tops(), Tops(windows, self.screen), old, new):
            self.moved_whole = new.number
        return self.restacked(windows, [rect_of(old), rect_of(new)])

    def bury(self, owner: int) -> dict[int, int]:
        """Unmaps a dead client's windows, and returns the stamps that this gives."""
        self.moved_whole = None
        own = [it for it in self.windows if it.owner == owner]
        windows = [replace(it, is_mapped=False) if it in own else it for it in self.windows]
        return self.restacked(windows, [rect_of(it) for it in own])

    def restacked(self, windows: list[Window], where: list[Rect]) -> dict[int, int]:
        corners = {it.number: (it.x, it.y) for it in self.windows}
        numbers = touched(self.tops(), Tops(windows, self.screen), where)
        numbers |= {it.number for it in windows if corners[it.number] != (it.x, it.y)}
        self.windows = windows
        given = {number: self.last_stamp + count for count, number in enumerate(sorted(numbers), 1)}
        self.last_stamp += len(given)
        self.stamps.update(given)
        return given


# What each kind of change makes of its window; a window that is mapped already isn't mapped again, and so on.
EDITS: dict[str, Callable[[Window, tuple[int, ...]], Optional[Window]]] = {
    "map": lambda window, _: None if window.is_mapped else replace(window, is_mapped=True),
    "unmap": lambda window, _: replace(window, is_mapped=False) if window.is_mapped else None,
    "move": lambda window, numbers: replace(window, x=numbers[0], y=numbers[1]),
    "resize": lambda window, numbers: replace(window, width=numbers[0], height=numbers[1]),
    "raise": lambda window, _: window,
    "lower": lambda window, _: window,
}


def changed(window: Window, change: Change) -> Optional[Window]:
    """Returns a change's window after it, or None where the change is refused."""
    return EDITS[change.kind](window, change.numbers)
