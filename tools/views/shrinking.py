"""The smallest part of a text, by lines, of which something still holds."""

from __future__ import annotations

from typing import Callable, Iterator, Optional

from .scene import read_scene
from .texts import Refused, is_passed_over

Holds = Callable[[list[str]], bool]
BEGINNINGS = ("client", "server", "turns")


def text_with(lines: list[str]) -> str:
    return "".join(f"{line}\n" for line in lines)


def refusal_of(lines: list[str]) -> Optional[Refused]:
    try:
        read_scene(text_with(lines))
    except Refused as why:
        return why
    return None


def block_at(lines: list[str], at: int) -> int:
    """Returns where the block that begins at a line ends: behind its `end`, or behind the line where it begins none."""
    if lines[at].split(" ")[0] not in BEGINNINGS:
        return at + 1
    return next((end + 1 for end in range(at, len(lines)) if lines[end] == "end"), len(lines))


def mended(lines: list[str]) -> Optional[list[str]]:
    """Returns the lines without those that name what isn't there any more, or None where that makes no scene."""
    while why := refusal_of(lines):
        if why.reason != "unknown":
            return None
        at = why.line - 1
        lines = lines[:at] + lines[block_at(lines, at) :]
    return lines


def parts(lines: list[str]) -> Iterator[tuple[int, int]]:
    """Returns what may be left out, as lines from one to before another: blocks, and then less and less of the whole."""
    for at in reversed(range(len(lines))):
        if block_at(lines, at) > at + 1:
            yield at, block_at(lines, at)
    size = len(lines) // 2
    while size:
        yield from ((at, at + size) for at in reversed(range(0, len(lines), size)))
        size //= 2


def shrunk(lines: list[str], holds: Holds) -> list[str]:
    """Returns fewer lines of which it holds too, and of which it doesn't where any block or line of them is left out.

    It holds of the lines given. Where they are a scene, nothing but scenes is tried.
    """
    is_scene = refusal_of(lines) is None
    tried: set[str] = set()

    def without(first: int, last: int) -> Optional[list[str]]:
        fewer = lines[:first] + lines[last:]
        candidate = mended(fewer) if is_scene else fewer
        if candidate is None or text_with(candidate) in tried:
            return None
        tried.add(text_with(candidate))
        return candidate if holds(candidate) else None

    plain = [it for it in lines if not is_passed_over(it)]
    if len(plain) < len(lines) and holds(plain):
        lines = plain
    goes_on = True
    while goes_on:
        goes_on = False
        for first, last in parts(lines):
            # (parts were counted on more lines, where some are gone meanwhile)
            found = without(first, last) if first < len(lines) else None
            if found is not None:
                lines, goes_on = found, True
    return lines
