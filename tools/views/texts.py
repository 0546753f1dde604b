"""Lines of a text and the forms that a line may have. Scenes and journals are read by it."""

from __future__ import annotations

import re
from dataclasses import dataclass
from typing import Optional, Union

NUMBER = re.compile(r"0|-?[1-9][0-9]{0,9}")
HEXADECIMAL = re.compile(r"[0-9a-f]+")

# What each reason says of the line that is refused.
REASONS = {
    "shape": "none of the forms that may stand here",
    "range": "a number outside its range, or an image with too few or too many digits",
    "unknown": "a window, client or texture that isn't there, or a window that isn't the client's",
    "twice": "a window's number or a kill for the second time",
    "order": "a number that isn't above the one before it",
    "limit": "one line of its kind more than there may be",
    "heap": "a texture with more bytes than all regions together",
    "ended": "the text ends too early",
}


class Refused(Exception):
    """A text that isn't of its kind: the first line that is refused, counted from 1, and the program's word for why."""

    def __init__(self, line: int, reason: str):
        super().__init__(f"line {line}: {reason}: {REASONS[reason]}")
        self.line, self.reason = line, reason


class Lines:
    """The lines of a text in their order, without those that are passed over. `number` is that of the line given last."""

    def __init__(self, text: str):
        self.parts, self.number = text.split("\n"), 0

    def next(self) -> str:
        while True:
            self.number += 1
            if self.number >= len(self.parts):
                raise Refused(self.number, "ended")
            line = self.parts[self.number - 1]
            if not is_passed_over(line):
                return line

    def end(self) -> None:
        """Nothing but lines that are passed over may be left."""
        for number in range(self.number + 1, len(self.parts)):
            if not is_passed_over(self.parts[number - 1]):
                raise Refused(number, "shape")
        if self.parts[-1]:
            raise Refused(len(self.parts), "ended")


def is_passed_over(line: str) -> bool:
    return not line or line[0] == "#"


@dataclass(frozen=True)
class Number:
    """A word that is a number in a range, both ends included."""

    least: int
    most: int

    def spells(self, word: str) -> bool:
        return bool(NUMBER.fullmatch(word))

    def allows(self, word: str) -> bool:
        return self.least <= int(word) <= self.most


@dataclass(frozen=True)
class Digits:
    """A word of so many hexadecimal digits, or, for a count of 0, of any number of them above 0."""

    count: int

    def spells(self, word: str) -> bool:
        return bool(HEXADECIMAL.fullmatch(word)) and self.count in (0, len(word))

    def allows(self, word: str) -> bool:
        return True


@dataclass(frozen=True)
class Choice:
    """A word that is one of these."""

    words: tuple[str, ...]

    def spells(self, word: str) -> bool:
        return word in self.words

    def allows(self, word: str) -> bool:
        return True


Slot = Union[Number, Digits, Choice]
DIGITS = {"RRGGBB": 6, "RRGGBBAA": 8, "HEX": 0}


def slot_of(word: str) -> Slot:
    """Returns what a word of a table of forms stands for: `1..64`, `RRGGBB`, `RRGGBBAA`, `HEX`, or words with `|` between."""
    least, dots, most = word.partition("..")
    if dots:
        return Number(int(least), int(most))
    return Digits(DIGITS[word]) if word in DIGITS else Choice(tuple(word.split("|")))


@dataclass(frozen=True)
class Form:
    """A form of a line: its first word, which is its kind, and the slots behind it."""

    kind: str
    slots: tuple[Slot, ...]

    def fits(self, words: list[str]) -> bool:
        return len(words) == len(self.slots) and all(it.spells(word) for it, word in zip(self.slots, words))

    def allows(self, words: list[str]) -> bool:
        return all(it.allows(word) for it, word in zip(self.slots, words))


class Forms:
    """The forms of a text's lines, from a table with a form on each line. A kind may have several."""

    def __init__(self, table: str):
        self.of_kind: dict[str, list[Form]] = {}
        for line in table.strip().splitlines():
            kind, *slots = line.split()
            self.of_kind.setdefault(kind, []).append(Form(kind, tuple(map(slot_of, slots))))

    def form(self, words: list[str]) -> Optional[Form]:
        """Returns the form of a line's words, or None where the line has none."""
        return next((it for it in self.of_kind.get(words[0], ()) if it.fits(words[1:])), None)
