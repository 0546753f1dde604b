"""Journals and their text."""

from __future__ import annotations

from dataclasses import dataclass, field
from typing import Optional

from .texts import Forms, Lines, Refused

FORMS = Forms(
    """
    light 1..32
    kernel 1..32 0..33
    stale 1..32
    place 1..32 1..64 0..63 1..64
    emit 1..32 1..127
    run 1..32 1..100000
    leave 1..32
    info 1..32
    change 1..4096
    gone 1..32
"""
)
TITLE, END = "journal 1", "done"
SERVER = 0
# The groups of registers, from the lowest bit on.
GROUPS = ("shade", "depth", "blend", "texmode", "wrap", "bind", "scissor")


@dataclass(frozen=True)
class Entry:
    """An entry of a journal: its word and its numbers. The line of the text where it stands (0 where it stands in none) tells no
    entries apart."""

    kind: str
    numbers: tuple[int, ...]
    line: int = field(default=0, compare=False)

    @property
    def client(self) -> Optional[int]:
        """Which client it speaks of; None for a change."""
        return None if self.kind == "change" else self.numbers[0]

    @property
    def actor(self) -> int:
        """Whose hold it stands in: the server tells clips and makes changes."""
        return SERVER if self.kind in ("info", "change") else self.numbers[0]

    def __str__(self) -> str:
        return " ".join(map(str, (self.kind, *self.numbers)))


def groups_in(bits: int) -> list[str]:
    """Returns the names of the groups of registers in a set that is given as a number."""
    return [name for at, name in enumerate(GROUPS) if bits >> at & 1]


def read_journal(text: str) -> list[Entry]:
    """Reads a journal's text, or raises the refusal of its first line that isn't allowed."""
    lines, entries = Lines(text), []
    if lines.next() != TITLE:
        raise Refused(lines.number, "shape")
    while (line := lines.next()) != END:
        words = line.split(" ")
        form = FORMS.form(words)
        if form is None:
            raise Refused(lines.number, "shape")
        if not form.allows(words[1:]):
            raise Refused(lines.number, "range")
        entries.append(Entry(form.kind, tuple(map(int, words[1:])), lines.number))
    lines.end()
    return entries


def journal_text(entries: list[Entry]) -> str:
    return "".join(f"{line}\n" for line in (TITLE, *entries, END))
