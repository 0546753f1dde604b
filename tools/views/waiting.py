"""Who waits for the lock and when: what the laboratory's `events` writes, a line for each turn and kill, with the event that it
made, and the lock word and the queue after it."""

from __future__ import annotations

from dataclasses import dataclass, replace
from typing import Optional

from .journal import Entry

# Events that are no entries of the journal.
UNWRITTEN = ("passed", "queue", "mark", "stop")


class NotItsEvents(Exception):
    """A line, by its number, that no event of the journal's run has, and why."""

    def __init__(self, line: int, why: str):
        super().__init__(f"line {line}: {why}")


@dataclass(frozen=True)
class Wait:
    """An actor's time in the queue: how many entries were made when it joined, the entry by which it went, how many entries were
    made when it marked the word as the first that waits, and when a kill stopped it. None where it never did."""

    actor: int
    joined: int
    went: Optional[int] = None
    marked: Optional[int] = None
    stopped: Optional[int] = None


@dataclass(frozen=True)
class Step:
    """A line: the words of the event, and the actors that wait after it."""

    event: list[str]
    queue: list[int]


def step_of(line: str, number: int) -> Step:
    words = line.split(" ")
    try:
        at = words.index("word", 2)
        behind = words.index("queue", at)
        return Step(words[2:at], list(map(int, words[behind + 1 :])))
    except ValueError:
        raise NotItsEvents(number, "it is no line of an event") from None


def entry_of(step: Step) -> Optional[str]:
    """Returns the line of the event's entry, where it has one."""
    if step.event[0] in UNWRITTEN:
        return None
    return " ".join(step.event).replace("leave_kernel", "leave")


class Waiting:
    """Goes over the lines, and gathers who waited."""

    def __init__(self, entries: list[Entry]):
        self.entries, self.made = entries, 0
        self.begun: dict[int, Wait] = {}
        self.waits: list[Wait] = []

    def take(self, step: Step, number: int) -> None:
        entry = entry_of(step)
        if entry is not None:
            self.made += 1
            there = str(self.entries[self.made - 1]) if self.made <= len(self.entries) else "not there"
            if entry != there:
                raise NotItsEvents(number, f"it has {entry}, and entry {self.made} of the journal is {there}")
        # Who is stopped goes by no entry.
        way = {"stopped" if entry is None else "went": self.made}
        for actor in [it for it in self.begun if it not in step.queue]:
            self.waits.append(replace(self.begun.pop(actor), **way))
        for actor in step.queue:
            self.begun.setdefault(actor, Wait(actor, self.made))
        if step.event[0] == "mark":
            actor = int(step.event[1])
            self.begun[actor] = replace(self.begun[actor], marked=self.made)


def waits_of(text: str, entries: list[Entry]) -> list[Wait]:
    """Returns the waits of a run, of which these are the events and the entries."""
    waiting = Waiting(entries)
    for number, line in enumerate(text.splitlines(), 1):
        waiting.take(step_of(line, number), number)
    if waiting.made != len(entries):
        raise NotItsEvents(len(text.splitlines()), f"it is the last, and entry {waiting.made + 1} of the journal is in none")
    return waiting.waits + list(waiting.begun.values())
