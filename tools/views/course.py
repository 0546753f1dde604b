"""What a journal did to its scene: who held the lock and from when to when, which stamps came, and which frames stood.

It knows who may hold when, whose command is next, and where windows are. It doesn't know the card or texture memory: which
registers are to be loaded and where a texture comes is what the program tells.
"""

from __future__ import annotations

from dataclasses import dataclass, field
from enum import Enum
from typing import Iterable, Optional

from .journal import Entry
from .scene import Command, Scene, Window
from .stack import Stack, Tops

KERNEL_CONTEXT, SERVER_CONTEXT = 0, 1
TAKES = ("light", "kernel")
DRAWS = ("place", "emit")


class Phase(Enum):
    """What a client is doing, as the model's pages name it."""

    OUT = "holds nothing"
    OLD = "holds the lock, and its stamp is old"
    IN = "holds the lock, and may act"
    OVER = "holds the lock, and has to leave"
    ASK = "holds the lock, has said that its stamp is old, and has to leave"
    ASKING = "waits to be told its clips"
    ENDED = "has run its last command"
    DEAD = "is dead"


IS_DONE = (Phase.ENDED, Phase.DEAD)


class NotInScene(Exception):
    """An entry, by its number, that names a client, command or change that the scene doesn't have."""

    def __init__(self, number: int, entry: Entry):
        super().__init__(f"entry {number}, {entry}, names what the scene doesn't have")
        self.number = number


@dataclass
class Part:
    """What is kept of a client: its phase, the number of its next command, and the stamp that it was told (0 for none)."""

    phase: Phase
    place: int = 1
    told: int = 0


def context_of(actor: int) -> int:
    return actor + 1


def named(context: int) -> str:
    """Returns whom a context names."""
    if context == KERNEL_CONTEXT:
        return "nobody (context 0)"
    return "the server (context 1)" if context == SERVER_CONTEXT else f"client {context - 1} (context {context})"


class Standing:
    """What stands after the entries so far: holder, word, windows with stamps, and each client's part."""

    def __init__(self, scene: Scene):
        self.scene, self.stack, self.count, self.made = scene, Stack(scene), 0, 0
        self.holder: Optional[int] = None
        self.since = 0
        self.word = SERVER_CONTEXT
        self.killed = scene.killed()
        self.parts = {it.number: Part(Phase.OUT if it.commands else Phase.ENDED) for it in scene.clients.values()}

    def next_command(self, client: int) -> Optional[Command]:
        commands, place = self.scene.clients[client].commands, self.parts[client].place
        return commands[place - 1] if place <= len(commands) else None

    def is_whole(self) -> bool:
        done = all(it.phase in IS_DONE for it in self.parts.values())
        return self.holder is None and done and self.made == len(self.scene.changes)

    def stamp_of(self, client: int) -> int:
        return self.stack.stamps[self.scene.clients[client].window]

    def has(self, entry: Entry) -> bool:
        """The scene has what the entry names."""
        if entry.kind == "change":
            return entry.numbers[0] <= len(self.scene.changes)
        if entry.client not in self.parts:
            return False
        return entry.kind != "run" or entry.numbers[1] <= len(self.scene.clients[entry.client].commands)

    def take(self, entry: Entry) -> dict[int, int]:
        """Goes on by an entry, legal or not, that names what the scene has; returns the stamps that it gives."""
        self.count += 1
        if not self.has(entry):
            raise NotInScene(self.count, entry)
        if entry.kind == "change":
            self.holder, self.word, self.made = None, SERVER_CONTEXT, entry.numbers[0]
            return self.stack.change(self.scene.changes[self.made - 1])
        client, part = entry.numbers[0], self.parts[entry.numbers[0]]
        if entry.kind in TAKES:
            self.holder, self.since = client, self.count
            is_old = entry.kind == "kernel" and part.told != self.stamp_of(client)
            part.phase = Phase.OLD if is_old else Phase.IN
        elif entry.kind == "stale":
            part.phase = Phase.ASK
        elif entry.kind == "run":
            self.run(client, part, entry.numbers[1])
        elif entry.kind == "leave":
            self.holder, self.word = None, context_of(client)
            part.phase = Phase.ASKING if part.phase is Phase.ASK else self.at_rest(client)
        elif entry.kind == "info":
            self.holder, self.word = None, SERVER_CONTEXT
            part.phase, part.told = Phase.OUT, self.stamp_of(client)
        elif entry.kind == "gone":
            self.holder, self.word, part.phase = None, KERNEL_CONTEXT, Phase.DEAD
            return self.stack.bury(client)
        return {}

    def run(self, client: int, part: Part, place: int) -> None:
        command, part.place = self.scene.clients[client].commands[place - 1], place + 1
        is_last = self.next_command(client) is None
        part.phase = Phase.OVER if is_last or command.kind in ("swap", "yield") else Phase.IN

    def at_rest(self, client: int) -> Phase:
        return Phase.OUT if self.next_command(client) else Phase.ENDED


@dataclass(frozen=True)
class Hold:
    """A hold: its actor, its first and its last entry, and whether it was ended by a leave or a death (or isn't yet)."""

    actor: int
    first: int
    last: int
    is_ended: bool


@dataclass(frozen=True)
class Loss:
    """The entry that gave a window a new stamp and didn't move it whole, and the stamp."""

    entry: int
    stamp: int


@dataclass(frozen=True)
class Frame:
    """A frame that ran: which of its client's swaps ended it, the entries of its last clear (None without one) and of its
    swap, and what took its window's stamp between them. The window and what is topmost are those at the swap."""

    client: int
    number: int
    clear: Optional[int]
    swap: int
    loss: Optional[Loss]
    window: Window
    tops: Tops

    @property
    def stood(self) -> bool:
        return self.clear is not None and self.loss is None


@dataclass
class Drawing:
    """The frame that a client is at: its number, the entry of its last clear, and what took its stamp since."""

    number: int = 1
    clear: Optional[int] = None
    loss: Optional[Loss] = None


@dataclass
class Course:
    """A journal's holds, stamps by the entries that gave them, frames, and whether nothing is left to do."""

    scene: Scene
    entries: list[Entry]
    holds: list[Hold] = field(default_factory=list)
    stamps: dict[int, dict[int, int]] = field(default_factory=dict)
    frames: list[Frame] = field(default_factory=list)
    drawings: dict[int, Drawing] = field(default_factory=dict)
    is_whole: bool = False

    def command(self, entry: Entry) -> Optional[Command]:
        """Returns the command that an entry ran."""
        return self.scene.clients[entry.numbers[0]].commands[entry.numbers[1] - 1] if entry.kind == "run" else None

    def line(self, number: int) -> str:
        """Returns an entry with what it did, as a reader wants it: `change 2 (raise 3)`."""
        entry = self.entries[number - 1]
        command = self.command(entry)
        if entry.kind == "change":
            return f"{entry} ({self.scene.changes[entry.numbers[0] - 1].line()})"
        return f"{entry} ({command.line()})" if command else str(entry)

    def fate(self, frame: Frame) -> str:
        """Returns in words whether a frame stood, and what took its stamp where it didn't."""
        head = f"frame {frame.number} of client {frame.client}"
        if frame.clear is None:
            return f"{head}, entry {frame.swap}, begins with no clear"
        head += f", entries {frame.clear} to {frame.swap},"
        if frame.loss is None:
            return f"{head} stood"
        cause = f"entry {frame.loss.entry}, {self.line(frame.loss.entry)}"
        return f"{head} didn't stand: {cause}, gave window {frame.window.number} stamp {frame.loss.stamp}"

    def window_of(self, client: int) -> int:
        return self.scene.clients[client].window


def course_of(scene: Scene, entries: Iterable[Entry]) -> Course:
    """Follows a journal, legal or not, as long as it names what the scene has."""
    course, standing = Course(scene, list(entries)), Standing(scene)
    course.drawings = {client: Drawing() for client in scene.clients}
    for number, entry in enumerate(course.entries, 1):
        given = standing.take(entry)
        follow_hold(course, number, entry)
        if given:
            course.stamps[number] = given
            lose(course, number, given, standing.stack.moved_whole)
        if entry.kind == "run":
            follow_frame(course, standing, number, entry)
    course.is_whole = standing.is_whole()
    return course


def follow_hold(course: Course, number: int, entry: Entry) -> None:
    """Adds the entry to the hold that is under way, or begins one with it."""
    last = course.holds[-1] if course.holds else None
    is_ended = entry.kind in ("info", "change", "leave", "gone")
    goes_on = last and not last.is_ended and last.actor == entry.actor and entry.kind not in TAKES
    if last and goes_on:
        course.holds[-1] = Hold(last.actor, last.first, number, is_ended)
    else:
        course.holds.append(Hold(entry.actor, number, number, is_ended))


def lose(course: Course, number: int, given: dict[int, int], moved_whole: Optional[int]) -> None:
    """Notes which begun frames lose their window's stamp otherwise than by a whole move, each to the first entry that took
    it."""
    for client, drawing in course.drawings.items():
        window = course.window_of(client)
        stamp = given.get(window)
        if stamp and window != moved_whole and drawing.clear and not drawing.loss:
            drawing.loss = Loss(number, stamp)


def follow_frame(course: Course, standing: Standing, number: int, entry: Entry) -> None:
    """A clear begins a frame anew, and a swap ends it."""
    client, command = entry.numbers[0], course.command(entry)
    drawing = course.drawings[client]
    if command and command.kind == "clear":
        course.drawings[client] = Drawing(drawing.number, number)
    elif command and command.kind == "swap":
        window = standing.stack.window(course.window_of(client))
        tops = standing.stack.tops()
        course.frames.append(Frame(client, drawing.number, drawing.clear, number, drawing.loss, window, tops))
        course.drawings[client] = Drawing(drawing.number + 1)
