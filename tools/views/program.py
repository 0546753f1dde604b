"""The programs: their verdicts on journals, their pictures, and what happens turn by turn."""

from __future__ import annotations

import os
import re
import subprocess
from dataclasses import dataclass, replace
from typing import Optional

from .course import Phase, Standing
from .journal import SERVER, Entry, journal_text, read_journal
from .pictures import Picture, read_ppm
from .scene import Client, Command, Item, Scene, Window

TOP = os.path.dirname(os.path.dirname(os.path.dirname(os.path.realpath(__file__))))
SECONDS = 600
DONE, REFUSED, NOT_A_RUN = 0, 2, 6
YIELD = Command(("yield",))
REPORT = re.compile(r"entries (\d+) frames (\d+) stood (\d+) (whole|part)\n")
BAD_ENTRY = re.compile(r"dri: not a run: entry (\d+)\n")
BAD_LINE = re.compile(r"dri: line (\d+): ([a-z]+)\n")


class Failed(Exception):
    """The program isn't there, or it ended as it may not."""


@dataclass(frozen=True)
class Report:
    """What `check` says of a run."""

    entries: int
    frames: int
    stood: int
    is_whole: bool


@dataclass(frozen=True)
class NotARun:
    """The first entry of a journal that isn't legal after those before it."""

    entry: int

    def __str__(self) -> str:
        return f"entry {self.entry} isn't legal"


@dataclass(frozen=True)
class NotRead:
    """The first line that is refused of a scene with a journal behind it, and the reason."""

    line: int
    reason: str

    def __str__(self) -> str:
        return f"line {self.line} of both is refused: {self.reason}"


@dataclass(frozen=True)
class Ended:
    status: int
    picture: bytes
    notes: str


class Program:
    """The built program at a path."""

    def __init__(self, path: str):
        self.path = os.path.abspath(path)

    def run(self, words: list[str], text: str) -> Ended:
        try:
            ran = subprocess.run(
                [self.path, *words], input=text.encode("latin-1"), capture_output=True, timeout=SECONDS, check=False
            )
        except OSError as why:
            raise Failed(f"{self.path}: {why.strerror}") from None
        except subprocess.TimeoutExpired:
            raise Failed(f"{self.path} {' '.join(words)} hasn't ended after {SECONDS} seconds") from None
        return Ended(ran.returncode, ran.stdout, ran.stderr.decode("latin-1"))

    def done(self, words: list[str], text: str) -> Ended:
        """Runs it where it has no cause to refuse anything."""
        ended = self.run(words, text)
        if ended.status != DONE:
            raise Failed(f"{self.path} {' '.join(words)} ended with {ended.status}: {ended.notes.strip()}")
        return ended

    def check(self, scene: str, journal: str) -> Report | NotARun | NotRead:
        """Returns what `check` says of two texts."""
        ended = self.run(["check"], scene + journal)
        if ended.status == DONE and (found := REPORT.fullmatch(ended.picture.decode("latin-1"))):
            entries, frames, stood = map(int, found.groups()[:3])
            return Report(entries, frames, stood, found[4] == "whole")
        if ended.status == NOT_A_RUN and (found := BAD_ENTRY.fullmatch(ended.notes)):
            return NotARun(int(found[1]))
        if ended.status == REFUSED and (found := BAD_LINE.fullmatch(ended.notes)):
            return NotRead(int(found[1]), found[2])
        raise Failed(f"{self.path} check ended with {ended.status}: {ended.notes.strip()}")

    def next_of(self, scene: Scene, entries: list[Entry], client: int) -> Entry:
        """Returns what a client that holds the lock after these entries of a run does at its next turn."""
        scene = stopped(scene, entries)
        ended = self.done(["turns"], replace(scene, schedule=[*scene.schedule, Item(client)]).text())
        return read_journal(ended.notes)[len(entries)]

    def alone(self, scene: Scene, client: int, frame: int, window: Window) -> Picture:
        """Returns a client's frame drawn alone, with the sides of its window as it is given."""
        windows = [window if it.number == window.number else it for it in scene.windows]
        return read_ppm(self.done(["solo", str(client), str(frame)], replace(scene, windows=windows).text()).picture)


class Laboratory(Program):
    """The built laboratory at a path."""

    def screen_after(self, scene: Scene, entries: list[Entry], count: int) -> Picture:
        """Returns what the screen shows after so many entries of a run."""
        return read_ppm(self.done(["after", str(count)], scene.text() + journal_text(entries)).picture)


def stopped(scene: Scene, entries: list[Entry]) -> Scene:
    """Returns the scene of a run that goes as far as these entries: played by `turns` it makes them, in their order, and then
    nothing that shows on the screen.

    Each client's script goes on for one command behind those that ran, and that is no swap and no death, and the server makes
    no further change.
    """
    standing, items = Standing(scene), []
    for entry in entries:
        items += items_of(standing, entry)
        standing.take(entry)
    clients = {it.number: replace(it, commands=commands_of(it, standing)) for it in scene.clients.values()}
    return replace(scene, clients=clients, changes=scene.changes[: standing.made], schedule=items)


def items_of(standing: Standing, entry: Entry) -> list[Item]:
    """Returns the items that make an entry where nobody waits for the lock."""
    if entry.kind != "gone":
        return [Item(entry.numbers[0] if entry.kind != "change" else SERVER)]
    client = entry.numbers[0]
    if dies(standing, client):
        return [Item(client)]
    return [Item(client, True)] if standing.holder == client else [Item(client, True), Item(client)]


def dies(standing: Standing, client: int) -> bool:
    """The client's next turn is its death by its script."""
    command = standing.next_command(client)
    return standing.parts[client].phase is Phase.IN and command is not None and command.kind == "die"


def commands_of(client: Client, standing: Standing) -> list[Command]:
    ran = standing.parts[client.number].place - 1
    following = client.commands[ran : ran + 1]
    is_dead = standing.parts[client.number].phase is Phase.DEAD
    shows = [it for it in following if it.kind == "swap" or (it.kind == "die" and not is_dead)]
    return client.commands[:ran] + ([YIELD] if shows else following)


def proved(option: str, *words: str) -> str:
    """Returns the path of a proved program, which is built first where it isn't there. The option is how else to give one."""
    found = subprocess.run([f"{TOP}/tools/program", *words], stdout=subprocess.PIPE, text=True, check=False)
    if found.returncode:
        raise Failed(f"there is no proved program, and none could be built (give one by {option})")
    return found.stdout.rstrip("\n")


def find_program(path: Optional[str]) -> Program:
    """Returns the program at a path, or else the proved one that ./dri starts."""
    return Program(path or proved("--program"))


def find_laboratory(path: Optional[str]) -> Laboratory:
    """Returns the laboratory at a path, or else the proved one that ./dri_lab starts."""
    return Laboratory(path or proved("--laboratory", "lab"))
