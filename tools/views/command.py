"""What a tool's `main` does: words, files, and one line that says why there is nothing to show."""

from __future__ import annotations

import argparse
import os
import sys
from dataclasses import dataclass
from typing import Callable, Iterable

from .course import Course, NotInScene, course_of
from .journal import Entry, read_journal
from .pictures import NoPicture
from .program import Failed
from .scene import Scene, read_scene
from .texts import Refused

DONE, SAID_NO, TROUBLE = range(3)
STATUSES = """The status is 0, or 2 where a file can't be read or isn't what it has to be: then standard error has one line that
says which file, which of its lines, and why, and nothing is written."""


class Trouble(Exception):
    """Why a tool has nothing to show."""


def parser_of(doc: str, epilog: str = STATUSES) -> argparse.ArgumentParser:
    """Returns a parser of a tool's words. Its help is the tool's page, whose paragraph `usage:` stands first."""
    head, _, rest = doc.partition("usage: ")
    usage, _, more = rest.partition("\n\n")
    name = f"tools/{os.path.basename(sys.argv[0])}"
    page = "\n\n".join((head.strip(), more.strip("\n")))
    return argparse.ArgumentParser(name, usage, page, epilog, formatter_class=argparse.RawDescriptionHelpFormatter)


def count_to(most: int = sys.maxsize) -> Callable[[str], int]:
    """Returns a reader of words that are numbers from 1 to the greatest."""

    def count(word: str) -> int:
        if not (word.isascii() and word.isdigit() and 1 <= int(word) <= most):
            raise argparse.ArgumentTypeError(f"{word!r} is no number from 1" + (f" to {most}" if most < sys.maxsize else " on"))
        return int(word)

    return count


def bytes_of(path: str) -> bytes:
    """Returns a file's bytes; `-` is standard input."""
    if path == "-" and sys.stdin is None:
        raise Trouble("standard input is closed")
    try:
        if path == "-":
            return sys.stdin.buffer.read()
        with open(path, "rb") as it:
            return it.read()
    except OSError as why:
        raise Trouble(f"{path}: {why.strerror}") from None


def text_of(path: str) -> str:
    """Returns a file's text, a letter for each byte."""
    return bytes_of(path).decode("latin-1")


@dataclass(frozen=True)
class Recording:
    """A scene and a journal, and the texts that they were read from. Each file is read once, so it may be a pipe."""

    scene_text: str
    journal_text: str
    scene: Scene
    entries: list[Entry]


def recording_of(scene_path: str, journal_path: str) -> Recording:
    scene_text, journal_text = text_of(scene_path), text_of(journal_path)
    try:
        scene = read_scene(scene_text)
    except Refused as why:
        raise Trouble(f"{scene_path} is no scene: {why}") from None
    try:
        return Recording(scene_text, journal_text, scene, read_journal(journal_text))
    except Refused as why:
        raise Trouble(f"{journal_path} is no journal: {why}") from None


def course_over(recording: Recording, journal_path: str) -> Course:
    """Returns what a journal, read from this file, did to its scene."""
    try:
        return course_of(recording.scene, recording.entries)
    except NotInScene as why:
        line = recording.entries[why.number - 1].line
        raise Trouble(f"{journal_path}: line {line}: {why} (tools/why tells more)") from None


def print_lines(lines: Iterable[str]) -> None:
    print_text("".join(f"{it}\n" for it in lines))


def print_text(text: str) -> None:
    # (the name of a file may be no text)
    print_bytes(text.encode(errors="surrogateescape"))


def print_bytes(data: bytes) -> None:
    """Writes bytes to standard output, all of them."""
    if sys.stdout is None:
        raise Trouble("standard output is closed")
    try:
        sys.stdout.buffer.write(data)
        sys.stdout.buffer.flush()
    except OSError as why:
        # (what is left isn't written at the end either)
        os.dup2(os.open(os.devnull, os.O_WRONLY), sys.stdout.fileno())
        if isinstance(why, BrokenPipeError):
            raise
        raise Trouble(f"standard output: {why.strerror}") from None


def run(parser: argparse.ArgumentParser, tool: Callable[[argparse.Namespace], int]) -> None:
    """Runs a tool over its words, and ends with its status."""
    given = parser.parse_args()
    try:
        sys.exit(tool(given))
    except (Trouble, NoPicture, Failed) as why:
        print(f"{parser.prog}: {why}", file=sys.stderr)
        sys.exit(TROUBLE)
    except (BrokenPipeError, KeyboardInterrupt):
        # (the reader has gone, or nobody waits any more)
        sys.exit(TROUBLE)
