"""Why an entry isn't legal where it stands, and what would have been legal there."""

from __future__ import annotations

from dataclasses import dataclass
from typing import Iterator, Optional

from .course import DRAWS, IS_DONE, KERNEL_CONTEXT, TAKES, Phase, Standing, context_of, named
from .journal import Entry, groups_in, journal_text
from .program import Program, Report, dies
from .scene import Scene

NO_REASON = "it isn't legal there"


def fault_of(standing: Standing, entry: Entry) -> Optional[str]:
    """Returns why an entry isn't legal in what stands before it, as far as that is seen without the card and texture memory."""
    if entry.kind == "change":
        return fault_of_change(standing, entry.numbers[0])
    client = entry.numbers[0]
    if client not in standing.parts:
        return f"the scene has no client {client}"
    part = standing.parts[client]
    if part.phase in IS_DONE:
        return f"client {client} {part.phase.value}"
    if standing.holder not in (None, client):
        return held(standing)
    if entry.kind == "gone":
        is_legal = dies(standing, client) or client in standing.killed
        return None if is_legal else f"the schedule doesn't kill client {client}, and it isn't at a `die`"
    if entry.kind in TAKES or entry.kind == "info":
        return fault_of_take(standing, entry, client)
    if standing.holder is None:
        return f"client {client} doesn't hold the lock: it {part.phase.value}"
    return fault_in_hold(standing, entry, client)


def held(standing: Standing) -> str:
    return f"client {standing.holder} holds the lock, since entry {standing.since}"


def fault_of_change(standing: Standing, number: int) -> Optional[str]:
    following, count = standing.made + 1, len(standing.scene.changes)
    if following > count:
        return f"the server has no change left: all {count} were made" if count else "the scene has no changes"
    if number != following:
        return f"change {following} is the next one"
    return None if standing.holder is None else held(standing)


def fault_of_take(standing: Standing, entry: Entry, client: int) -> Optional[str]:
    part = standing.parts[client]
    if standing.holder == client:
        return f"client {client} holds the lock already, since entry {standing.since}"
    if entry.kind == "info":
        return None if part.phase is Phase.ASKING else f"client {client} hasn't said that its stamp is old"
    if part.phase is Phase.ASKING:
        return f"client {client} has said that its stamp is old, and has to be told its clips first"
    own = context_of(client)
    if entry.kind == "light":
        return None if standing.word == own else f"the lock word doesn't name client {client}: it names {named(standing.word)}"
    found = entry.numbers[1]
    if found == own:
        return f"the kernel finds another context in the word than client {client}'s own, which is {own}"
    return None if found in (KERNEL_CONTEXT, standing.word) else f"the lock word names {named(standing.word)}"


def fault_in_hold(standing: Standing, entry: Entry, client: int) -> Optional[str]:
    """The client holds the lock, and the entry is one of a hold."""
    part, command = standing.parts[client], standing.next_command(client)
    wanted = {Phase.OLD: "stale", Phase.ASK: "leave", Phase.OVER: "leave"}.get(part.phase)
    if wanted:
        return None if entry.kind == wanted else f"client {client} {part.phase.value}"
    if entry.kind == "stale":
        return f"client {client}'s stamp isn't old: it was told {part.told}, which its window has"
    said = f"command {part.place} (`{command.kind}`) is client {client}'s next one" if command else "it has no command left"
    if entry.kind == "leave":
        return f"{said}: a hold ends with a swap, a yield or the last command"
    if entry.kind == "run":
        is_next = command and entry.numbers[1] == part.place
        return said if not is_next else "a `die` is told as `gone`" if command and command.kind == "die" else None
    is_triangle = entry.kind in DRAWS and command and command.kind == "triangle"
    return None if is_triangle else f"{said}, and before that nothing is loaded or placed"


def fault_beside(entry: Entry, legal: list[Entry]) -> str:
    """Returns why an entry isn't legal where these are: what is seen of the card and of texture memory alone."""
    own = next((it for it in legal if it.client == entry.client and it.kind != "gone"), None)
    if own is None:
        return NO_REASON
    if own.kind == "place":
        _, texture, first, count = own.numbers
        where = f"regions {first} to {first + count - 1}" if count > 1 else f"region {first}"
        if entry.kind == "place":
            return f"texture {texture} has to be placed in {where}"
        return f"texture {texture} isn't in texture memory: it has to be placed first, in {where}"
    if own.kind == "emit":
        return f"the registers that may not be in the card are those of {', '.join(groups_in(own.numbers[1]))}"
    return "no registers are to be loaded" if entry.kind == "emit" else "no texture is to be placed"


def may_come(program: Program, standing: Standing, entries: list[Entry]) -> Iterator[Entry]:
    """Returns what may be legal: in a hold what the holder does at its turn, and else what begins a hold."""
    if standing.holder is not None:
        yield program.next_of(standing.scene, entries, standing.holder)
        yield Entry("gone", (standing.holder,))
        return
    yield Entry("change", (standing.made + 1,))
    for client in standing.parts:
        yield Entry("light", (client,))
        yield from (Entry("kernel", (client, found)) for found in sorted({KERNEL_CONTEXT, standing.word}))
        yield Entry("info", (client,))
        yield Entry("gone", (client,))


def legal_after(program: Program, scene: Scene, entries: list[Entry]) -> list[Entry]:
    """Returns what the program's `check` takes behind these entries, which are a run."""
    standing, text = Standing(scene), scene.text()
    for entry in entries:
        standing.take(entry)
    possible = {it: None for it in may_come(program, standing, entries) if fault_of(standing, it) is None}
    return [it for it in possible if isinstance(program.check(text, journal_text([*entries, it])), Report)]


@dataclass(frozen=True)
class Refusal:
    """Why a journal is no run: the entry's number, the entry, why, and what would have been legal in its place."""

    number: int
    entry: Entry
    why: str
    legal: list[Entry]


def refusal_of(program: Program, scene: Scene, entries: list[Entry], number: int) -> Refusal:
    """Explains the first entry that isn't legal, by its number."""
    before, entry, standing = entries[: number - 1], entries[number - 1], Standing(scene)
    for it in before:
        standing.take(it)
    legal = legal_after(program, scene, before)
    return Refusal(number, entry, fault_of(standing, entry) or fault_beside(entry, legal), legal)
