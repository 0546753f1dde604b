"""A course as trace events in JSON, as Perfetto and Chrome open them. An entry takes a millisecond."""

from __future__ import annotations

import json
from typing import Any, Iterator

from .course import Course
from .journal import SERVER
from .timeline import hint_of, name_of

ENTRY = 1000
PROCESS = 1000

Event = dict[str, Any]


def track_of(actor: int) -> int:
    """Returns the number of an actor's track; tracks count from 1, and that of a client's frames stands right behind its own."""
    return 2 * actor + 1


def frames_of(client: int) -> int:
    return track_of(client) + 1


def slice_of(track: int, name: str, first: int, last: int, **more: Any) -> Event:
    """Returns a slice from the beginning of one entry to the end of another."""
    return {
        "ph": "X",
        "pid": PROCESS,
        "tid": track,
        "name": name,
        "ts": first * ENTRY,
        "dur": (last - first + 1) * ENTRY,
        "args": more,
    }


def tracks(course: Course) -> Iterator[Event]:
    names = {track_of(SERVER): name_of(SERVER)}
    for client in course.scene.clients:
        names[track_of(client)] = f"{name_of(client)}, window {course.window_of(client)}"
        names[frames_of(client)] = f"{name_of(client)}'s frames"
    yield {"ph": "M", "pid": PROCESS, "tid": 0, "name": "process_name", "args": {"name": "the lock"}}
    for track, name in names.items():
        yield {"ph": "M", "pid": PROCESS, "tid": track, "name": "thread_name", "args": {"name": name}}
        yield {"ph": "M", "pid": PROCESS, "tid": track, "name": "thread_sort_index", "args": {"sort_index": track}}


def holds(course: Course) -> Iterator[Event]:
    for hold in course.holds:
        name = f"hold ({course.entries[hold.first - 1].kind})"
        yield slice_of(track_of(hold.actor), name, hold.first, hold.last)


def entries(course: Course) -> Iterator[Event]:
    for number, entry in enumerate(course.entries, 1):
        command = course.command(entry)
        name = command.kind if command else course.line(number) if entry.kind == "change" else str(entry)
        yield slice_of(track_of(entry.actor), name, number, number, entry=number, told=hint_of(course, number))
        for window, stamp in course.stamps.get(number, {}).items():
            for client in (it for it in course.scene.clients if course.window_of(it) == window):
                name = f"window {window}: stamp {stamp}"
                yield {"ph": "i", "s": "t", "pid": PROCESS, "tid": track_of(client), "name": name, "ts": number * ENTRY}


def frames(course: Course) -> Iterator[Event]:
    for frame in course.frames:
        if frame.clear:
            name = f"frame {frame.number} {'stood' if frame.stood else 'did not stand'}"
            yield slice_of(frames_of(frame.client), name, frame.clear, frame.swap, told=course.fate(frame))


def trace_of(course: Course) -> str:
    """Returns the trace as JSON, an event a line. A hold comes before its entries, which lie in it."""
    events = [*tracks(course), *holds(course), *entries(course), *frames(course)]
    lines = ",\n".join(json.dumps(it) for it in events)
    return f'{{"displayTimeUnit": "ms", "traceEvents": [\n{lines}\n]}}\n'
