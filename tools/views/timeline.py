"""The lock's timeline: a lane for each actor, a bar for each hold, a sign for each entry, a line for each frame, and who waits."""

from __future__ import annotations

import math
from dataclasses import dataclass, replace
from typing import Callable, Iterable, Iterator, Optional

from .course import Course, Frame
from .journal import SERVER, Entry, groups_in
from .scene import Command
from .svg import BAD, GOOD, INK, PALE, SHADE, Svg, width_of
from .waiting import Wait

SERVER_COLOUR = "#5b6470"
COLOURS = ("#2f6fb7", "#c7611a", "#2c8a57", "#8a4fb0", "#b0304f", "#7a6a1c", "#138a8f", "#555f9c")
WHITE, TEXTURE_COLOUR = "#ffffff", "#f5d76e"
LEFT, RIGHT, HEAD, BELOW, MOST_LANES = 96, 34, 104, 26, 6
LEAST_WIDTH, MOST_STRETCH = 1130, 1.5


@dataclass(frozen=True)
class Layout:
    """Sizes in pixels: an entry's step, a lane, the bar of a hold in it, the room between strips. How many entries a strip has, and
    whether each has a sign."""

    step: float
    lane: int
    bar: int
    between: int
    entries: int
    has_signs: bool


ROOMY = Layout(step=17, lane=48, bar=22, between=64, entries=60, has_signs=True)
NARROW = Layout(step=7, lane=26, bar=10, between=34, entries=150, has_signs=False)
MOST_ROOMY_ENTRIES = 600


def layout_for(total: int) -> Layout:
    """Returns the layout for so many entries, above 0: with signs where there is room for them, in strips of one length that fill
    the drawing's width, unless there are few entries."""
    layout = ROOMY if total <= MOST_ROOMY_ENTRIES else NARROW
    strips = math.ceil(total / layout.entries)
    each = math.ceil(total / strips)
    room = (LEAST_WIDTH - LEFT - RIGHT) / each
    return replace(layout, entries=each, step=max(layout.step, min(room, layout.step * MOST_STRETCH)))


@dataclass(frozen=True)
class Strip:
    """A part of the timeline: its entries, the actors that have a lane, and its upper edge."""

    first: int
    last: int
    actors: list[int]
    top: float


def colour_of(actor: int) -> str:
    return SERVER_COLOUR if actor == SERVER else COLOURS[(actor - 1) % len(COLOURS)]


def name_of(actor: int) -> str:
    return "server" if actor == SERVER else f"client {actor}"


def colour_of_frame(frame: Frame) -> str:
    return PALE if frame.clear is None else GOOD if frame.stood else BAD


class Timeline:
    """Draws one course, and who waited in it, where that is known."""

    def __init__(self, course: Course, waits: list[Wait]):
        self.course, self.waits = course, waits
        self.layout = layout_for(max(1, len(course.entries)))
        self.strips = list(self.cut())
        below = self.strips[-1]
        height = below.top + len(below.actors) * self.layout.lane + BELOW
        width = max(LEFT + self.layout.entries * self.layout.step + RIGHT, LEAST_WIDTH)
        self.svg = Svg(width, height, "Who held the lock")

    def cut(self) -> Iterator[Strip]:
        """Cuts the entries into strips. With many clients a strip has lanes for those alone that do something in it."""
        total, top, all_actors = len(self.course.entries), float(HEAD), [SERVER, *self.course.scene.clients]
        for first in range(1, max(total, 1) + 1, self.layout.entries):
            last = min(total, first + self.layout.entries - 1)
            busy = self.busy(first, last)
            actors = all_actors if len(all_actors) <= MOST_LANES else [it for it in all_actors if it == SERVER or it in busy]
            yield Strip(first, last, actors, top)
            top += len(actors) * self.layout.lane + self.layout.between

    def busy(self, first: int, last: int) -> set[int]:
        """Returns the clients that something happens to from one entry to another."""
        named = {it.client for it in self.course.entries[first - 1 : last] if it.client}
        framed = {it.client for it in self.course.frames if (it.clear or it.swap) <= last and it.swap >= first}
        stamped = {number for at in range(first, last + 1) for number in self.course.stamps.get(at, ())}
        waiting = {it.actor for it in self.waits if it.joined <= last and self.went(it) >= first}
        return named | framed | waiting | {it.number for it in self.course.scene.clients.values() if it.window in stamped}

    def went(self, wait: Wait) -> int:
        """Returns the entry up to which an actor waits: the next one where it was stopped, the one behind the last where it never
        went."""
        if wait.stopped is not None:
            return wait.stopped + 1
        return wait.went or len(self.course.entries) + 1

    def x(self, strip: Strip, number: int) -> float:
        """Returns the middle of an entry's cell."""
        return LEFT + (number - strip.first + 0.5) * self.layout.step

    def y(self, strip: Strip, actor: int) -> float:
        """Returns the upper edge of an actor's lane."""
        return strip.top + strip.actors.index(actor) * self.layout.lane

    def draw(self) -> str:
        self.draw_head()
        for strip in self.strips:
            self.draw_lanes(strip)
            self.draw_frames(strip)
            self.draw_stamps(strip)
            for wait in self.waits:
                if wait.actor in strip.actors:
                    self.draw_wait(strip, wait)
            for hold in self.course.holds:
                if hold.first <= strip.last and hold.last >= strip.first and hold.actor in strip.actors:
                    self.draw_hold(strip, hold.actor, max(hold.first, strip.first), min(hold.last, strip.last))
            for number in range(strip.first, strip.last + 1):
                self.draw_entry(strip, number, self.course.entries[number - 1])
        return self.svg.done()

    def draw_head(self) -> None:
        course = self.course
        begun = [it for it in course.frames if it.clear]
        said = f"{len(course.entries)} entries, {len(course.holds)} holds, {len(begun)} frames that begin with a clear, "
        said += f"{sum(it.stood for it in begun)} of them stood"
        self.svg.text(16, 24, "Who held the lock", 16, font_weight="bold")
        self.svg.text(190, 24, said, 12, PALE)
        Legend(self.svg, 16, 46).draw(self.layout, bool(self.waits))

    def draw_lanes(self, strip: Strip) -> None:
        svg, layout = self.svg, self.layout
        width = (strip.last - strip.first + 1) * layout.step
        for actor in strip.actors:
            top = self.y(strip, actor)
            svg.rect(LEFT, top, width, layout.lane - 6, SHADE)
            svg.text(LEFT - 10, top + layout.bar / 2 + 7, name_of(actor), 12, colour_of(actor), "end", font_weight="bold")
            if actor != SERVER and layout.has_signs:
                svg.text(LEFT - 10, top + 32, f"window {self.course.window_of(actor)}", 9.5, PALE, "end")
        below = strip.top + len(strip.actors) * layout.lane
        for number in range(strip.first, strip.last + 1):
            is_tenth = number % 10 == 0
            if is_tenth or layout.has_signs:
                size, weight = (8.5, "bold") if is_tenth else (7, "normal")
                svg.text(self.x(strip, number), below + 5, number, size, PALE, "middle", font_weight=weight)

    def draw_wait(self, strip: Strip, wait: Wait) -> None:
        """A thin bar, from behind the last entry before the actor joined the queue to the entry by which it went, with a stroke where
        it marked the word."""
        step, level = self.layout.step, self.y(strip, wait.actor) + 5 + self.layout.bar / 2
        left = LEFT + max(wait.joined - strip.first + 1, 0) * step
        right = LEFT + min(self.went(wait) - strip.first, strip.last - strip.first + 1) * step
        if right <= left:
            return
        colour = colour_of(wait.actor)
        until = f"up to entry {wait.went}" if wait.went else "and never went"
        until = until if wait.stopped is None else f"and was stopped behind entry {wait.stopped}"
        marked = "" if wait.marked is None else f"; marked the word after entry {wait.marked}"
        self.svg.begin(f"{name_of(wait.actor)} waited from behind entry {wait.joined} {until}{marked}")
        self.svg.rect(left, level - 2, right - left, 4, colour, opacity=0.45)
        if wait.marked is not None and strip.first - 1 <= wait.marked <= strip.last:
            x = LEFT + (wait.marked - strip.first + 1) * step
            self.svg.line(x, level - 6, x, level + 6, colour, stroke_width=2)
        self.svg.end()

    def draw_hold(self, strip: Strip, actor: int, first: int, last: int) -> None:
        step, top = self.layout.step, self.y(strip, actor) + 5
        left = self.x(strip, first) - step / 2 + 1
        self.svg.rect(left, top, (last - first + 1) * step - 2, self.layout.bar, colour_of(actor), rx=3)

    def draw_entry(self, strip: Strip, number: int, entry: Entry) -> None:
        x, top = self.x(strip, number), self.y(strip, entry.actor) + 5
        self.svg.begin(hint_of(self.course, number))
        middle = top + self.layout.bar / 2
        if self.layout.has_signs:
            draw_sign(self.svg, entry, self.course.command(entry), x, middle)
            self.draw_server_entry(strip, entry, x, top)
        else:
            # (a cell to rest a pointer on, and what matters most)
            self.svg.rect(x - self.layout.step / 2, top, self.layout.step, self.layout.bar, WHITE, fill_opacity=0)
            draw_mark(self.svg, entry, self.course.command(entry), x, middle)
        self.svg.end()

    def draw_server_entry(self, strip: Strip, entry: Entry, x: float, top: float) -> None:
        """A change has its words above it, and clips that are told have an arrow to who is told them."""
        if entry.kind == "change":
            said = " ".join(map(str, self.course.scene.changes[entry.numbers[0] - 1].line().split()[:2]))
            self.svg.text(x + 2, top - 8, said, 9, transform=f"rotate(-35 {x:g} {top - 8:g})")
        elif entry.kind == "info":
            to = self.y(strip, entry.numbers[0]) + 3
            self.svg.line(x, top + self.layout.bar + 1, x, to - 4, SERVER_COLOUR, stroke_width=1.2, stroke_dasharray="2 2")
            self.svg.path([(x - 3, to - 5), (x + 3, to - 5), (x, to)], True, fill=SERVER_COLOUR)

    def draw_stamps(self, strip: Strip) -> None:
        """Each new stamp of a client's window, from the entry that gave it down to the client's lane."""
        for number, given in self.course.stamps.items():
            if not strip.first <= number <= strip.last:
                continue
            x, actor = self.x(strip, number), self.course.entries[number - 1].actor
            others = [it for it in strip.actors if it not in (SERVER, actor) and self.course.window_of(it) in given]
            middles = [self.y(strip, it) + 5 + self.layout.bar / 2 for it in others]
            giver = self.y(strip, actor) + 5 + self.layout.bar / 2
            if others:
                ends = min(giver, *middles), max(giver, *middles)
                self.svg.line(x, ends[0] + self.layout.bar / 2, x, ends[1], BAD, stroke_width=1.1, stroke_dasharray="3 2")
            for client, middle in zip(others, middles):
                self.draw_stamp(x, middle, given[self.course.window_of(client)])

    def draw_stamp(self, x: float, y: float, stamp: int) -> None:
        """The client's lane is empty at the entry, so the stamp stands where a hold would."""
        self.svg.circle(x, y, 7.5 if self.layout.has_signs else 2.5, WHITE, stroke=BAD, stroke_width=1.2)
        if self.layout.has_signs:
            self.svg.text(x, y + 3.2, stamp, 8.5 if stamp < 100 else 6.5, BAD, "middle")

    def draw_frames(self, strip: Strip) -> None:
        for frame in self.course.frames:
            begin, end = frame.clear or frame.swap, frame.swap
            if begin <= strip.last and end >= strip.first and frame.client in strip.actors:
                self.draw_frame(strip, frame, max(begin, strip.first), min(end, strip.last))

    def draw_frame(self, strip: Strip, frame: Frame, first: int, last: int) -> None:
        svg, colour = self.svg, colour_of_frame(frame)
        level = self.y(strip, frame.client) + self.layout.bar + (12 if self.layout.has_signs else 8)
        left, right = self.x(strip, first), self.x(strip, last)
        svg.begin(self.course.fate(frame))
        svg.line(left, level, right, level, colour, stroke_width=3)
        if first == frame.clear:
            svg.line(left, level - 4, left, level + 1.5, colour, stroke_width=2)
        if last == frame.swap:
            svg.line(right, level - 4, right, level + 1.5, colour, stroke_width=2)
            if self.layout.has_signs:
                svg.text(right + 4, level + 3.5, f"{frame.number}", 9.5, colour, font_weight="bold")
        if frame.loss and first <= frame.loss.entry <= last:
            x, r = self.x(strip, frame.loss.entry), 4 if self.layout.has_signs else 3
            svg.path([(x - r, level - r), (x + r, level + r)], stroke=BAD, stroke_width=2.4)
            svg.path([(x - r, level + r), (x + r, level - r)], stroke=BAD, stroke_width=2.4)
        svg.end()


def hint_of(course: Course, number: int) -> str:
    """Returns what is shown where a pointer rests on an entry."""
    entry = course.entries[number - 1]
    said = f"entry {number}: {course.line(number)}"
    if entry.kind == "emit":
        said += f": {', '.join(groups_in(entry.numbers[1]))}"
    given = course.stamps.get(number, {})
    return said + "".join(f"; window {window} gets stamp {stamp}" for window, stamp in given.items())


def draw_letter(
    svg: Svg, letter: str, x: float, y: float, fill: str = WHITE, size: float = 10.5, style: str = "normal"
) -> None:
    svg.text(x, y + size * 0.36, letter, size, fill, "middle", font_weight="bold", font_style=style)


def draw_leave(svg: Svg, x: float, y: float) -> None:
    svg.path([(x - 2.5, y - 4), (x + 2.5, y), (x - 2.5, y + 4)], fill="none", stroke=WHITE, stroke_width=1.8)


def draw_cross(svg: Svg, x: float, y: float) -> None:
    svg.path([(x - 4.5, y - 4.5), (x + 4.5, y + 4.5)], stroke=WHITE, stroke_width=2.4)
    svg.path([(x - 4.5, y + 4.5), (x + 4.5, y - 4.5)], stroke=WHITE, stroke_width=2.4)


def draw_sign(svg: Svg, entry: Entry, command: Optional[Command], x: float, y: float) -> None:
    """Draws an entry's sign with its middle at x and y."""
    letters = {"light": "L", "kernel": "K", "stale": "!", "change": "c", "info": "i"}
    if entry.kind in letters:
        draw_letter(svg, letters[entry.kind], x, y, style="italic" if entry.kind == "info" else "normal")
    elif entry.kind == "leave":
        draw_leave(svg, x, y)
    elif entry.kind == "gone":
        draw_cross(svg, x, y)
    elif entry.kind == "emit":
        svg.rect(x - 5.5, y - 5.5, 11, 11, WHITE, opacity=0.3, rx=1.5)
        draw_letter(svg, str(len(groups_in(entry.numbers[1]))), x, y, size=9)
    elif entry.kind == "place":
        svg.rect(x - 6, y - 5.5, 12, 11, TEXTURE_COLOUR, rx=1.5)
        draw_letter(svg, str(entry.numbers[1]), x, y, INK, 8.5)
    elif command:
        draw_command(svg, command, x, y)


def draw_command(svg: Svg, command: Command, x: float, y: float) -> None:
    if command.kind == "clear":
        svg.rect(x - 5.5, y - 5.5, 11, 11, f"#{command.words[1]}", stroke=WHITE, stroke_width=1.2)
    elif command.kind == "triangle":
        fill = f"#{command.words[16][:6]}"
        svg.path([(x, y - 6), (x + 6, y + 5), (x - 6, y + 5)], True, fill=fill, stroke=WHITE, stroke_width=1.1)
    elif command.kind == "swap":
        svg.circle(x, y, 6, WHITE)
        draw_letter(svg, "S", x, y, INK, 9.5)
    elif command.kind == "set":
        svg.circle(x, y, 2, WHITE)
    elif command.kind == "yield":
        draw_letter(svg, "y", x, y, size=10)


def draw_mark(svg: Svg, entry: Entry, command: Optional[Command], x: float, y: float) -> None:
    """Draws what matters most where there is no room for signs: deaths, old stamps, textures and swaps."""
    colours = {"gone": "#000000", "stale": "#ffd0cc", "place": TEXTURE_COLOUR}
    colour = WHITE if command and command.kind == "swap" else colours.get(entry.kind)
    if colour:
        svg.rect(x - 2, y - 4, 4, 8, colour)


class Legend:
    """Draws what the signs mean, from left to right."""

    def __init__(self, svg: Svg, x: float, y: float):
        self.svg, self.x, self.y = svg, x, y

    def say(self, text: str) -> None:
        self.svg.text(self.x, self.y + 3.5, text, 10, SERVER_COLOUR)
        self.x += width_of(text, 10) + 9

    def chip(self, text: str, draw: Callable[[float], None], colour: str = COLOURS[0]) -> None:
        self.svg.rect(self.x, self.y - 8, 15, 16, colour, rx=3)
        draw(self.x + 7.5)
        self.x += 19
        self.say(text)

    def stroke(self, text: str, colour: str, is_crossed: bool = False) -> None:
        self.svg.line(self.x, self.y, self.x + 18, self.y, colour, stroke_width=3)
        if is_crossed:
            self.svg.path([(self.x + 5, self.y - 4), (self.x + 13, self.y + 4)], stroke=colour, stroke_width=2.4)
            self.svg.path([(self.x + 5, self.y + 4), (self.x + 13, self.y - 4)], stroke=colour, stroke_width=2.4)
        self.x += 22
        self.say(text)

    def draw(self, layout: Layout, has_waits: bool) -> None:
        if layout.has_signs:
            self.draw_signs()
            self.svg.circle(self.x + 8, self.y, 7.5, WHITE, stroke=BAD, stroke_width=1.2)
            self.svg.text(self.x + 8, self.y + 3.2, "5", 8.5, BAD, "middle")
        else:
            self.chip("swap", lambda x: self.svg.rect(x - 2, self.y - 4, 4, 8, WHITE))
            self.chip("old stamp", lambda x: self.svg.rect(x - 2, self.y - 4, 4, 8, "#ffd0cc"))
            self.chip("texture placed", lambda x: self.svg.rect(x - 2, self.y - 4, 4, 8, TEXTURE_COLOUR))
            self.chip("death", lambda x: self.svg.rect(x - 2, self.y - 4, 4, 8, "#000000"))
            self.svg.circle(self.x + 8, self.y, 2.5, BAD)
        self.x += 20
        self.say("its window's new stamp")
        self.stroke("frame that stood", GOOD)
        self.stroke("frame that didn't, with what took its stamp", BAD, True)
        self.stroke("frame without a clear", PALE)
        if has_waits:
            self.svg.rect(self.x, self.y - 2, 18, 4, COLOURS[0], opacity=0.45)
            self.svg.line(self.x + 9, self.y - 6, self.x + 9, self.y + 6, COLOURS[0], stroke_width=2)
            self.x += 22
            self.say("in the queue, with the mark")

    def draw_signs(self) -> None:
        signs = (
            ("taken through the kernel", Entry("kernel", (1, 1)), None),
            ("taken lightly", Entry("light", (1,)), None),
            ("left", Entry("leave", (1,)), None),
            ("old stamp", Entry("stale", (1,)), None),
            ("death", Entry("gone", (1,)), None),
            ("texture placed", Entry("place", (1, 1, 0, 1)), None),
            ("register groups loaded", Entry("emit", (1, 127)), None),
            ("set", Entry("run", (1, 1)), Command(("set",))),
            ("clear", Entry("run", (1, 1)), Command(("clear", "ffd060"))),
            ("triangle", Entry("run", (1, 1)), Command(("triangle", *["0"] * 15, "80e0a0ff"))),
            ("swap", Entry("run", (1, 1)), Command(("swap",))),
            ("yield", Entry("run", (1, 1)), Command(("yield",))),
        )
        for text, entry, command in signs:
            self.chip(text, lambda x: draw_sign(self.svg, entry, command, x, self.y))
        self.x, self.y = 16, self.y + 20
        for text, entry in (("change", Entry("change", (1,))), ("clips told", Entry("info", (1,)))):
            self.chip(text, lambda x: draw_sign(self.svg, entry, None, x, self.y), SERVER_COLOUR)


def draw_timeline(course: Course, waits: Iterable[Wait] = ()) -> str:
    """Returns the timeline of a course as SVG."""
    return Timeline(course, list(waits)).draw()
