"""Scenes and their text."""

from __future__ import annotations

from dataclasses import dataclass, field

from .texts import Forms, Lines, Number, Refused

FORMS = Forms(
    """
    dri 1
    screen 1..1024 1..1024 RRGGBB
    heap 1..64 256..65536
    window 1..64 -1024..1024 -1024..1024 1..1024 1..1024 RRGGBB 0..32 up|down
    client 1..32 1..64
    texture 1..64 l8|rgb565 1..256 1..256 HEX
    set shade flat|smooth
    set depth never|less|equal|lequal|greater|notequal|gequal|always
    set write on|off
    set blend off|alpha|add
    set texmode off|replace|modulate
    set wrap repeat|clamp
    set bind none
    set bind 1..64
    set scissor none
    set scissor 0..2048 0..2048 0..2048 0..2048
    clear RRGGBB 0..65535
    triangle {corner} {corner} {corner}
    swap
    yield
    die
    server
    map 1..64
    unmap 1..64
    raise 1..64
    lower 1..64
    move 1..64 -1024..1024 -1024..1024
    resize 1..64 1..1024 1..1024
    turns
    end
    done
""".replace(
        "{corner}", "-32768..32767 -32768..32767 0..65535 RRGGBBAA 0..65535 0..65535"
    )
)
ITEM = "item"
CLIENT_NUMBER = Number(1, 32)
BYTES_OF_TEXEL = {"l8": 1, "rgb565": 2}
MOST_COMMANDS, MOST_CHANGES, MOST_ITEMS = 100_000, 4_096, 1_000_000

# Which kinds of lines may stand at each place of a text, and the place behind each.
COMMANDS = {**dict.fromkeys(("set", "clear", "triangle", "swap", "yield"), "commands"), "die": "dead", "end": "clients"}
BEHIND_CLIENTS = {"server": "changes", "turns": "turns", "done": "whole"}
PLACES = {
    "title": {"dri": "screen"},
    "screen": {"screen": "heap"},
    "heap": {"heap": "windows"},
    "windows": {"window": "windows", "client": "textures", **BEHIND_CLIENTS},
    "textures": {"texture": "textures", **COMMANDS},
    "commands": COMMANDS,
    "dead": {"end": "clients"},
    "clients": {"client": "textures", **BEHIND_CLIENTS},
    "changes": {**dict.fromkeys(("map", "unmap", "raise", "lower", "move", "resize"), "changes"), "end": "schedule"},
    "schedule": {"turns": "turns", "done": "whole"},
    "turns": {ITEM: "turns", "end": "done"},
    "done": {"done": "whole"},
}


@dataclass(frozen=True)
class Window:
    """A window: its corner on the screen and its sides in pixels."""

    number: int
    x: int
    y: int
    width: int
    height: int
    background: str
    owner: int
    is_mapped: bool

    def line(self) -> str:
        place = f"{self.x} {self.y} {self.width} {self.height}"
        return f"window {self.number} {place} {self.background} {self.owner} {'up' if self.is_mapped else 'down'}"


@dataclass(frozen=True)
class Texture:
    """A texture of a client: its number, its size in bytes, and its line."""

    number: int
    size: int
    line: str


@dataclass(frozen=True)
class Command:
    """A command of a script, by its words."""

    words: tuple[str, ...]

    @property
    def kind(self) -> str:
        return self.words[0]

    def line(self) -> str:
        return " ".join(self.words)


@dataclass(frozen=True)
class Client:
    """A client's block. Command I is `commands[I - 1]`."""

    number: int
    window: int
    textures: list[Texture] = field(default_factory=list)
    commands: list[Command] = field(default_factory=list)

    def lines(self) -> list[str]:
        head = [f"client {self.number} {self.window}", *(it.line for it in self.textures)]
        return [*head, *(it.line() for it in self.commands), "end"]


@dataclass(frozen=True)
class Change:
    """A change of the server's: its kind, its window, and the numbers behind that."""

    kind: str
    window: int
    numbers: tuple[int, ...] = ()

    def line(self) -> str:
        return " ".join(map(str, (self.kind, self.window, *self.numbers)))


@dataclass(frozen=True)
class Item:
    """An item of the schedule: an actor's turn, the server being actor 0, or the kill of a client."""

    actor: int
    is_kill: bool = False

    def line(self) -> str:
        return f"x{self.actor}" if self.is_kill else str(self.actor or "s")


@dataclass(frozen=True)
class Screen:
    width: int
    height: int
    root: str


@dataclass(frozen=True)
class Heap:
    """The regions of texture memory, and the bytes of each."""

    regions: int
    size: int


@dataclass(frozen=True)
class Scene:
    """A scene. Windows stand from top to bottom, clients by rising number. Change I is `changes[I - 1]`."""

    screen: Screen
    heap: Heap
    windows: list[Window] = field(default_factory=list)
    clients: dict[int, Client] = field(default_factory=dict)
    changes: list[Change] = field(default_factory=list)
    schedule: list[Item] = field(default_factory=list)

    def killed(self) -> set[int]:
        return {it.actor for it in self.schedule if it.is_kill}

    def text(self) -> str:
        lines = ["dri 1", f"screen {self.screen.width} {self.screen.height} {self.screen.root}"]
        lines += [f"heap {self.heap.regions} {self.heap.size}", *(it.line() for it in self.windows)]
        for client in self.clients.values():
            lines += client.lines()
        lines += ["server", *(it.line() for it in self.changes), "end"] if self.changes else []
        lines += ["turns", *(it.line() for it in self.schedule), "end"] if self.schedule else []
        return "".join(f"{line}\n" for line in [*lines, "done"])


class Bad(Exception):
    """The program's word for why a line is refused."""


class Reading:
    """What the lines so far make of a scene, and the place behind them."""

    def __init__(self) -> None:
        self.place, self.commands = "title", 0
        self.screen, self.heap = Screen(0, 0, ""), Heap(0, 0)
        self.windows: dict[int, Window] = {}
        self.clients: dict[int, Client] = {}
        self.changes: list[Change] = []
        self.schedule: list[Item] = []
        self.kills: set[int] = set()

    @property
    def client(self) -> Client:
        """Whose block was begun last."""
        return self.clients[max(self.clients)]

    def take(self, line: str) -> None:
        words = line.split(" ")
        if self.place == "turns" and words != ["end"]:
            self.take_item(words)
            return
        form = FORMS.form(words)
        if form is None or form.kind not in PLACES[self.place]:
            raise Bad("shape")
        if not form.allows(words[1:]):
            raise Bad("range")
        take = getattr(self, f"take_{form.kind}", None)
        if self.place == "changes" and form.kind != "end":
            self.take_change(words)
        elif form.kind in COMMANDS and form.kind != "end":
            self.take_command(words)
        elif take:
            take(words[1:])
        self.place = PLACES[self.place][form.kind]

    def take_screen(self, words: list[str]) -> None:
        self.screen = Screen(int(words[0]), int(words[1]), words[2])

    def take_heap(self, words: list[str]) -> None:
        regions, size = map(int, words)
        if size & (size - 1):
            raise Bad("range")
        self.heap = Heap(regions, size)

    def take_window(self, words: list[str]) -> None:
        number, x, y, width, height = map(int, words[:5])
        if number in self.windows:
            raise Bad("twice")
        self.windows[number] = Window(number, x, y, width, height, words[5], int(words[6]), words[7] == "up")

    def take_client(self, words: list[str]) -> None:
        number, window = map(int, words)
        if window not in self.windows or self.windows[window].owner != number:
            raise Bad("unknown")
        if self.clients and number <= max(self.clients):
            raise Bad("order")
        self.clients[number] = Client(number, window)

    def take_texture(self, words: list[str]) -> None:
        number, width, height = int(words[0]), int(words[2]), int(words[3])
        size = BYTES_OF_TEXEL[words[1]] * width * height
        if len(words[4]) != 2 * size:
            raise Bad("range")
        if self.client.textures and number <= self.client.textures[-1].number:
            raise Bad("order")
        if size > self.heap.regions * self.heap.size:
            raise Bad("heap")
        self.client.textures.append(Texture(number, size, " ".join(["texture", *words])))

    def take_command(self, words: list[str]) -> None:
        binds = words[:2] == ["set", "bind"] and words[2] != "none"
        if binds and int(words[2]) not in {it.number for it in self.client.textures}:
            raise Bad("unknown")
        if self.commands == MOST_COMMANDS:
            raise Bad("limit")
        self.commands += 1
        self.client.commands.append(Command(tuple(words)))

    def take_change(self, words: list[str]) -> None:
        window, *numbers = map(int, words[1:])
        if window not in self.windows:
            raise Bad("unknown")
        if len(self.changes) == MOST_CHANGES:
            raise Bad("limit")
        self.changes.append(Change(words[0], window, tuple(numbers)))

    def take_item(self, words: list[str]) -> None:
        is_kill = words[0][:1] == "x"
        number = words[0][is_kill:]
        if len(words) != 1 or not (words[0] == "s" or CLIENT_NUMBER.spells(number)):
            raise Bad("shape")
        if words[0] != "s" and not CLIENT_NUMBER.allows(number):
            raise Bad("range")
        item = Item(0 if words[0] == "s" else int(number), is_kill)
        if item.actor and item.actor not in self.clients:
            raise Bad("unknown")
        if is_kill and item.actor in self.kills:
            raise Bad("twice")
        if len(self.schedule) == MOST_ITEMS:
            raise Bad("limit")
        self.kills |= {item.actor} if is_kill else set()
        self.schedule.append(item)

    def scene(self) -> Scene:
        return Scene(self.screen, self.heap, list(self.windows.values()), self.clients, self.changes, self.schedule)


def read_scene(text: str) -> Scene:
    """Reads a scene's text, or raises the refusal of its first line that isn't allowed."""
    lines, reading = Lines(text), Reading()
    while reading.place != "whole":
        line = lines.next()
        try:
            reading.take(line)
        except Bad as why:
            raise Refused(lines.number, str(why)) from None
    lines.end()
    return reading.scene()
