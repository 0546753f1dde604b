"""What a card that keeps colours in sixteen bits and draws lines shows of a journal, reckoned pixel by pixel from the pages."""

from dataclasses import dataclass, replace

from views.course import Standing

BLACK = 0
DEEPEST = 65_535
PASSES = {
    "never": lambda z, depth: False,
    "less": lambda z, depth: z < depth,
    "equal": lambda z, depth: z == depth,
    "lequal": lambda z, depth: z <= depth,
    "greater": lambda z, depth: z > depth,
    "notequal": lambda z, depth: z != depth,
    "gequal": lambda z, depth: z >= depth,
    "always": lambda z, depth: True,
}


def rgb(spelled):
    return tuple(bytes.fromhex(spelled))


def packed(colour):
    red, green, blue = colour
    return red >> 3 << 11 | green >> 2 << 5 | blue >> 3


def widened(word):
    red, green, blue = word >> 11, word >> 5 & 63, word & 31
    return red << 3 | red >> 2, green << 2 | green >> 4, blue << 3 | blue >> 2


def in_255ths(number):
    return (number + 127) // 255


@dataclass(frozen=True)
class Vertex:
    """A corner in sixteenths of a pixel, with its other quantities: depth, red, green, blue, alpha, s and t."""

    x: int
    y: int
    values: tuple

    def turned(self):
        return replace(self, x=self.y, y=self.x)


def corners_of(command):
    words = command.words[1:]
    corners = []
    for at in range(0, len(words), 6):
        x, y, z, colour, s, t = words[at : at + 6]
        corners.append(Vertex(int(x), int(y), (int(z), *rgb(colour), int(s), int(t))))
    return corners


def line_places(a, b):
    """The pixels of a line, each with the quantities there."""
    is_steep = abs(b.x - a.x) < abs(b.y - a.y)
    if is_steep:
        a, b = a.turned(), b.turned()
    if a.x > b.x:
        a, b = b, a
    for column in range((a.x - 8) // 16, b.x // 16 + 1):
        m = 16 * column + 8
        if a.x <= m < b.x:
            row = (a.y + (b.y - a.y) * (m - a.x) // (b.x - a.x)) // 16
            values = [((b.x - m) * u + (m - a.x) * v) // (b.x - a.x) for u, v in zip(a.values, b.values)]
            yield (row, column, values) if is_steep else (column, row, values)


def edge(a, b, x, y):
    return (b.x - a.x) * (y - a.y) - (b.y - a.y) * (x - a.x)


def is_within(a, b, x, y):
    """The point lies on the inner side of an edge, or on it where it is a top or a left one."""
    side = edge(a, b, x, y)
    return side > 0 or side == 0 and (b.y < a.y or b.y == a.y and b.x > a.x)


def triangle_places(a, b, c):
    """The pixels that a triangle covers, each with the quantities there."""
    area = edge(a, b, c.x, c.y)
    if area < 0:
        b, c, area = c, b, -area
    columns, rows = (range(min(it) // 16, max(it) // 16 + 1) for it in zip((a.x, a.y), (b.x, b.y), (c.x, c.y)))
    for row in rows if area else ():
        for column in columns:
            x, y = 16 * column + 8, 16 * row + 8
            if is_within(a, b, x, y) and is_within(b, c, x, y) and is_within(c, a, x, y):
                weights = edge(b, c, x, y), edge(c, a, x, y), edge(a, b, x, y)
                values = [sum(map(lambda w, v: w * v, weights, it)) // area for it in zip(a.values, b.values, c.values)]
                yield column, row, values


def places_of(a, b, c):
    """A triangle whose second and third corners stand at one place, and whose first at another, is a line."""
    is_line = (b.x, b.y) == (c.x, c.y) != (a.x, a.y)
    return line_places(a, b) if is_line else triangle_places(a, b, c)


class Texels:
    """The texels of a texture's line."""

    def __init__(self, line):
        _, _, self.format, width, height, texels = line.split(" ")
        self.width, self.height, self.bytes = int(width), int(height), bytes.fromhex(texels)

    def at(self, wrap, s, t):
        column, row = s // 16, t // 16
        if wrap == "repeat":
            column, row = column % self.width, row % self.height
        place = min(row, self.height - 1) * self.width + min(column, self.width - 1)
        if self.format == "l8":
            return (self.bytes[place],) * 3
        return widened(self.bytes[2 * place] | self.bytes[2 * place + 1] << 8)


class State:
    """A client's state at a place of its script."""

    def __init__(self, client, place):
        said = {"shade": "flat", "depth": "always", "write": "off", "blend": "off", "texmode": "off", "wrap": "repeat", "bind": "none"}
        said["scissor"] = "none"
        for command in client.commands[: place - 1]:
            if command.kind == "set":
                said[command.words[1]] = " ".join(command.words[2:])
        self.said = said
        bound = [it for it in client.textures if said["bind"] == str(it.number)]
        self.texels = Texels(bound[0].line) if bound and said["texmode"] != "off" else None

    def has(self, x, y):
        if self.said["scissor"] == "none":
            return True
        x1, y1, x2, y2 = map(int, self.said["scissor"].split(" "))
        return x1 <= x < x2 and y1 <= y < y2

    def colour(self, third, values, under):
        """The colour that is drawn over the one under it."""
        *own, alpha = third.values[1:5] if self.said["shade"] == "flat" else values[1:5]
        if self.texels:
            texel = self.texels.at(self.said["wrap"], *values[5:])
            own = [in_255ths(u * v) for u, v in zip(texel, own)] if self.said["texmode"] == "modulate" else texel
        if self.said["blend"] == "alpha":
            return [in_255ths(u * alpha + v * (255 - alpha)) for u, v in zip(own, under)]
        return [min(255, u + v) for u, v in zip(own, under)] if self.said["blend"] == "add" else own


class Card:
    """The planes of words and of depths of a screen, row by row, while a journal is taken entry by entry."""

    def __init__(self, scene):
        self.scene, self.standing = scene, Standing(scene)
        self.width, self.height = scene.screen.width, scene.screen.height
        self.front = [[self.ground(it) for it in row] for row in self.tops()]
        self.back = [[BLACK] * self.width for _ in range(self.height)]
        self.depth = [[DEEPEST] * self.width for _ in range(self.height)]

    def tops(self):
        """The topmost window's number at each place, 0 for none."""
        tops = self.standing.stack.tops()
        return [tops.row(y, 0, self.width) for y in range(self.height)]

    def ground(self, window):
        return packed(rgb(self.standing.stack.window(window).background if window else self.scene.screen.root))

    def take(self, entry):
        if entry.kind == "run":
            self.run(self.scene.clients[entry.numbers[0]], entry.numbers[1])
        before = self.tops() if entry.kind in ("change", "gone") else None
        corners = {it.number: (it.x, it.y) for it in self.standing.stack.windows}
        self.standing.take(entry)
        if before:
            change = self.scene.changes[entry.numbers[0] - 1] if entry.kind == "change" else None
            self.restack(before, corners, change.window if change and change.kind == "move" else None)

    def run(self, client, place):
        command, window = client.commands[place - 1], self.standing.stack.window(client.window)
        if command.kind == "triangle":
            self.draw(window, self.standing.stack.tops(), State(client, place), corners_of(command))
        elif command.kind == "clear":
            self.put(self.back, [[packed(rgb(command.words[1]))] * self.width] * self.height, window.number)
            self.put(self.depth, [[int(command.words[2])] * self.width] * self.height, window.number)
        elif command.kind == "swap":
            self.put(self.front, self.back, window.number)

    def put(self, plane, other, window):
        """Where the window is topmost, the plane has what the other one has."""
        for y, tops in enumerate(self.tops()):
            plane[y] = [new if top == window else old for top, old, new in zip(tops, plane[y], other[y])]

    def draw(self, window, tops, state, corners):
        for column, row, values in places_of(*corners):
            x, y = window.x + column, window.y + row
            if tops.at(x, y) != window.number or not state.has(column, row):
                continue
            if PASSES[state.said["depth"]](values[0], self.depth[y][x]):
                self.back[y][x] = packed(state.colour(corners[2], values, widened(self.back[y][x])))
                if state.said["write"] == "on":
                    self.depth[y][x] = values[0]

    def restack(self, before, corners, moved):
        planes = self.front, self.back, self.depth
        was = [[row[:] for row in plane] for plane in planes]
        dx = dy = 0
        if moved:
            window = self.standing.stack.window(moved)
            dx, dy = window.x - corners[moved][0], window.y - corners[moved][1]
        for y, tops in enumerate(self.tops()):
            for x, top in enumerate(tops):
                from_x, from_y = x - dx, y - dy
                is_on_screen = 0 <= from_x < self.width and 0 <= from_y < self.height
                if moved and top == moved and is_on_screen and before[from_y][from_x] == moved:
                    for plane, old in zip(planes, was):
                        plane[y][x] = old[from_y][from_x]
                elif before[y][x] != top or moved and top == moved and (dx or dy):
                    self.front[y][x] = self.ground(top)

    def picture(self):
        """What front's words show, in the P6 form."""
        shown = {word: bytes(widened(word)) for row in self.front for word in row}
        pixels = b"".join(shown[word] for row in self.front for word in row)
        return b"P6\n%d %d\n255\n" % (self.width, self.height) + pixels


def shown(scene, entries):
    """The picture of a journal's entries, which have to be a run of the scene."""
    card = Card(scene)
    for entry in entries:
        card.take(entry)
    return card.picture()
