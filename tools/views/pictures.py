"""Pictures: read from a binary PPM as the program writes it, enlarged, put beside each other, and written as PNG."""

from __future__ import annotations

import struct
import zlib
from dataclasses import dataclass

RGB = 3
MOST_SIDE = 1024
SIGNATURE = b"\x89PNG\r\n\x1a\n"
Pixel = tuple[int, int, int]


class NoPicture(Exception):
    """Bytes that are no picture of the program's."""


@dataclass(frozen=True)
class Picture:
    """A picture: its sides, and its rows of three bytes a pixel, red, green and blue."""

    width: int
    height: int
    rows: list[bytes]

    def pixel(self, x: int, y: int) -> Pixel:
        red, green, blue = self.rows[y][RGB * x : RGB * x + RGB]
        return red, green, blue

    def enlarged(self, times: int) -> Picture:
        """Returns the picture with each pixel as a square of so many."""
        rows = [enlarged_row(row, times) for row in self.rows for _ in range(times)]
        return Picture(self.width * times, self.height * times, rows)


def enlarged_row(row: bytes, times: int) -> bytes:
    return b"".join(row[at : at + RGB] * times for at in range(0, len(row), RGB))


def picture_of(rows: list[list[Pixel]]) -> Picture:
    return Picture(len(rows[0]), len(rows), [bytes(value for pixel in row for value in pixel) for row in rows])


def read_ppm(data: bytes, name: str = "the input") -> Picture:
    """Reads the bytes of a binary PPM in the one form that the program writes."""
    try:
        magic, sides, most, pixels = data.split(b"\n", 3)
        width, height = map(int, sides.split(b" "))
    except ValueError:
        raise NoPicture(f"{name} isn't a binary PPM as dri writes it: it has no head of three lines") from None
    if (magic, most) != (b"P6", b"255") or not (1 <= width <= MOST_SIDE and 1 <= height <= MOST_SIDE):
        raise NoPicture(f"{name} isn't a binary PPM as dri writes it: its head is {data[:40]!r}")
    if len(pixels) != RGB * width * height:
        raise NoPicture(
            f"{name} is cut off or too long: {width} by {height} pixels take {RGB * width * height} bytes, not {len(pixels)}"
        )
    size = RGB * width
    return Picture(width, height, [pixels[at : at + size] for at in range(0, len(pixels), size)])


def chunk(name: bytes, data: bytes) -> bytes:
    return struct.pack(">I", len(data)) + name + data + struct.pack(">I", zlib.crc32(name + data))


def png(picture: Picture) -> bytes:
    """Returns the picture as a PNG of eight bits a channel, without filters."""
    header = struct.pack(">IIBBBBB", picture.width, picture.height, 8, 2, 0, 0, 0)
    image = zlib.compress(b"".join(b"\0" + row for row in picture.rows), 9)
    return SIGNATURE + chunk(b"IHDR", header) + chunk(b"IDAT", image) + chunk(b"IEND", b"")


def read_png(data: bytes) -> bytes:
    """Returns what a PNG as it is written here holds, whatever its compression: sides and rows."""
    at, found = len(SIGNATURE), {b"IHDR": b"", b"IDAT": b""}
    while at < len(data):
        size, name = struct.unpack_from(">I4s", data, at)
        part = data[at + 8 : at + 8 + size]
        if data[at : at + size + 12] != chunk(name, part):
            raise NoPicture(f"a part {name!r} of a PNG is damaged")
        found[name] = found.get(name, b"") + part
        at += size + 12
    return found[b"IHDR"] + zlib.decompress(found[b"IDAT"])


def sheet(pictures: list[Picture], columns: int, gap: int, ground: Pixel) -> Picture:
    """Returns a contact sheet: the pictures row by row, each in the upper left corner of a cell that takes the largest."""
    width, height = max(it.width for it in pictures), max(it.height for it in pictures)
    columns = min(columns, len(pictures))
    whole = columns * (width + gap) + gap
    blank, rows = bytes(ground), []
    for first in range(0, len(pictures), columns):
        rows += [blank * whole] * gap
        for y in range(height):
            cells = [it.rows[y] if y < it.height else b"" for it in pictures[first : first + columns]]
            row = b"".join(blank * gap + cell + blank * (width - len(cell) // RGB) for cell in cells)
            rows.append(row + blank * (whole - len(row) // RGB))
    rows += [blank * whole] * gap
    return Picture(whole, len(rows), rows)
