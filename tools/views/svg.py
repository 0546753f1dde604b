"""Drawings in SVG."""

from __future__ import annotations

import base64
import html
from typing import Union

from .pictures import Picture, png

FONT = "DejaVu Sans, Verdana, sans-serif"
INK, PALE, GROUND, SHADE = "#26303b", "#7d8793", "#ffffff", "#f3f5f7"
GOOD, BAD = "#2c8a57", "#d0342c"
# How wide a letter is for its size, on average.
LETTER = 0.6

Value = Union[str, int, float]


def short(value: Value) -> str:
    """Returns a number with one decimal at most."""
    return f"{round(value, 1):g}" if isinstance(value, float) else str(value)


def spelled(attributes: dict[str, Value]) -> str:
    """Returns attributes as a tag has them."""
    return "".join(f' {key.replace("_", "-")}="{html.escape(short(value))}"' for key, value in attributes.items())


class Svg:
    """A drawing, made part by part. Attributes are given with `_` for `-`."""

    def __init__(self, width: float, height: float, title: str):
        self.parts = [
            f'<svg xmlns="http://www.w3.org/2000/svg" width="{short(width)}" height="{short(height)}" '
            f'viewBox="0 0 {short(width)} {short(height)}" font-family="{FONT}">',
            f"<title>{html.escape(title)}</title>",
        ]
        self.rect(0, 0, width, height, GROUND)

    def tag(self, name: str, /, **attributes: Value) -> None:
        self.parts.append(f"<{name}{spelled(attributes)}/>")

    def begin(self, hint: str) -> None:
        """Begins a group whose hint is shown where a pointer rests on it."""
        self.parts.append(f"<g><title>{html.escape(hint)}</title>")

    def end(self) -> None:
        self.parts.append("</g>")

    def rect(self, x: float, y: float, width: float, height: float, fill: str, **more: Value) -> None:
        self.tag("rect", x=x, y=y, width=width, height=height, fill=fill, **more)

    def line(self, x1: float, y1: float, x2: float, y2: float, stroke: str, **more: Value) -> None:
        self.tag("line", x1=x1, y1=y1, x2=x2, y2=y2, stroke=stroke, **more)

    def circle(self, x: float, y: float, r: float, fill: str, **more: Value) -> None:
        self.tag("circle", cx=x, cy=y, r=r, fill=fill, **more)

    def path(self, points: list[tuple[float, float]], is_closed: bool = False, **more: Value) -> None:
        way = " ".join(f"{'L' if at else 'M'}{short(float(x))} {short(float(y))}" for at, (x, y) in enumerate(points))
        self.tag("path", d=way + (" Z" if is_closed else ""), **more)

    def text(
        self, x: float, y: float, text: Value, size: float = 10, fill: str = INK, anchor: str = "start", **more: Value
    ) -> None:
        attributes: dict[str, Value] = {"x": x, "y": y, "font_size": size, "fill": fill, "text_anchor": anchor, **more}
        self.parts.append(f"<text{spelled(attributes)}>{html.escape(str(text))}</text>")

    def picture(self, x: float, y: float, picture: Picture, edge: str) -> None:
        """Puts a picture with an edge of a colour round it."""
        data = base64.b64encode(png(picture)).decode()
        self.tag("image", x=x, y=y, width=picture.width, height=picture.height, href=f"data:image/png;base64,{data}")
        self.rect(x - 1, y - 1, picture.width + 2, picture.height + 2, "none", stroke=edge, stroke_width=2)

    def done(self) -> str:
        return "\n".join([*self.parts, "</svg>", ""])


def width_of(text: str, size: float) -> float:
    """Returns about how wide a text is."""
    return LETTER * size * len(text)
