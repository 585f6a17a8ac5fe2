"""A picture as SVG: boxes, lines and names, each with what the pointer tells."""

from __future__ import annotations

import math

from .embedding import as_text

TYPE_CHECKING = False
if TYPE_CHECKING:
    from collections.abc import Iterable

    from .layout import Box, Point

HEAD = (
    '<svg xmlns="http://www.w3.org/2000/svg" width="{0}" height="{1}" viewBox="0 0 {0} {1}" role="img" font-family="DejaVu Sans, Helvetica, Arial, '
    'sans-serif" font-size="12">\n<title>{2}</title>\n<rect width="{0}" height="{1}" fill="#ffffff"/>\n'
)
# How long an arrow is, and half as wide as it is.
LONG, HALF = 9, 3.5


def svg(title: str, width: float, height: float, parts: Iterable[str]) -> str:
    """The whole picture."""
    return HEAD.format(math.ceil(width), math.ceil(height), as_text(title)) + "\n".join(parts) + "\n</svg>\n"


def group(kind: str, title: str, parts: Iterable[str]) -> str:
    """Parts that are one thing, of a kind, with what the pointer tells of it."""
    return f'<g class="{kind}"><title>{as_text(title)}</title>{"".join(parts)}</g>'


def box(at: Box, look: str, rounded: float) -> str:
    """A box."""
    return f'<rect x="{at.x - at.width / 2:.1f}" y="{at.y - at.height / 2:.1f}" width="{at.width:.1f}" height="{at.height:.1f}" rx="{rounded}" {look}/>'


def name(at: Point, text: str, look: str, anchor: str = "middle") -> str:
    """A name with its middle, or its begin, at a place; its ground keeps lines off it."""
    halo = 'paint-order="stroke" stroke="#ffffff" stroke-width="4" stroke-linejoin="round"'
    return f'<text x="{at[0]:.1f}" y="{at[1] + 4:.1f}" text-anchor="{anchor}" {halo} {look}>{as_text(text)}</text>'


def line(points: Iterable[Point], look: str) -> str:
    """A line over some points."""
    return f'<polyline points="{" ".join(f"{x:.1f},{y:.1f}" for x, y in points)}" fill="none" {look}/>'


def arrow(begin: Point, end: Point, colour: str) -> str:
    """The head of an arrow at the end of a line."""
    long = math.hypot(end[0] - begin[0], end[1] - begin[1]) or 1
    right, down = (end[0] - begin[0]) / long, (end[1] - begin[1]) / long
    back = end[0] - LONG * right, end[1] - LONG * down
    corners = (end, (back[0] - HALF * down, back[1] + HALF * right), (back[0] + HALF * down, back[1] - HALF * right))
    return f'<polygon points="{" ".join(f"{x:.1f},{y:.1f}" for x, y in corners)}" fill="{colour}"/>'
