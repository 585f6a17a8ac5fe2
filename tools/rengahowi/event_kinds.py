"""The events that there are, with what stands behind their first word: in a scenario, and in a report."""

from __future__ import annotations

TYPE_CHECKING = False
if TYPE_CHECKING:
    from typing import Union

    # A kind of name, a range of numbers, octets, a switch or a file.
    Shape = tuple[Union[str, tuple[int, int]], ...]

LARGEST = 2**64 - 1
# So many octets one `deliver` has at most, and so many deliveries one `settle`.
ALL, MOST = 65535, 10_000
# Each event's words behind its first one in a scenario, where those of `tick` may be left out.
SHAPES: dict[str, Shape] = {
    "connect": ("edge", "edge"),
    "deliver": ("edge", "edge", (1, ALL)),
    "lose": ("edge", "edge"),
    "restart": ("edge",),
    "tick": ((1, 10000),),
    "frame": ("circuit", "octets"),
    "arrive": ((1, LARGEST),),
    "drop": ((1, LARGEST),),
    "again": ((1, LARGEST),),
    "wire": ("edge", "wire", "switch"),
    "circuit": ("circuit", "switch"),
    "status": ("edge", "wire", (0, 31)),
    "priority": ("edge", "wire", (0, 255)),
    "ping": ("edge", "wire"),
    "settle": ((1, MOST),),
    "flow": ((1, 10000),),
    "play": ("circuit", "file"),
}
# Those of which a report tells each that they stand for by itself; `tick N` too.
SEVERAL = ("settle", "flow", "play")


def told(kind: str | tuple[int, int]) -> str:
    """What a reader of reports looks at in the place of such a word."""
    return "number" if isinstance(kind, tuple) else "word" if kind == "switch" else kind


def told_events() -> dict[str, tuple[str, ...]]:
    """Each event's words behind its first one in a report."""
    return {event: () if event == "tick" else tuple(map(told, shape)) for event, shape in SHAPES.items() if event not in SEVERAL}
