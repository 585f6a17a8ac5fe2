"""Where names stand in a picture, so that none lies on a box, on another name, or on the line of something else."""

from __future__ import annotations

import math

from .layout import Box

TYPE_CHECKING = False
if TYPE_CHECKING:
    from collections.abc import Iterable, Iterator

    from .layout import Point

    Line = tuple[Point, Point]

# How high a name is, how wide a sign of it, and how far it keeps from its line.
NAME_HIGH, SIGN, CLEAR = 13, 6.6, 2
# The parts of a line at which its name may stand, the best one first.
SHARES = (0.4, 0.5, 0.3, 0.6, 0.22, 0.7, 0.8)


class Room:
    """The boxes and the lines that are there."""

    def __init__(self, boxes: Iterable[Box], lines: Iterable[tuple[str, Line]]) -> None:
        self.boxes, self.lines = list(boxes), list(lines)

    def name(self, text: str, owner: str, line: Line) -> Point | None:
        """The middle of a name of a line, where there is room for it beside the line or on it; from then on it is there. None where there is no room."""
        wide = SIGN * len(text) + 4
        for x, y in places(line, wide):
            box = Box(x, y, wide, NAME_HIGH)
            if not any(meet(box, other) for other in self.boxes) and not any(cuts(part, box) for name, part in self.lines if name != owner):
                self.boxes.append(box)
                return x, y
        return None


def places(line: Line, wide: float) -> Iterator[Point]:
    """Where the middle of a line's name may stand: on either side of it, so that they do not touch, and last on the line itself."""
    (x1, y1), (x2, y2) = line
    long = math.hypot(x2 - x1, y2 - y1) or 1
    right, down = abs(y2 - y1) / long, -(x2 - x1) / long * (1 if y2 >= y1 else -1)
    far = wide / 2 * abs(right) + NAME_HIGH / 2 * abs(down) + CLEAR
    for side in (far, -far, 0.0):
        for share in SHARES:
            yield x1 + (x2 - x1) * share + right * side, y1 + (y2 - y1) * share + down * side


def meet(one: Box, other: Box) -> bool:
    """Whether two boxes meet."""
    return abs(one.x - other.x) * 2 < one.width + other.width and abs(one.y - other.y) * 2 < one.height + other.height


def cuts(line: Line, box: Box) -> bool:
    """Whether a line passes through a box."""
    (x1, y1), (x2, y2) = line
    begin, end = 0.0, 1.0
    for start, far, middle, size in ((x1, x2, box.x, box.width), (y1, y2, box.y, box.height)):
        low, high, step = middle - size / 2 - start, middle + size / 2 - start, far - start
        if step == 0:
            if not low <= 0 <= high:
                return False
            continue
        one, other = sorted((low / step, high / step))
        begin, end = max(begin, one), min(end, other)
    return begin < end
