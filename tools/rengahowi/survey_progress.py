"""How far a survey is, by the last case of the text that it has written to a file: cases come in the order of their faults."""

from __future__ import annotations

import math
import os
import time

from .command import Fault
from .failures import rivals
from .plan import read_plan

TYPE_CHECKING = False
if TYPE_CHECKING:
    from collections.abc import Iterator, Sequence

    from .plan import Plan

# So much of the end of the text is looked at.
TAIL = 65536


def candidates(plan: Plan) -> Iterator[str]:
    """The faults that a plan may have, in the order of a survey; of a priority without its number."""
    places = {name: place for place, name in enumerate(plan.edges)}
    for a, b in sorted(plan.pairs(), key=lambda pair: (places[pair[0]], places[pair[1]])):
        yield f"lose {a} {b}"
    for wire in plan.wires.values():
        yield f"wire {wire.path[0]} {wire.name} off"
    for edge in plan.edges:
        yield f"restart {edge}"
    for wire, _ in rivals(plan):
        yield f"priority {wire.path[0]} {wire.name}"


def places_of(words: Sequence[str]) -> dict[str, int]:
    """The place of each fault that the plan of a call may have; nothing where its file is none that can be read here."""
    if not words or not os.path.isfile(words[0]):
        return {}
    try:
        return {text: place for place, text in enumerate(candidates(read_plan(words[0])))}
    except (Fault, OSError):
        return {}


def rank(places: Sequence[int], count: int) -> int:
    """How many sets of as many faults, of `count`, come before this one."""
    size = len(places)
    behind = sum(math.comb(count - 1 - place, size - number) for number, place in enumerate(places))
    return math.comb(count, size) - 1 - behind


class Course:
    """A survey whose text goes to standard output, a file."""

    def __init__(self, words: Sequence[str]) -> None:
        self.most = int(words[1]) if len(words) == 2 and words[1] in ("1", "2", "3") else 1
        self.places = places_of(words)
        self.begun = time.monotonic()
        self.first = os.lseek(1, 0, os.SEEK_CUR)
        # Where a case was seen first, and when.
        self.start: tuple[float, float] | None = None

    def written(self) -> bytes:
        """The end of the text that is written so far; nothing where it cannot be read."""
        last = os.lseek(1, 0, os.SEEK_CUR)
        first = max(self.first, last - TAIL)
        try:
            file = os.open("/proc/self/fd/1", os.O_RDONLY)
        except OSError:
            return b""
        try:
            return os.pread(file, max(0, last - first), first)
        finally:
            os.close(file)

    def part(self) -> float | None:
        """Which part of the cases stands before the last one that is told; None where that is not known."""
        rows = [line for line in self.written().split(b"\n")[:-1] if line.startswith(b"case ")]
        if not rows:
            return None
        events = rows[-1].decode().split(" ", 3)[3].split(" + ")
        found = [self.places.get(text.rpartition(" ")[0] if text.startswith("priority ") else text) for text in events]
        places = [place for place in found if place is not None]
        if len(places) < len(events):
            return None
        count = len(self.places)
        whole = sum(math.comb(count, size) for size in range(1, self.most + 1))
        before = sum(math.comb(count, size) for size in range(1, len(places)))
        return (before + rank(places, count)) / whole

    def text(self) -> str:
        """How far it is, in words."""
        now, part = time.monotonic(), self.part()
        if part is None:
            return f"{round(now - self.begun)} s gone"
        if self.start is None:
            self.start = now, part
        since, from_part = self.start
        if part <= from_part:
            return f"{part:.0%} of the cases"
        left = (now - since) / (part - from_part) * (1 - part)
        return f"{part:.0%} of the cases, some {max(1, round(left))} s left"
