"""The time of what happens in a case: how long a tick is, and how long what an edge says is on its way to a neighbour."""

from __future__ import annotations

import re

from .command import Fault

TYPE_CHECKING = False
if TYPE_CHECKING:
    from collections.abc import Iterable, Mapping
    from typing import Any

    from .silence import Way

# Microseconds in each unit.
UNITS = {"us": 1, "ms": 1_000, "s": 1_000_000, "min": 60_000_000}
DURATION = re.compile(r"([0-9]{1,9})(?:\.([0-9]{1,6}))?(us|ms|s|min)")


def microseconds(text: str, what: str) -> int:
    """The microseconds of a text such as `10ms` or `0.5s`; `what` is where it stands."""
    found = DURATION.fullmatch(text) if isinstance(text, str) else None
    if found is None:
        raise Fault(f"{what}: {text!r} is no time; one is a number with us, ms, s or min, such as 10ms")
    whole, part, unit = found.groups()
    count = int(whole + (part or "").ljust(6, "0")) * UNITS[unit]
    if count % 1_000_000:
        raise Fault(f"{what}: {text!r} is no whole number of microseconds")
    return count // 1_000_000


class Times:
    """How long a tick is and how long what is said takes to each neighbour, in microseconds."""

    def __init__(self, tick: int, one_way: int, links: Mapping[frozenset[str], int] | None = None) -> None:
        self.tick, self.one_way, self.links = tick, one_way, dict(links or {})

    def on(self, way: Way) -> int:
        """How long it takes on a way."""
        return self.links.get(frozenset(way), self.one_way)

    def found(self) -> dict[str, Any]:
        """What is told of it, in seconds."""
        links = [{"edges": sorted(pair), "one_way": time / 1_000_000} for pair, time in self.links.items()]
        return {"tick": self.tick / 1_000_000, "one_way": self.one_way / 1_000_000, "links": links}


class Clock:
    """The time at each edge, from the failure or its mending on: what was said by an edge at some time is heard one way later, and what
    comes of it happens at that moment. What is delivered together is heard as its last part is."""

    def __init__(self, times: Times, edges: Iterable[str]) -> None:
        self.times = times
        self.at = dict.fromkeys(edges, 0)
        self.said: dict[Way, int] = {}

    def begin(self) -> None:
        """Time begins anew, when all that was said is heard."""
        self.at = dict.fromkeys(self.at, 0)
        self.said.clear()

    def tick(self, number: int) -> None:
        """A tick at every edge."""
        self.at = {edge: max(time, number * self.times.tick) for edge, time in self.at.items()}

    def say(self, way: Way) -> None:
        """An edge says something to another one, or its end is lost, which the other one comes to know in the same way."""
        self.said[way] = self.at[way[0]]

    def hear(self, way: Way) -> None:
        """An edge hears what was said."""
        self.at[way[1]] = max(self.at[way[1]], self.said.get(way, 0) + self.times.on(way))
