"""A script of `discover` that sets a network up, and more events behind it as lines of such a script."""

from __future__ import annotations

from typing import NamedTuple

from .command import Fault, text_of

TYPE_CHECKING = False
if TYPE_CHECKING:
    import pathlib
    from collections.abc import Iterable

    from .plan import Plan
    from .silence import Way

# A hold time of 0 stands for this one, and this one never ends (RFC 5036 section 3.5.2).
USUAL, ENDLESS = 45, 65535
# What is no event and no line: E says a Hello to P, with the hold time that it proposed last, and P hears it at once.
HEAR = "hear"


class Adjacency(NamedTuple):
    """When an edge heard a neighbour's Hello last, and for how many ticks that counts; None where it does for good."""

    heard: int
    hold: int | None

    def expiry(self) -> int | None:
        """The tick at which it ends."""
        return None if self.hold is None else self.heard + self.hold


class Script:
    """The lines of a script, and what its Hellos come to: the last proposal on each way, and the adjacency of each edge with a peer. Ticks
    count from its end, so those within it are 0 or less."""

    def __init__(self, plan: Plan, path: str | pathlib.Path) -> None:
        self.lines = text_of(path).splitlines()
        self.said: list[tuple[Way, int]] = []
        self.proposed: dict[Way, int] = {}
        self.adjacencies: dict[Way, Adjacency] = {}
        pairs = {frozenset(pair) for pair in plan.pairs()}
        tick = -self.lines.count("tick")
        try:
            for line in self.lines:
                kind, *words = line.split(" ")
                if kind == "hello" and frozenset(words[:2]) in pairs:
                    self.said.append(((words[0], words[1]), int(words[2])))
                    self.proposed[words[0], words[1]] = int(words[2])
                elif kind == "bring" and int(words[0]) <= len(self.said):
                    (edge, peer), hold = self.said[int(words[0]) - 1]
                    self.adjacencies[peer, edge] = Adjacency(tick, least(hold, self.proposed.get((peer, edge), 0)))
                elif kind == "tick":
                    tick += 1
        except (IndexError, ValueError):
            raise Fault(f"{path} is no script that `discover` accepts") from None

    def hold(self, way: Way) -> int | None:
        """For how many ticks a Hello counts that is said on a way by now."""
        return least(self.proposed[way], self.proposed.get(way[::-1], 0))

    def with_events(self, events: Iterable[str]) -> list[str]:
        """The lines, with these events behind them."""
        lines, count = list(self.lines), len(self.said)
        for text in events:
            kind, *words = text.split(" ")
            if kind == HEAR:
                count += 1
                lines += [f"hello {words[0]} {words[1]} {self.proposed[words[0], words[1]]}", f"bring {count}"]
            elif kind == "tick":
                lines += ["tick"] * int(words[0] if words else 1)
            else:
                lines.append(f"open {words[0]} {words[1]}" if kind == "connect" else f"do {text}")
        return lines


def least(*holds: int) -> int | None:
    """The smallest of some hold times as they are proposed; None where none ends."""
    ends = [hold or USUAL for hold in holds if hold != ENDLESS]
    return min(ends, default=None)
