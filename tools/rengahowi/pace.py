"""Where an event of a case stands: before or behind the mending, in which tick and round, and at which time."""

from __future__ import annotations

from .clock import Clock
from .losses import When

TYPE_CHECKING = False
if TYPE_CHECKING:
    from collections.abc import Iterable, Sequence

    from .cases import Base
    from .network import Network
    from .plan import Wire
    from .silence import Silence, Way


class Pace:
    """The ticks, rounds and times of a case: in round 0 the failure, its mending and each tick stand, and round 1 begins with the first
    delivery."""

    def __init__(self, base: Base, silence: Silence, switches: int, rounds: int) -> None:
        self.base, self.rounds, self.before = base, rounds, switches
        # How many deliveries a round has while the failure stands, and once it is mended.
        self.size, self.whole = len(base.probes.round) - len(silence.ways), len(base.probes.round)
        # Events that switch something, ticks, and deliveries since the last of both.
        self.switches, self.tick, self.delivered, self.round = 0, 0, 0, 0
        self.is_mended, self.is_late = False, False
        # The edge at which an event happens, where it is one alone, and the times at which sessions and ends of wires told something.
        self.clock = Clock(base.times, base.plan.edges) if base.times is not None else None
        self.edge: str | None = None
        self.told: dict[tuple[str, str], int] = {}

    def deliver(self, way: Way) -> None:
        """A delivery comes."""
        self.round = min(self.delivered // max(1, self.size), self.rounds) + 1
        self.is_late = self.is_late or self.delivered >= self.size * self.rounds
        self.delivered += 1
        self.edge = way[1]

    def ticks(self) -> None:
        """A tick comes."""
        self.tick, self.delivered, self.round, self.edge = self.tick + 1, 0, 0, None
        if self.clock is not None:
            self.clock.tick(self.tick)

    def switch(self, is_mending: bool) -> bool:
        """Something is switched; whether that is the first event of the mending, which has those words."""
        self.switches, self.edge = self.switches + 1, None
        if self.is_mended or self.switches <= self.before or not is_mending:
            return False
        self.is_mended, self.tick, self.delivered, self.round, self.size = True, 0, 0, 0, self.whole
        if self.clock is not None:
            self.clock.begin()
        self.told.clear()
        return True

    def is_behind(self) -> bool:
        """Whether the events of the failure have come, and those of the mending have not."""
        return self.switches >= self.before and not self.is_mended

    def hear(self, way: Way) -> None:
        """What a neighbour said comes to an edge."""
        if self.clock is not None:
            self.clock.hear(way)

    def say(self, way: Way) -> None:
        """An edge says something, or its end of a connection is lost."""
        if self.clock is not None:
            self.clock.say(way)

    def tell(self, words: Sequence[str]) -> None:
        """An edge tells something of a session or of the end of a wire."""
        if self.clock is not None:
            self.told[words[0], words[1]] = self.time()

    def stage(self) -> str:
        """Whether the failure stands, or was mended."""
        return "mended" if self.is_mended else "failed"

    def time(self) -> int:
        """The time of the event."""
        if self.clock is None:
            return 0
        return max(self.clock.at.values()) if self.edge is None else self.clock.at[self.edge]

    def when(self, network: Network, wires: Iterable[Wire] = ()) -> When:
        """The moment of the event, by which these wires came to carry frames, or do so no more: they do once all that it takes was told."""
        times = [self.time()]
        for wire in wires:
            if wire.name in network.carrying:
                ends = [(edge, wire.name) for edge in wire.ends()]
                times += [self.told.get(key, 0) for a, b in wire.segments() for key in (*ends, (a, b), (b, a))]
        return When(self.stage(), self.tick, self.round, None if self.clock is None else max(times))
