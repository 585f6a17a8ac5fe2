"""When sessions put their KeepAlives and when their hold times end, as far as that can be foretold from what was said before."""

from __future__ import annotations

from .scripts import Adjacency

TYPE_CHECKING = False
if TYPE_CHECKING:
    from collections.abc import Iterable

    from .network import Network
    from .plan import Plan
    from .report import Report
    from .scripts import Script
    from .silence import Way


class Timers:
    """For each end of a session that stands, named by its own edge and its peer, the tick at which it put something last, and heard
    something last. Ticks count from the failure, so those before it are 0 or less."""

    def __init__(self, plan: Plan) -> None:
        self.plan, self.tick = plan, 0
        self.put: dict[Way, int] = {}
        self.heard: dict[Way, int] = {}
        self.ends: set[Way] = set()
        # Where a script has Hellos: the adjacency of each edge with a peer, and the hold time of what is said on each way.
        self.adjacencies: dict[Way, Adjacency] = {}
        self.hellos: dict[Way, int | None] = {}

    def copy(self) -> Timers:
        """Timers of the same moment."""
        made = Timers(self.plan)
        made.tick, made.put, made.heard, made.ends = self.tick, dict(self.put), dict(self.heard), set(self.ends)
        made.adjacencies, made.hellos = dict(self.adjacencies), self.hellos
        return made

    def hold(self, end: Way) -> int:
        """The hold time of a session: the smaller one of both proposals (RFC 5036 section 3.5.3)."""
        return min(int(self.plan.edges[edge]["keepalive"]) for edge in end)

    def third(self, end: Way) -> int:
        """How long an end puts nothing until it puts a KeepAlive."""
        return max(1, self.hold(end) // 3)

    def expiry(self, end: Way) -> int:
        """The tick at which an end gives up that hears nothing more: its hold time is over, or its adjacency."""
        adjacency = self.adjacencies[end].expiry() if end in self.adjacencies else None
        expiry = self.heard.get(end, self.tick) + self.hold(end)
        return expiry if adjacency is None else min(expiry, adjacency)

    def hears(self, last: int, ways: Iterable[Way]) -> dict[int, list[Way]]:
        """The ticks up to this one at which Hellos are said on some of these ways, each three times in its hold time."""
        found: dict[int, list[Way]] = {}
        for way in ways:
            hold = self.hellos.get(way)
            if hold is not None:
                third = max(1, hold // 3)
                heard = self.adjacencies[way[::-1]].heard if way[::-1] in self.adjacencies else self.tick
                for tick in range(max(self.tick + 1, heard + third), last + 1, third):
                    found.setdefault(tick, []).append(way)
        return found

    def hear(self, way: Way, tick: int) -> None:
        """A Hello is heard."""
        self.adjacencies[way[::-1]] = Adjacency(tick, self.hellos[way])

    def keepalives(self, last: int, ways: Iterable[Way]) -> dict[int, list[Way]]:
        """The ticks up to this one, without it, at which KeepAlives are put on some of these ways, and on which of them."""
        found: dict[int, list[Way]] = {}
        for way in ways:
            if way in self.ends:
                third = self.third(way)
                for tick in range(max(self.tick + 1, self.put.get(way, self.tick) + third), last, third):
                    found.setdefault(tick, []).append(way)
        return dict(sorted(found.items()))


def timers_behind(plan: Plan, report: Report, network: Network, script: Script | None = None) -> Timers:
    """The timers behind a report whose network has come to this."""
    found = Timers(plan)
    if script is not None:
        found.adjacencies = dict(script.adjacencies)
        found.hellos = {way: script.hold(way) for way in script.proposed}
    put: dict[Way, int] = {}
    heard: dict[Way, int] = {}
    tick = 0
    for row in report.rows:
        if row[0] == "said":
            put[row[1], row[2]] = tick
        elif row[0] == ">" and row[1] == "tick":
            tick += 1
        elif row[0] == ">" and row[1] == "deliver":
            heard[row[3], row[2]] = tick
        elif row[0] == ">" and row[1] == "connect":
            for end in ((row[2], row[3]), (row[3], row[2])):
                put[end] = heard[end] = tick
    found.put = {way: at - tick for way, at in put.items()}
    found.heard = {way: at - tick for way, at in heard.items()}
    found.ends = set(network.stands)
    return found
