"""Which edges lost and found each other in a case, when, and for how long."""

from __future__ import annotations

from typing import NamedTuple

from .summing import parted

TYPE_CHECKING = False
if TYPE_CHECKING:
    from collections.abc import Iterable, Iterator
    from typing import Any

    from .cases import Base
    from .clock import Times
    from .network import Network
    from .silence import Silence


class When(NamedTuple):
    """A moment of a case: whether the failure stands (`failed`) or was `mended`, how many ticks and then rounds behind that, and the
    time in microseconds, where time is told."""

    stage: str
    tick: int
    round: int
    time: int | None


class Losses:
    """The pairs of edges that no wires join any more, service by service: wires over what is silent join none."""

    def __init__(self, base: Base, network: Network, silence: Silence) -> None:
        self.base, self.network, self.silence = base, network, silence
        self.joined = dict(base.joined)
        self.hidden = {wire.name for wire in base.plan.wires.values() for a, b in wire.segments() if {(a, b), (b, a)} & silence.ways}
        self.is_mended = False
        # The pairs that dead edges lost, which are told from the moment on in which these begin anew.
        self.away: list[tuple[str, Any]] = []
        self.open: dict[tuple[str, Any], tuple[When, tuple[str, ...]]] = {}
        self.spans: list[tuple[str, Any, When, tuple[str, ...], When | None]] = []

    def begin(self, now: When) -> None:
        """The failure comes."""
        self.compare({self.base.plan.wires[name].service for name in self.hidden}, now)

    def mend(self, now: When) -> None:
        """The mending begins: nothing is silent any more."""
        services = {self.base.plan.wires[name].service for name in self.hidden}
        self.is_mended = True
        self.hidden = set()
        for service, pair in self.away:
            self.open[service, pair] = now, tuple(self.network.sites(service))
        self.compare(services, now)

    def joined_in(self, service: str) -> set[Any]:
        """The pairs of edges that wires join by now."""
        network = self.network
        hidden = network.carrying & self.hidden
        network.carrying -= hidden
        joined = network.joined(service)
        network.carrying |= hidden
        return joined

    def compare(self, services: Iterable[str], now: When) -> None:
        """Which edges of these services lost or found each other."""
        for service in services:
            joined, before = self.joined_in(service), self.joined[service]
            sites = tuple(self.network.sites(service))
            for pair in before - joined:
                if not self.is_mended and pair & self.silence.edges:
                    self.away.append((service, pair))
                else:
                    self.open[service, pair] = now, sites
            for pair in joined - before:
                if (service, pair) in self.open:
                    self.spans.append((service, pair, *self.open.pop((service, pair)), now))
            self.joined[service] = joined

    def rows(self) -> list[dict[str, Any]]:
        """Which sites lost each other, when, and for how long: those that were on when they did."""
        return sorted(self.found(), key=lambda row: (row["service"], str(row["from"]), str(row["to"])))

    def found(self) -> Iterator[dict[str, Any]]:
        """The same, in any order."""
        together: dict[Any, list[Any]] = {}
        for service, pair, start, sites, end in self.spans + [(*key, *opened, None) for key, opened in self.open.items()]:
            together.setdefault((service, start, sites, end), []).append(pair)
        for (service, start, sites, end), pairs in together.items():
            found = parted(self.base.plan, sites, pairs)
            if found:
                yield {"service": service, "sites": found, "from": moment(start), "to": moment(end), **how_long(start, end, self.base.times)}


def moment(when: When | None) -> dict[str, Any] | None:
    """A moment of a case; None where it did not come."""
    if when is None:
        return None
    return {"stage": when.stage, "tick": when.tick, "round": when.round, **({} if when.time is None else {"seconds": when.time / 1_000_000})}


def how_long(start: When, end: When | None, times: Times | None) -> dict[str, Any]:
    """For how many ticks, and rounds behind them, two edges lost each other: behind the mending, where that brought them together;
    None where nothing did. And where time is told the seconds, and how many of these are ticks and how many what is said takes."""
    if end is None:
        return {"ticks": None, "rounds": None, **({} if times is None else {"seconds": None, "detection": None, "signalling": None})}
    is_alone = start.stage == end.stage
    ticks = end.tick - start.tick if is_alone else end.tick
    found: dict[str, Any] = {"ticks": ticks, "rounds": end.round - start.round if is_alone and ticks == 0 else end.round}
    if times is not None and end.time is not None and start.time is not None:
        whole, detection = end.time - (start.time if is_alone else 0), ticks * times.tick
        found.update({"seconds": whole / 1_000_000, "detection": detection / 1_000_000, "signalling": (whole - detection) / 1_000_000})
    return found
