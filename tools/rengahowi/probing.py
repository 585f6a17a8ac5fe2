"""What is tried around a failure: broadcasts and frames for known stations, in four phases, and rounds of deliveries between them."""

from __future__ import annotations

from typing import NamedTuple

from .command import Fault
from .event_kinds import ALL
from .keys import MOST_ROWS
from .settle_bound import Bound, settles

TYPE_CHECKING = False
if TYPE_CHECKING:
    from collections.abc import Collection, Iterable, Iterator, Sequence
    from typing import Any

    from .failures import Case
    from .plan import Plan

# Before the failure; behind it, with nothing of LDP delivered yet; once all is delivered; once it is mended and all is delivered.
PHASES = ["before", "at once", "failed", "mended"]
TAG, TYPE = "8100%04x", "88b5"
BROADCAST = "ff" * 6
# So many deliveries of LDP at most, or arrivals of packets, where it is not known how many are needed.
REST = 10000


class Frame(NamedTuple):
    """A frame that is tried: where it enters, and the one circuit that it is for; None of a broadcast."""

    circuit: str
    to: str | None


class Probes:
    """The frames of a phase, and the events around a failure."""

    def __init__(self, plan: Plan) -> None:
        self.plan = plan
        # How many deliveries bring the network to rest behind its set-up, and the failure bits that are set then.
        self.bound, self.set_up, self.bits = Bound(plan), REST, dict[tuple[str, str], int]()
        self.station = {name: f"02000000{place:04x}" for place, name in enumerate(plan.circuits)}
        self.ways = [way for a, b in plan.pairs() for way in ((a, b), (b, a))]
        self.round = [f"deliver {a} {b} {ALL}" for a, b in self.ways]
        broadcasts = [Frame(name, None) for name in plan.circuits]
        known = [Frame(name, other) for name, other in self.neighbours()]
        # What was learned before stands while frames for known stations enter: so they come first, but in the first phase.
        self.frames = {phase: known + broadcasts for phase in PHASES}
        self.frames["before"] = broadcasts + known

    def neighbours(self) -> Iterator[Any]:
        """Each circuit with the next one of its service, and the last one with the first."""
        for service in self.plan.services:
            sites = self.plan.circuits_of(service)
            yield from zip(sites, sites[1:] + sites[:1]) if len(sites) > 1 else ()

    def octets(self, frame: Any) -> str:
        """The octets of a frame, as they enter at its circuit."""
        tag = self.plan.circuits[frame.circuit]["tag"]
        to = BROADCAST if frame.to is None else self.station[frame.to]
        return f"{to}{self.station[frame.circuit]}{TAG % tag if tag else ''}{TYPE}"

    def event(self, frame: Frame) -> str:
        """The event by which a frame enters."""
        return f"frame {frame.circuit} {self.octets(frame)}"

    def numbers_in(self, name: str, dead: Collection[str] = ()) -> list[int]:
        """The frames of a phase by their places, without those that would enter at edges that are dead."""
        return [place for place, frame in enumerate(self.frames[name]) if self.plan.circuits[frame.circuit]["edge"] not in dead]

    def frames_in(self, name: str, dead: Collection[str] = ()) -> list[Frame]:
        """The same frames themselves."""
        return [self.frames[name][place] for place in self.numbers_in(name, dead)]

    def phase(self, name: str, dead: Collection[str] = ()) -> list[str]:
        """The events of a phase: each frame enters, and all its copies arrive before the next one."""
        return [event for frame in self.frames_in(name, dead) for event in (self.event(frame), f"flow {REST}")]

    def before(self, events: list[str]) -> list[Any]:
        """The set-up, delivered to its end, and the first phase."""
        return [*events, *self.rest(self.set_up), *self.phase("before")]

    def rest(self, bound: int = REST) -> list[str]:
        """Everything is delivered, where that takes so many deliveries at most, and arrives."""
        return (settles(bound) if self.ways else []) + [f"flow {REST}"]

    def rest_behind(self, events: Sequence[str], before: Iterable[str] = ()) -> list[str]:
        """The same behind these events in a network at rest, in which those before them had failed."""
        told = {(words[1], words[2]): int(words[3]) for words in (event.split(" ") for event in before) if words[0] == "status"}
        return self.rest(self.bound.behind(events, self.bits | told))

    def after(self, case: Case, rounds: int) -> list[Any]:
        """A case's own events, behind those of `before`."""
        return [*case.failure, *self.phase("at once"), *self.round * rounds, *self.tail(case.failure, case.mending, rounds)]

    def tail(self, failure: Sequence[str] | None, mending: Sequence[str], rounds: int, dead: Collection[str] = ()) -> list[str]:
        """What comes of a case once its failure was delivered: the phase in which it stands, its mending, rounds, in each of which one delivery
        is made from each edge to each neighbour, of all that is on its way, and the last phase. A failure by silence has no events."""
        failed, mended = (self.rest(), self.rest()) if failure is None else (self.rest_behind(failure), self.rest_behind(mending, failure))
        return [*failed, *self.phase("failed", dead), *mending, *self.round * rounds, *mended, *self.phase("mended")]

    def most_rounds(self, events: int) -> int:
        """How many rounds a scenario has room for, behind a set-up of so many events."""
        left = MOST_ROWS["events"] - events - 4 * len(self.phase("before")) - 4096
        if left < 2 * len(self.round):
            raise Fault(f"the set-up has {events} events, and with its cases a scenario would have more than {MOST_ROWS['events']}")
        return min(1000, left // (2 * len(self.round))) if self.round else 1
