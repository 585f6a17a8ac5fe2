"""The cases of `what-if` beside a survey: which of its failures a case has, and whether the sites that were apart once all was settled are
those that the survey tells."""

from __future__ import annotations

from itertools import combinations

from .command import Fault
from .failures import priorities
from .sound import is_sound
from .survey import Survey

TYPE_CHECKING = False
if TYPE_CHECKING:
    from collections.abc import Iterator
    from typing import Any

    from .failures import Case
    from .network import Network
    from .plan import Plan
    from .survey import Pair


def failures_of(plan: Plan, network: Network) -> Iterator[str]:
    """The failures of a network as a survey tells them, each as the event that brings it about."""
    pairs = [pair for pair in plan.pairs() if network.is_connected(*pair)]
    for a, b in pairs:
        yield f"lose {a} {b}"
    for wire in plan.wires.values():
        if is_sound(network, wire):
            yield f"wire {wire.path[0]} {wire.name} off"
    for edge in plan.edges:
        if any(edge in pair for pair in pairs):
            yield f"restart {edge}"
    for case in priorities(plan, network):
        yield case.name


class Surveyed:
    """What a survey tells of the cases of a network."""

    def __init__(self, plan: Plan, network: Network, survey: Survey, most: int) -> None:
        self.plan, self.survey, self.most = plan, survey, most
        self.failures = set(failures_of(plan, network))
        self.apart = survey.apart()
        # The pairs that each case loses and finds, once that was asked.
        self.asked: dict[frozenset[str], tuple[set[Pair], set[Pair]]] = {}
        if len(self.failures) != survey.counts["faults"]:
            raise Fault(f"the survey has {survey.counts['faults']} failures, and the set-up {len(self.failures)}")

    def failure_of(self, event: str) -> str | None:
        """The failure of a survey that an event brings about, and nothing where it changes whom nobody reaches; None where a survey has no
        word for it."""
        kind, *words = event.split(" ")
        if kind == "lose":
            a, b = (name for name in self.plan.edges if name in words)
            found = f"lose {a} {b}"
        elif kind == "wire" and words[2] == "off" or kind == "status" and words[2] != "0":
            wire = self.plan.wires[words[1]]
            if words[0] not in (wire.path if kind == "wire" else wire.ends()):
                return ""
            found = f"wire {wire.path[0]} {wire.name} off"
        elif kind in ("restart", "priority"):
            found = event
        else:
            return "" if kind == "circuit" and words[1] == "off" else None
        return found if found in self.failures else None if kind == "priority" else ""

    def key_of(self, case: Case) -> frozenset[str] | None:
        """The failures of a case; None where a survey has no word for all of them, or knows no cases of so many."""
        found = [self.failure_of(event) for event in case.failure]
        return None if None in found else frozenset(filter(None, found))

    def change_of(self, key: frozenset[str]) -> tuple[set[Pair], set[Pair]] | None:
        """The pairs of sites that lose and that find each other in a case that is told; None of another one."""
        told = self.survey.cases.get(key)
        if told is None:
            return None
        if key not in self.asked:
            self.asked[key] = self.survey.lost(told), self.survey.found(told)
        return self.asked[key]

    def due(self, case: Case) -> tuple[set[Pair], set[Pair]] | None:
        """The pairs of sites that are apart once a case has settled: those that have to be, and those that may be; both are the same but in
        a case of several failures that is not told by itself, of which only so much is known. None where nothing is known."""
        key = self.key_of(case)
        if key is None:
            return None
        change = self.change_of(key)
        if change is not None:
            exact = (self.apart - change[1]) | change[0]
            return exact, exact
        if len(key) > self.most:
            return None
        parts = [self.change_of(frozenset(part)) for size in range(1, len(key)) for part in combinations(sorted(key), size)]
        least, most = set(self.apart), set(self.apart)
        for lost, found in filter(None, parts):
            least -= found
            most |= lost
        return least, most

    def check(self, case: Case, row: dict[str, Any]) -> bool:
        """Whether a survey tells what a case has settled to, in which then this is so. A fault where it is not: the survey is proved, so
        either these tools or the program are wrong."""
        due = None if self.survey.no_label or not (row["as_settled"] and row["whole"]) else self.due(case)
        if due is None:
            return False
        off = {event.split(" ")[1] for event in case.failure if event.startswith("circuit ")}
        least, most = ({pair for pair in pairs if off.isdisjoint(pair)} for pairs in due)
        seen = set(self.pairs_apart(row["settled"], off))
        if least <= seen <= most:
            return True
        pair = sorted(next(iter(least - seen or seen - most)))
        raise Fault(f"{case.name}: once settled, {' and '.join(pair)} {'reach' if least - seen else 'do not reach'} each other, and the survey tells otherwise")

    def pairs_apart(self, settled: list[dict[str, Any]], off: set[str]) -> Iterator[Pair]:
        """The pairs of sites at two edges that did not reach each other once a case had settled."""
        for service in settled:
            sites = [name for name in self.survey.sites_of(service["service"]) if name not in off]
            for part in service["apart"]:
                here = self.survey.edge_of(part["sites"][0])
                far = [name for name in sites if name not in part["reached"] and self.survey.edge_of(name) != here]
                yield from (frozenset((site, name)) for site in part["sites"] for name in far)
