"""The failures of a plan, one after another or several at once: what brings each about, and what mends it."""

from __future__ import annotations

from itertools import combinations
from typing import NamedTuple

from .silence import Silence, is_silent, mending_of

TYPE_CHECKING = False
if TYPE_CHECKING:
    from collections.abc import Iterable, Iterator
    from typing import Any

    from .network import Network
    from .plan import Plan, Wire

# What fails, in the order of the table.
KINDS = ["session", "wire", "restart", "circuit", "priority", "status", "silent"]
# What of the last kind may be tried by itself: edges, or links.
PARTS = ["silent-edge", "silent-link"]
# The number by which a spoke is the last one that is used, and the bit of a failure (RFC 4446 section 3.5: not forwarding).
LAST, FAILED = 255, 1


class Case(NamedTuple):
    """A failure: its name, its kind, the events and silences that bring it about, and the events that mend it."""

    name: str
    kind: str
    failure: tuple[str, ...]
    mending: tuple[str, ...]

    @property
    def switches(self) -> list[str]:
        """What of the failure are events."""
        return [text for text in self.failure if not is_silent(text)]

    def silence(self, plan: Plan) -> Silence:
        """What goes silent by it."""
        return Silence(plan, filter(is_silent, self.failure))


def cases_of(plan: Plan, network: Network, kinds: Iterable[str]) -> list[Any]:
    """The cases of these kinds: those that change something in the network that the set-up left."""
    makers = {"session": sessions, "wire": wires, "restart": restarts, "circuit": circuits, "priority": priorities, "status": statuses}
    makers.update({"silent": silences, "silent-edge": dead_edges, "silent-link": silent_links})
    return [case for kind in [*KINDS, *PARTS] if kind in kinds and not (kind in PARTS and "silent" in kinds) for case in makers[kind](plan, network)]


def case(kind: str, failure: Any, *mending: Any) -> Case:
    """A case of one failure, which has its name."""
    return Case(failure, kind, (failure,), mending)


def sessions(plan: Plan, network: Network) -> Iterator[Any]:
    """Each session that stands is lost, at the end that comes first in the plan."""
    for a, b in plan.pairs():
        if network.is_up(a, b):
            yield case("session", f"lose {a} {b}", f"connect {a} {b}")


def wires(plan: Plan, network: Network) -> Iterator[Any]:
    """Each wire goes off at either end."""
    for wire in plan.wires.values():
        for edge in wire.ends():
            if not network.switches.is_off(edge, wire.name):
                yield case("wire", f"wire {edge} {wire.name} off", f"wire {edge} {wire.name} on")


def restarts(plan: Plan, network: Network) -> Iterator[Any]:
    """Each edge with a session restarts; all its connections come back."""
    for edge in plan.edges:
        pairs = [pair for pair in plan.pairs() if edge in pair and network.is_up(*pair)]
        if pairs:
            yield case("restart", f"restart {edge}", *(f"connect {a} {b}" for a, b in pairs))


def circuits(plan: Plan, network: Network) -> Iterator[Any]:
    """Each circuit goes off."""
    for name in plan.circuits:
        if network.on[name]:
            yield case("circuit", f"circuit {name} off", f"circuit {name} on")


def priorities(plan: Plan, network: Network) -> Iterator[Any]:
    """Each of several spokes of a spoke edge is the last one where it was the first, and the first one where it was not."""
    for wire, others in rivals(plan):
        number = network.switches.priority_of(wire)
        least = min(map(network.switches.priority_of, others))
        new = LAST if number <= least else max(0, least - 1)
        if new != number:
            yield case("priority", f"priority {wire.path[0]} {wire.name} {new}", f"priority {wire.path[0]} {wire.name} {number}")


def rivals(plan: Plan) -> Iterator[Any]:
    """Each spoke that is one of several of its edge and service, with the others."""
    spokes = [wire for wire in plan.wires.values() if wire.kind == "spoke"]
    found: dict[tuple[str, str], list[Wire]] = {}
    for wire in spokes:
        found.setdefault((wire.service, wire.path[0]), []).append(wire)
    for wire in spokes:
        others = [other for other in found[wire.service, wire.path[0]] if other is not wire]
        if others:
            yield wire, others


def statuses(plan: Plan, network: Network) -> Iterator[Any]:
    """Each spoke fails at its spoke edge, which tells it by a status."""
    for wire in plan.wires.values():
        if wire.kind == "spoke":
            edge = wire.path[0]
            bits = network.switches.bits_of(edge, wire.name)
            if bits & FAILED == 0:
                yield case("status", f"status {edge} {wire.name} {bits | FAILED}", f"status {edge} {wire.name} {bits}")


def silences(plan: Plan, network: Network) -> Iterator[Case]:
    """All that may go silent."""
    yield from dead_edges(plan, network)
    yield from silent_links(plan, network)


def dead_edges(plan: Plan, network: Network) -> Iterator[Case]:
    """Each edge with a session dies without a word."""
    up = [pair for pair in plan.pairs() if network.is_up(*pair)]
    for edge in plan.edges:
        if any(edge in pair for pair in up):
            yield case("silent", f"silent {edge}", *mending_of(plan, f"silent {edge}", up))


def silent_links(plan: Plan, network: Network) -> Iterator[Case]:
    """Each session that stands carries nothing any more, and then in one direction."""
    up = [pair for pair in plan.pairs() if network.is_up(*pair)]
    words = [f"silent {a} {b}" for a, b in up]
    words += [f"silent {a} to {b}" for pair in up for a, b in (pair, pair[::-1])]
    for text in words:
        yield case("silent", text, *mending_of(plan, text, up))


# The kind of a case of several failures, by how many they are.
TOGETHER = {2: "pair", 3: "triple"}


def together(cases: Iterable[Case], count: int) -> Iterator[Any]:
    """Each two cases at once, or each three."""
    for group in combinations(cases, count):
        failure = tuple(event for case in group for event in case.failure)
        mending = tuple(event for case in group for event in case.mending)
        yield Case(" + ".join(case.name for case in group), TOGETHER[count], failure, mending)
