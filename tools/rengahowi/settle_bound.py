"""By how many deliveries, each of all that is on its way from one edge to another, a network comes to rest at most: whatever is on its way then
has been heard, and nothing came of it any more. What may come of a message is of higher levels alone, so each message is worth one delivery
for itself, and what all that may come of it is worth; and so is a session that comes up, or of which one end alone stands."""

from __future__ import annotations

from typing import NamedTuple

from .event_kinds import ALL, MOST
from .network import OPERATIONAL, Network

TYPE_CHECKING = False
if TYPE_CHECKING:
    from collections.abc import Callable, Iterable, Iterator

    from .plan import Plan, Wire
    from .report import Report

    # What is said of a wire by one edge to its neighbour: what, the wire, and both edges.
    Said = tuple[str, Wire, str, str]

# What a message about a wire does, by its type (RFC 5036 section 3.5, RFC 8077 section 6, RFC 4762 section 6.2): it gives a label, takes it
# back, lets one go, tells a status, or has addresses forgotten.
BINDS, WITHDRAWS, RELEASES, STATES, CLEARS = "Binds", "Withdraws", "Releases", "States", "Clears"
SAYINGS = {"0400": BINDS, "0402": WITHDRAWS, "0403": RELEASES, "0001": STATES, "0301": CLEARS}
# Where the type of a PDU's message stands, and its first TLV, in hexadecimal digits (RFC 5036 sections 3.1 and 3.5); the type of a FEC; and
# where the PW ID stands in an element of it (RFC 8077 section 6.1), behind the TLV's four octets.
TYPE, FIRST_TLV, FEC, PW_ID = 20, 36, "0100", slice(16, 24)
# The events by which sessions and failure bits are followed.
FOLLOWED = {"connect", "deliver", "lose", "restart", "status", "wire", "priority", "circuit"}
# How many times each state that a session leaves is answered still (RFC 5036 section 2.5.4).
ANSWERS = {"Initialized": 6, "OpenSent": 4, "OpenRec": 2}
# The events behind which it is known what edges may put, besides deliveries; the last ones put nothing.
COUNTED = {"connect", "lose", "restart", "wire", "status", "priority", "circuit", "frame", "arrive", "flow"}
# So many lines of `settle` a tool writes at most, to keep a scenario readable.
LINES = 100


def saying_of(octets: str) -> tuple[str, int] | None:
    """What a PDU's message does, and the PW ID that it names; None of one that is about no wire."""
    saying, place = SAYINGS.get(octets[TYPE : TYPE + 4]), FIRST_TLV
    while saying is not None and place < len(octets):
        length = 8 + 2 * int(octets[place + 4 : place + 8], 16)
        if octets[place : place + 4] == FEC:
            value = octets[place + 8 : place + length]
            return (saying, int(value[PW_ID], 16)) if len(value) >= PW_ID.stop and value[8 - 2 : 8] != "00" else None
        place += length
    return None


def beside(wire: Wire, edge: str) -> tuple[str, ...]:
    """The neighbours of an edge on the path of a wire that passes it."""
    place = wire.path.index(edge)
    return wire.path[max(0, place - 1) : place] + wire.path[place + 1 : place + 2]


def is_spoke(wire: Wire, edge: str) -> bool:
    """Whether a wire is a spoke that starts at this edge."""
    return wire.kind == "spoke" and edge == wire.path[0]


class Worths:
    """What each message is worth, by the plan and the failure bits that are set."""

    def __init__(self, plan: Plan, bits: Callable[[str, str], int]) -> None:
        self.plan, self.bits = plan, bits
        self.known: dict[Said, int] = {}
        self.told: dict[tuple[str, str, int], int] = {}
        self.passed: dict[tuple[str, str, int], int] = {}
        # The ends of each edge: a wire, and the neighbour beside which it is.
        self.ends: dict[str, list[tuple[Wire, str]]] = {edge: [] for edge in plan.edges}
        for wire in plan.wires.values():
            for a, b in wire.segments():
                self.ends[a].append((wire, b))
                self.ends[b].append((wire, a))

    def hangs(self, wire: Wire, is_onward: bool) -> bool:
        """Whether what is told of a wire along its path, or against it, hangs on what comes the other way: the end that begins it has failure
        bits, and tells statuses, and the other one takes none, so that it withdraws its label instead."""
        near, far = wire.ends() if is_onward else wire.ends()[::-1]
        return bool(wire.offer(near)["status"] and not wire.offer(far)["status"] and self.bits(near, wire.name))

    def level(self, said: Said) -> int:
        """The level of a message: what comes of it has higher ones."""
        saying, wire, a, b = said
        places = wire.path.index(a), wire.path.index(b)
        is_onward, last = places[0] < places[1], len(wire.path) - 1
        spoken, back = (places[0] + 1, last - places[0]) if is_onward else (last - places[1], places[1] + 1)
        if saying == RELEASES:
            return 16 * self.hangs(wire, not is_onward) + 3 * back + 1
        if saying in (BINDS, WITHDRAWS):
            return 16 * self.hangs(wire, is_onward) + 3 * spoken + 2 * (saying == BINDS)
        if saying == STATES:
            return (48 if wire.kind == "spoke" and is_onward else 32) + spoken
        return (80 if wire.kind != "spoke" else 64 if is_onward else 96) + spoken

    def worth(self, saying: str, wire: Wire, a: str, b: str) -> int:
        """What a message is worth that one edge says to its neighbour about a wire."""
        said = saying, wire, a, b
        if said not in self.known:
            self.known[said] = 1 + sum(self.follows(said))
        return self.known[said]

    def above(self, saying: str, wire: Wire, a: str, b: str, least: int) -> int:
        """The same, where its level is above another one; else nothing."""
        return self.worth(saying, wire, a, b) if self.level((saying, wire, a, b)) > least else 0

    def follows(self, said: Said) -> Iterator[int]:
        """What all that may come of a message is worth."""
        saying, wire, a, me = said
        least, is_end = self.level(said), me in wire.ends()
        beyond = [peer for peer in beside(wire, me) if peer != a]
        if saying == CLEARS and not is_end:  # at a switching point it goes on
            yield from (self.above(CLEARS, wire, me, peer, least) for peer in beyond)
        elif saying == CLEARS:
            yield self.cleared(wire.service, me, least)
        elif saying == RELEASES:  # the end may map anew
            yield self.above(BINDS, wire, me, a, least)
            yield self.chosen(wire, me, least)
        else:
            yield self.worth(RELEASES, wire, me, a) if saying == WITHDRAWS else 0
            yield from (self.relabelled(wire, me, peer, least) for peer in ([a] if is_end else beyond))
            yield from (self.above(STATES, wire, me, peer, least) for peer in beyond)
            yield self.chosen(wire, me, least)

    def cleared(self, service: str, me: str, least: int) -> int:
        """What withdrawals of addresses are worth by all wires of a service that end at an edge."""
        key = service, me, least
        if key not in self.passed:
            rows = [(wire, peer) for wire, peer in self.ends[me] if wire.service == service and me in wire.ends()]
            self.passed[key] = sum(self.above(CLEARS, wire, me, peer, least) for wire, peer in rows)
        return self.passed[key]

    def relabelled(self, wire: Wire, me: str, peer: str, least: int) -> int:
        """What a mapping or a withdrawal at one end is worth."""
        return max(self.above(saying, wire, me, peer, least) for saying in (WITHDRAWS, BINDS))

    def chosen(self, wire: Wire, me: str, least: int) -> int:
        """What is worth that an edge may choose another spoke, where the wire is one: a status and a withdrawal of addresses on each."""
        return self.moved(me, wire.service, least) if is_spoke(wire, me) else 0

    def moved(self, me: str, service: str, least: int) -> int:
        """The same, on all spokes of a service that start at an edge."""
        key = me, service, least
        if key not in self.told:
            rows = [(wire, peer) for wire, peer in self.ends[me] if is_spoke(wire, me) and wire.service == service]
            self.told[key] = sum(self.above(saying, wire, me, peer, least) for wire, peer in rows for saying in (STATES, CLEARS))
        return self.told[key]

    def moves(self, me: str) -> int:
        """The same, of all services."""
        return sum(self.moved(me, service, 0) for service in {wire.service for wire, _ in self.ends[me] if is_spoke(wire, me)})

    def mending(self, me: str) -> int:
        """What all is worth that an edge may say in one mending: at each end a mapping or a withdrawal, and a status, and addresses on spokes."""
        clears = sum(self.worth(CLEARS, wire, me, peer) for wire, peer in self.ends[me] if is_spoke(wire, me))
        return clears + sum(self.relabelled(wire, me, peer, 0) + self.worth(STATES, wire, me, peer) for wire, peer in self.ends[me])

    def rise(self, me: str, peer: str) -> int:
        """What all is worth that an edge may say as its session with a neighbour comes up."""
        return self.moves(me) + sum(self.worth(BINDS, wire, me, other) for wire, other in self.ends[me] if other == peer)

    def fall(self, me: str, peer: str) -> int:
        """What the end of a session is worth of which the neighbour's end is gone: the end itself, and what is said then on the other side."""
        rows = [(wire, other) for wire, other in self.ends[me] if other != peer and peer in beside(wire, me)]
        return 1 + self.moves(me) + sum(self.relabelled(wire, me, other, 0) + self.worth(STATES, wire, me, other) for wire, other in rows)


class Bound:
    """The bound of a network over a plan, at one moment after another."""

    def __init__(self, plan: Plan) -> None:
        self.plan = plan
        self.worths: dict[frozenset[tuple[tuple[str, str], int]], Worths] = {}
        self.wires = {(frozenset(pair), wire.pw_id): wire for wire in plan.wires.values() for pair in wire.segments()}

    def worths_of(self, bits: dict[tuple[str, str], int]) -> Worths:
        """What messages are worth while these failure bits are set."""
        key = frozenset(bits.items())
        if key not in self.worths:
            self.worths[key] = Worths(self.plan, lambda edge, wire: bits.get((edge, wire), 0))
        return self.worths[key]

    def of(self, network: Network) -> int:
        """So many deliveries at most from here on."""
        worths, total = self.worths_of(dict(network.switches.bits)), 0
        for (a, b), pipe in network.pipes.items():
            if (a, b) in network.stands:
                if network.sessions[a, b] != OPERATIONAL:
                    total += ANSWERS[network.sessions[a, b]] + worths.rise(a, b)
                if (b, a) not in network.stands:
                    total += worths.fall(a, b)
            if (b, a) in network.stands:
                total += sum(self.worth_of(worths, a, b, octets) for octets in pipe.said[pipe.whole :])
        return total

    def worth_of(self, worths: Worths, a: str, b: str, octets: str) -> int:
        """What a message on its way is worth."""
        found = saying_of(octets)
        wire = None if found is None else self.wires.get((frozenset((a, b)), found[1]))
        return 1 if found is None or wire is None else worths.worth(found[0], wire, a, b)

    def connected(self) -> int:
        """So many at most once all neighbours are connected, of which none has said anything yet but the first Initialization."""
        worths = self.worths_of({})
        return sum(ANSWERS["Initialized"] + ANSWERS["OpenSent"] + worths.rise(a, b) + worths.rise(b, a) + 1 for a, b in self.plan.pairs())


    def behind(self, events: Iterable[str], bits: dict[tuple[str, str], int]) -> int:
        """So many at most behind these events, where nothing was on its way before and these failure bits were set: each event makes its edges
        put no more than one mending does, and ends or begins sessions. As many as one `settle` makes where an event is not COUNTED."""
        parts = [event.split(" ") for event in events]
        if not COUNTED.issuperset(words[0] for words in parts):
            return MOST
        worths = self.worths_of(bits | {(words[1], words[2]): int(words[3]) for words in parts if words[0] == "status"})
        return sum(self.cost(worths, *words) for words in parts)

    def cost(self, worths: Worths, kind: str, *words: str) -> int:
        """What comes of one event."""
        if kind == "connect":
            return ANSWERS["Initialized"] + ANSWERS["OpenSent"] + worths.rise(words[0], words[1]) + worths.rise(words[1], words[0]) + 1
        if kind == "lose":
            return worths.fall(words[0], words[1]) + worths.fall(words[1], words[0])
        if kind == "restart":
            return sum(worths.fall(b, a) for pair in self.plan.pairs() for a, b in (pair, pair[::-1]) if a == words[0])
        return worths.mending(words[0]) if kind in ("wire", "status", "priority") else 0


def settles(bound: int) -> list[str]:
    """The events that deliver until nothing is on its way, where that takes so many deliveries at most: as many lines as these ask for, but no
    more than a scenario keeps readable with."""
    return [f"settle {MOST}"] * max(1, min(LINES, -(-bound // MOST)))


def bound_at_end(plan: Plan, report: Report) -> int:
    """How many at most before the deliveries with which a report ends."""
    stretches, bound, delivered = Stretches(plan, report), 0, False
    for _, delivers in stretches.followed():
        if delivers and not delivered:
            bound = stretches.bound.of(stretches.network)
        delivered = delivers
    return bound


class Rest(NamedTuple):
    """A stretch of deliveries behind which nothing was on its way: its first and last event, how many they were, and how many at most."""

    first: int
    last: int
    deliveries: int
    bound: int


class Stretches:
    """The stretches of a report, each of deliveries of all that is on its way, one behind the other."""

    def __init__(self, plan: Plan, report: Report) -> None:
        self.network, self.rows = Network(plan), report.rows
        self.bound = Bound(plan)

    def followed(self) -> Iterator[tuple[int, bool]]:
        """Follows what is said, and stops behind each event and before each delivery: the number of the event, and whether it is one that
        delivers all."""
        number, rows = 0, self.rows
        for place, row in enumerate(rows):
            if row[0] == ">":
                number += 1
                is_idle = self.network.is_idle(rows[place + 1][:1] == ["idle"], row[1], row[2:]) if place + 1 < len(rows) else False
                if row[1] in FOLLOWED and not is_idle:
                    yield number, row[1] == "deliver" and int(row[4]) >= ALL
                    self.network.apply(row[1], row[2:])
                elif row[1] != "deliver":
                    yield number, False
            elif row[0] in ("said", "session"):
                self.network.tell(row[0], row[1:])
        yield number + 1, False

    def is_at_rest(self) -> bool:
        """Whether nothing can be delivered."""
        network = self.network
        return all(pipe.is_drained() and ((a, b) in network.stands or (b, a) not in network.stands) for (a, b), pipe in network.pipes.items())


def longest_rest(plan: Plan, report: Report) -> Rest | None:
    """Of the stretches of a report that came to rest the first one of most deliveries; None where there is none, or no session is told."""
    stretches, best, first, count = Stretches(plan, report), (0, 0, 0), 0, 0
    for number, delivers in stretches.followed():
        if count and stretches.is_at_rest():
            best = max(best, (count, -first, number - 1))
            count = 0
        count = count + 1 if delivers else 0
        first = number if count == 1 else first
    if best[0] == 0:
        return None
    again = Stretches(plan, report)
    for number, _ in again.followed():
        if number == -best[1]:
            return Rest(number, best[2], best[0], again.bound.of(again.network))
    return None
