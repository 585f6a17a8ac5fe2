"""The network as a report tells it: sessions, octets on their way, wires, circuits and packets, from event to event."""

from __future__ import annotations

from .switches import Switches

TYPE_CHECKING = False
if TYPE_CHECKING:
    from collections.abc import Iterable, Sequence
    from typing import Any

    from .plan import Plan, Wire
    from .report import Entry, Event

    Ways = dict[str, list[tuple[str, Wire]]]

UP = "up"
NEVER = "NonExistent"
# The type of an Address Withdraw, and where the type of a PDU's message stands, in hexadecimal (RFC 5036 sections 3.1 and 3.5.6).
ADDRESS_WITHDRAW, MESSAGE = "0301", 20
OPERATIONAL, CLOSED = "Operational", "Ended:Closed"
# By what the sessions of a report are known: by its own lines, or in the report of a lab by the connections; else by nothing.
TOLD, CONNECTED, UNTOLD = "told", "connected", "untold"


class Pipe:
    """What was put from one edge to another and is on its way or held in part there: the lengths of its PDUs, of which so many were
    delivered whole, and how many octets of the next one were. Of withdrawals of addresses the octets are kept until they have come."""

    def __init__(self) -> None:
        self.pdus: list[int] = []
        self.whole, self.heard = 0, 0
        self.said: list[str] = []  # their octets
        self.kept: dict[int, str] = {}
        self.came: list[str] = []  # by the last delivery

    def put(self, octets: str) -> None:
        """One more PDU is on its way."""
        if octets.startswith(ADDRESS_WITHDRAW, MESSAGE):
            self.kept[len(self.pdus)] = octets
        self.pdus.append(len(octets) // 2)
        self.said.append(octets)

    def deliver(self, count: int) -> int:
        """Takes octets from the front, as many as there are at most, and answers how many PDUs are whole by that."""
        self.heard, before = self.heard + count, self.whole
        while self.whole < len(self.pdus) and self.heard >= self.pdus[self.whole]:
            self.heard -= self.pdus[self.whole]
            self.whole += 1
        made = self.whole - before
        self.came = [self.kept.pop(place) for place in range(before, self.whole) if place in self.kept] if self.kept else []
        if self.is_drained():
            self.pdus.clear()
            self.said.clear()
            self.whole, self.heard = 0, 0
        return made

    def copy(self) -> Pipe:
        """A pipe with the same in it."""
        made = Pipe()
        made.pdus, made.said, made.whole, made.heard, made.kept = self.pdus.copy(), self.said.copy(), self.whole, self.heard, self.kept.copy()
        return made

    def octets(self) -> int:
        """How many octets are on their way."""
        return sum(self.pdus[self.whole :]) - self.heard

    def is_drained(self) -> bool:
        """Whether nothing is on its way, and no part of a PDU is held."""
        return self.whole == len(self.pdus)


class Network:
    """The state that the events and entries of a report come to."""

    def __init__(self, plan: Plan) -> None:
        self.plan, self.shape = plan, Shape(plan)
        self.stands: set[tuple[str, str]] = set()
        self.pipes = {way: Pipe() for a, b in self.shape.pairs for way in ((a, b), (b, a))}
        self.sessions = {way: NEVER for way in self.pipes}
        self.sessions_by = TOLD
        self.ends = {(edge, wire.name): "NoLocal" for wire in plan.wires.values() for edge in wire.ends()}
        self.switches = Switches(plan)
        self.sites_on: dict[str, list[str]] = {}  # of each service, where it was asked for since the last circuit went on or off
        self.packets: dict[Any, Any] = {}
        self.heard = 0  # PDUs that were delivered whole
        # What was looked at since the last word of LDP: by what it is, and the service.
        self.looked: dict[tuple[str, str], Any] = {}
        # The wires that carried frames when they were looked at last, and those whose ends or sessions told something since.
        self.carrying: set[str] = set()
        self.told: set[str] = set()

    def copy(self) -> Network:
        """The same network, to which other things may happen."""
        made = Network.__new__(Network)
        made.plan, made.shape, made.heard, made.sessions_by = self.plan, self.shape, self.heard, self.sessions_by
        made.pipes = {way: pipe.copy() for way, pipe in self.pipes.items()}
        made.switches = self.switches.copy()
        for name in ("stands", "sessions", "ends", "sites_on", "packets", "looked", "carrying", "told"):
            setattr(made, name, getattr(self, name).copy())
        return made

    @property
    def on(self) -> dict[str, bool]:
        """Which circuits are on."""
        return self.switches.on

    def begin(self, event: Event) -> None:
        """What an event does by itself, before its entries."""
        if not self.is_idle(event.is_idle(), event.kind, event.words):
            self.apply(event.kind, event.words)

    def is_idle(self, is_told: bool, kind: str, words: Sequence[Any]) -> bool:
        """Whether an event does not apply, behind which the report tells first that something is idle, or does not. In a report of
        `discover` that may be a line of the script by itself: so it is where the event applies by all that was told before."""
        return is_told and not self.applies(kind, words)

    def applies(self, kind: str, words: Sequence[Any]) -> bool:
        """Whether an event that may tell nothing applies, by all that was told before. It is not asked of a frame and of a ping, which
        tell something where they apply."""
        if kind == "connect":
            a, b = words
            return (a, b) in self.pipes and not {(a, b), (b, a)} & self.stands
        if kind == "lose":
            return tuple(words) in self.stands
        if kind == "deliver":
            a, b, _ = words
            return (b, a) in self.stands and ((a, b) not in self.stands or self.pipes[a, b].octets() > 0)
        if kind in ("arrive", "drop", "again"):
            return words[0] in self.packets
        return bool(self.switches.applies(kind, words))

    def apply(self, kind: str, words: Sequence[Any]) -> None:
        """What an event does that applies, before its entries."""
        if kind in ("connect", "deliver", "restart", "lose"):
            self.looked.clear()
        if kind == "connect":
            a, b = words
            for way in ((a, b), (b, a)):
                self.stands.add(way)
                self.pipes[way] = Pipe()
                self.see_session(way, OPERATIONAL)
        elif kind == "deliver":
            pipe = self.pipes.get((words[0], words[1]))
            self.heard += 0 if pipe is None else pipe.deliver(int(words[2]))
        elif kind == "lose":
            self.close((words[0], words[1]))
            self.see_session((words[0], words[1]), CLOSED)
        elif kind == "restart":
            self.restart(words[0])
        elif kind in ("arrive", "drop"):
            self.packets.pop(words[0], None)
        else:
            self.switches.turn(kind, words)
            if kind == "circuit":
                self.sites_on.clear()

    def see_session(self, way: tuple[str, str], state: str) -> None:
        """A session is known by its connection, where the report tells of no sessions."""
        if self.sessions_by == CONNECTED:
            self.sessions[way] = state
            self.told.update(self.shape.over.get(frozenset(way), ()))

    def restart(self, edge: str) -> None:
        """An edge forgets its sessions and the ends of its wires, and tells nothing."""
        for way in self.sessions:
            if way[0] == edge:
                self.close(way)
                self.sessions[way] = NEVER
                self.told.update(self.shape.over.get(frozenset(way), ()))
        for end in self.ends:
            if end[0] == edge:
                self.ends[end] = "NoLocal"
                self.told.add(end[1])

    def close(self, way: tuple[str, str]) -> None:
        """An edge's end of a connection is lost, and what is on its way to it."""
        self.stands.discard(way)
        self.pipes[way[::-1]] = Pipe()

    def take(self, entry: Entry) -> None:
        """What an entry tells."""
        self.tell(entry.kind, entry.words)

    def tell(self, kind: str, words: Sequence[Any]) -> None:
        """What an entry of a kind tells."""
        if kind == "said":
            a, b, octets = words
            if (b, a) in self.stands:
                self.pipes[a, b].put(octets)
        elif kind == "session":
            a, b, state = words
            self.sessions[a, b] = state
            self.told.update(self.shape.over.get(frozenset((a, b)), ()))
            if state.startswith("Ended:"):
                self.close((a, b))
        elif kind == "wire":
            edge, wire, state = words
            self.ends[edge, wire] = state
            self.told.add(wire)
        elif kind == "sent":
            self.packets[words[0]] = words[1:6]
        elif kind == "copied" and words[1] in self.packets:
            self.packets[words[0]] = self.packets[words[1]]
        elif kind == "aged":
            self.packets.pop(words[0], None)
        if kind in ("said", "session", "wire"):
            self.looked.clear()

    def do(self, event: Event) -> None:
        """A whole event."""
        self.begin(event)
        for entry in event.entries:
            self.take(entry)

    def carries(self, wire: Wire) -> bool:
        """Whether a wire is up at both terminal edges, and each session along it at both ends."""
        return all(self.ends[edge, wire.name] == UP for edge in wire.ends()) and self.has_sessions(wire)

    def has_sessions(self, wire: Wire) -> bool:
        """Whether each session along a wire is up at both ends, or nothing tells of any session."""
        return self.sessions_by == UNTOLD or all(self.is_up(a, b) for a, b in wire.segments())

    def may_send(self, edge: str, wire: str) -> bool:
        """Whether an edge that sends a packet on a wire has told that its end is up, or is a switching point of it: so it is in every run."""
        return self.ends.get((edge, wire), UP) == UP

    def changes(self) -> list[Wire]:
        """The wires of which something was told since the last change, and that carry frames now and did not then, or the other way
        round."""
        wires = [wire for wire in map(self.plan.wires.__getitem__, self.told) if self.carries(wire) != (wire.name in self.carrying)]
        self.told.clear()
        return wires

    def change(self, wires: Iterable[Wire]) -> None:
        """These wires carry frames now and did not, or the other way round."""
        self.carrying ^= {wire.name for wire in wires}

    def look(self) -> set[Any]:
        """Looks at the wires of which something was told since the last time, and answers the services of those that changed."""
        wires = self.changes()
        self.change(wires)
        return {wire.service for wire in wires}

    def sites(self, service: str) -> list[str]:
        """The circuits of a service that are on, in the plan's order."""
        if service not in self.sites_on:
            self.sites_on[service] = [site for site in self.shape.of[service].circuits if self.on[site]]
        return self.sites_on[service]

    def is_up(self, a: str, b: str) -> bool:
        """Whether the sessions of two edges are up at both ends."""
        return self.sessions[a, b] == self.sessions.get((b, a)) == OPERATIONAL

    def is_connected(self, a: str, b: str) -> bool:
        """Whether both ends of a connection stand."""
        return {(a, b), (b, a)} <= self.stands

    def is_settled(self, a: str, b: str) -> bool:
        """Whether neither end of a connection stands, or both and nothing is on its way or held between them."""
        ways = ((a, b), (b, a))
        standing = sum(way in self.stands for way in ways)
        return standing == 0 or standing == 2 and all(self.pipes[way].is_drained() for way in ways)

    def unsettled(self, service: str) -> list[tuple[str, str]]:
        """The neighbours of a service between which something of LDP is on its way or held, or one end of the connection is gone and the
        other one stands; none where the service is quiet."""
        key = "unsettled", service
        if key not in self.looked:
            self.looked[key] = [(a, b) for a, b in self.shape.of[service].pairs if not self.is_settled(a, b)]
        found: list[tuple[str, str]] = self.looked[key]
        return found

    def is_calm(self, service: str) -> bool:
        """Whether a service is calm: it is quiet, each two core edges have a mesh wire that carries frames, and each spoke edge exactly
        one spoke that does."""
        key = "calm", service
        if key not in self.looked:
            self.looked[key] = self.looks_calm(service)
        return bool(self.looked[key])

    def looks_calm(self, service: str) -> bool:
        """The same, looked at anew."""
        return not self.unsettled(service) and self.is_full(service)

    def is_full(self, service: str) -> bool:
        """Whether each two core edges of a service have a mesh wire that carries frames, and each spoke edge exactly one spoke that does."""
        shape, carrying = self.shape.of[service], self.up_wires(service)
        meshed = {frozenset(wire.ends()) for wire in carrying if wire.kind == "mesh"}
        spokes = [wire.path[0] for wire in carrying if wire.kind == "spoke"]
        return all(pair in meshed for pair in shape.mesh) and all(spokes.count(edge) == 1 for edge in shape.spoke_edges)

    def up_wires(self, service: str) -> list[Wire]:
        """The wires of a service that carry frames where it is quiet, by what both terminal edges last told of each, as `audit` sees it:
        where both say that a wire is up, so are the sessions along it in every run, and the report of another implementation may tell of
        none."""
        return [wire for wire in self.shape.of[service].wires if all(self.ends[edge, wire.name] == UP for edge in wire.ends())]

    def tells_sessions(self, service: str) -> bool:
        """Whether of each two neighbours of a service that are connected both say that their session is up, and no wire is up over others:
        so it is in every run where the service is quiet, and not in a report that leaves LDP out."""
        key = "sessions", service
        if key not in self.looked:
            connected = [pair for pair in self.shape.of[service].pairs if self.is_connected(*pair)]
            if self.sessions_by == TOLD:
                self.looked[key] = all(self.is_up(*pair) for pair in connected) and all(map(self.carries, self.up_wires(service)))
            else:
                self.looked[key] = not connected and not self.up_wires(service)
        return bool(self.looked[key])

    def joined(self, service: str) -> set[Any]:
        """The pairs of edges of a service between which a flooded frame finds its way by the wires that carried frames when they were
        looked at last, be the service quiet or not: it does not go back on the wire by which it came, and from no mesh wire to another
        one. Each pair is a set of two edges."""
        ways: Ways = {}
        for wire in self.shape.of[service].wires:
            if wire.name in self.carrying:
                a, b = wire.path[0], wire.path[-1]
                ways.setdefault(a, []).append((b, wire))
                ways.setdefault(b, []).append((a, wire))
        pair = self.shape.pair
        return {pair[start, edge] for start in ways for edge in walked(ways, start) if edge != start}


def network_of(plan: Plan, rows: Iterable[Sequence[str]]) -> Network:
    """The network before the first line of a report, whose lines are rows of words. Where they tell of no session, as those of a lab do, a
    session is up while both ends of its connection stand; where they tell of no connection either, nothing is known of any."""
    network = Network(plan)
    kinds = {row[1] if row[0] == ">" else row[0] for row in rows}
    if "session" not in kinds:
        network.sessions_by = CONNECTED if "connect" in kinds else UNTOLD
    return network


class ShapeOfService:
    """What does not change of a service: its wires, its neighbours, its spoke edges, and the pairs that its core edges are."""

    def __init__(self, plan: Plan, service: str) -> None:
        self.wires, self.pairs = plan.wires_of(service), plan.pairs(service)
        self.circuits = plan.circuits_of(service)
        self.spoke_edges = plan.spoke_edges(service)
        cores = plan.core_edges(service)
        self.core_pairs = [(a, b) for place, a in enumerate(cores) for b in cores[place + 1 :]]
        self.mesh = [frozenset(pair) for pair in self.core_pairs]


class Shape:
    """What does not change of a plan: its neighbours, the names of the wires over each two of them, and its services."""

    def __init__(self, plan: Plan) -> None:
        self.pairs = plan.pairs()
        self.pair = {(a, b): frozenset((a, b)) for a in plan.edges for b in plan.edges if a != b}
        self.over: dict[frozenset[str], list[str]] = {frozenset(pair): [] for pair in self.pairs}
        for wire in plan.wires.values():
            for pair in wire.segments():
                self.over[frozenset(pair)].append(wire.name)
        self.of = {service: ShapeOfService(plan, service) for service in plan.services}


def walked(ways: Ways, start: str) -> set[str]:
    """The edges to which a frame finds its way from one. How it goes on depends on the edge and on the wire by which it came; of several mesh
    wires by which it comes to an edge the first one counts for all, since from each it goes by the same spokes."""
    found, seen = {start}, set()
    open_ends: list[tuple[str, Wire | None]] = [(start, None)]
    while open_ends:
        edge, came = open_ends.pop()
        by_mesh = came is not None and came.kind == "mesh"
        for far, wire in ways.get(edge, ()):
            is_mesh = wire.kind == "mesh"
            if wire is came or by_mesh and is_mesh:
                continue
            key = (far, is_mesh or wire.name)
            if key not in seen:
                seen.add(key)
                found.add(far)
                open_ends.append((far, wire))
    return found
