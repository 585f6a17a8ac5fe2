"""The lines of a frame: its entry, and then each of its copies behind what it comes of, whatever the clocks say."""

from __future__ import annotations

import heapq

from .lab_frames import NOWHERE

TYPE_CHECKING = False
if TYPE_CHECKING:
    from collections.abc import Iterator

    from .lab_frames import Crossing, Entered, Inner, Leaving
    from .lab_stretches import Stretches
    from .plan import Plan, Wire


class Coming:
    """A copy that has come to an edge, by a circuit or a wire, over so many segments, with what comes of it."""

    __slots__ = ("time", "port", "wire", "hops", "crossing", "used", "leavings", "crossings", "number")

    def __init__(self, time: int, port: str, wire: Wire | None, hops: int, crossing: Crossing | None) -> None:
        self.time, self.port, self.wire, self.hops, self.crossing = time, port, wire, hops, crossing
        self.used: set[str] = set()
        self.leavings: list[Leaving] = []
        self.crossings: list[tuple[Crossing, Coming]] = []
        self.number = 0

    def may_send(self, edge: str, wire: Wire) -> bool:
        """Whether an edge may send this copy by a wire: by no wire back, from a mesh wire by no mesh wire, and as a switching point by
        the same wire alone (RFC 4762 section 4.4, RFC 6073)."""
        if self.wire is None:
            return edge in wire.ends()
        if self.wire is wire or edge not in wire.ends() or edge not in self.wire.ends():
            return self.wire is wire and edge in wire.path[1:-1]
        return not self.wire.kind == wire.kind == "mesh"


class Ways:
    """How many segments lie between edges of a service at least, by its wires."""

    def __init__(self, plan: Plan) -> None:
        self.plan = plan
        self.known: dict[tuple[str, str], dict[str, int]] = {}

    def hops(self, service: str, start: str, end: str) -> int:
        """The least number of segments; 1 where none is known."""
        if (service, start) not in self.known:
            found, heap = {start: 0}, [(0, start)]
            while heap:
                count, edge = heapq.heappop(heap)
                for wire in self.plan.wires_of(service):
                    if edge in wire.ends():
                        far = wire.ends()[wire.ends()[0] == edge]
                        more = count + len(wire.path) - 1
                        if more < found.get(far, 1 << 30):
                            found[far] = more
                            heapq.heappush(heap, (more, far))
            self.known[service, start] = found
        return self.known[service, start].get(end, 1)


class Block:
    """The copies of a frame in the order of causes."""

    def __init__(self, entered: Entered, inner: Inner, clocks: int) -> None:
        self.entered, self.inner, self.clocks = entered, inner, clocks
        edge = inner.edge[entered.circuit]
        self.first = Coming(entered.time, entered.circuit, None, 0, None)
        self.at: dict[str, list[Coming]] = {edge: [self.first]}
        self.loose: list[Leaving] = []
        self.place()

    def place(self) -> None:
        """Gives each packet and each copy that leaves to the copy that it comes of."""
        left = sorted((one for one in self.entered.crossings if one.repeats is None), key=lambda one: one.put if one.put is not None else one.heard or 0)
        comings: dict[int, Coming] = {}
        while left:
            crossing = next((one for one in left if self.cause(one) is not None), left[0])
            left.remove(crossing)
            cause = self.cause(crossing) or self.first
            cause.used.add(crossing.wire.name + crossing.receiver)
            comings[id(crossing)] = self.add(crossing, cause, cause.hops + 1)
        for crossing in self.entered.crossings:
            if crossing.repeats is not None:
                origin = comings[id(crossing.repeats)]
                self.add(crossing, origin, origin.hops)
        for leaving in sorted(self.entered.leavings, key=lambda one: one.time):
            coming = self.cause_of_leaving(leaving)
            if coming is None:
                self.loose.append(leaving)
            else:
                coming.used.add(leaving.circuit)
                coming.leavings.append(leaving)

    def add(self, crossing: Crossing, cause: Coming, hops: int) -> Coming:
        """A packet that comes of a copy, or repeats one; where it is heard, it is a copy at its edge."""
        coming = Coming(crossing.heard or 0, crossing.wire.name, crossing.wire, hops, crossing)
        if crossing.heard is not None:
            self.at.setdefault(crossing.receiver, []).append(coming)
        cause.crossings.append((crossing, coming))
        return coming

    def cause(self, crossing: Crossing) -> Coming | None:
        """The copy that a packet comes of: one that may go this way and has not, else any that came before it."""
        time = crossing.put if crossing.put is not None else crossing.heard or 0
        found = [one for one in self.at.get(crossing.sender, ()) if one.time <= time + self.clocks]
        name = crossing.wire.name + crossing.receiver
        rank = [(not one.may_send(crossing.sender, crossing.wire), name in one.used, one.time, place) for place, one in enumerate(found)]
        return found[min(rank)[3]] if rank else None

    def cause_of_leaving(self, leaving: Leaving) -> Coming | None:
        """The copy at its edge that one which leaves comes of: the first one that has not left there, else the first one."""
        found = self.at.get(self.inner.edge[leaving.circuit], [])
        return next((one for one in found if leaving.circuit not in one.used), found[0] if found else None)


class BlockWriter:
    """Writes the lines of frames."""

    def __init__(self, plan: Plan, inner: Inner, stretches: Stretches, clocks: int) -> None:
        self.plan, self.inner, self.stretches, self.clocks = plan, inner, stretches, clocks
        self.ways = Ways(plan)
        self.wire_at: dict[tuple[str, str], Wire] = {}
        for wire in plan.wires.values():
            for edge in wire.ends():
                self.wire_at.setdefault((wire.service, edge), wire)

    def write(self, entered: Entered, disturbed: bool, are_seen: bool) -> None:
        """All lines of a frame. Where packets are not seen, one is made up, of no octets, which is on its way as long as the flood may
        last. A frame in whose time something else happened has a tick among its lines."""
        out, circuit, octets = self.stretches, entered.circuit, entered.octets.hex()
        service, edge = self.inner.service[circuit], self.inner.edge[circuit]
        block = Block(entered, self.inner, self.clocks) if entered.crossings else None
        loose = block.loose if block is not None else [one for one in entered.leavings if self.inner.edge[one.circuit] != edge]
        wire = self.wire_at.get((service, edge))
        out.event(f"frame {circuit} {octets}")
        if disturbed and wire is None:
            out.event("tick")
        out.entry(f"in {circuit} {entered.number} {octets}", entered.place)
        if block is not None:
            self.tell(block.first, entered)
        else:
            for leaving in entered.leavings:
                if self.inner.edge[leaving.circuit] == edge:
                    self.leave(leaving, entered, 0)
        makes_up = not are_seen or disturbed and (block is None or not block.first.crossings)
        made_up = self.make_up(entered, wire, edge) if makes_up and wire is not None else 0
        if disturbed and wire is not None:
            out.event("tick")
        if block is not None:
            self.follow(block, entered)
        if made_up:
            out.event(f"arrive {made_up}")
        for leaving in loose:
            self.leave(leaving, entered, self.ways.hops(service, edge, self.inner.edge[leaving.circuit]))

    def make_up(self, entered: Entered, wire: Wire, edge: str) -> int:
        """A packet of no octets."""
        peer = wire.path[1] if wire.path[0] == edge else wire.path[-2]
        number = self.next_packet()
        self.stretches.entry(f"sent {number} {edge} {peer} {wire.name} {entered.circuit} {entered.number} 1 ", NOWHERE)
        return number

    def next_packet(self) -> int:
        """The number of the next packet of a stretch."""
        self.stretches.now.packets += 1
        return self.stretches.now.packets

    def tell(self, coming: Coming, entered: Entered) -> None:
        """What comes of a copy: what leaves at the edge's circuits, and what is sent."""
        for leaving in coming.leavings:
            self.leave(leaving, entered, coming.hops)
        for crossing, behind in coming.crossings:
            if crossing.repeats is None:
                behind.number = self.next_packet()
                words = f"{crossing.sender} {crossing.receiver} {crossing.wire.name} {coming.port} {entered.number} {behind.hops}"
                self.stretches.entry(f"sent {behind.number} {words} {crossing.octets.hex()}", crossing.place)

    def leave(self, leaving: Leaving, entered: Entered, hops: int) -> None:
        """A copy leaves."""
        octets = self.inner.at(leaving.circuit, entered.inner) if leaving.octets is None else leaving.octets
        self.stretches.entry(f"left {leaving.circuit} {entered.number} {hops} {octets.hex()}", leaving.place)

    def follow(self, block: Block, entered: Entered) -> None:
        """The packets in the order in which they are heard, each with what comes of it; in the end those that nobody heard."""
        heap: list[tuple[int, int, Coming]] = []
        lost: list[Coming] = []
        for coming in self.sent_of(block.first, heap, lost):
            self.stretches.event(f"arrive {coming.number}")
            self.tell(coming, entered)
        for coming in lost:
            self.stretches.event(f"drop {coming.number}")

    def sent_of(self, first: Coming, heap: list[tuple[int, int, Coming]], lost: list[Coming]) -> Iterator[Coming]:
        """Each packet that is heard, in order; repetitions are told before the packet that is repeated comes."""
        self.put_under_way(first, heap, lost)
        while heap:
            _, _, coming = heapq.heappop(heap)
            yield coming
            self.put_under_way(coming, heap, lost)

    def put_under_way(self, cause: Coming, heap: list[tuple[int, int, Coming]], lost: list[Coming]) -> None:
        """The packets that come of a copy are on their way."""
        for crossing, coming in cause.crossings:
            if crossing.repeats is not None:
                continue
            for again, copied in coming.crossings:
                if again.repeats is crossing:
                    self.stretches.event(f"again {coming.number}")
                    copied.number = self.next_packet()
                    self.stretches.entry(f"copied {copied.number} {coming.number}", again.place)
                    heapq.heappush(heap, (copied.time, copied.number, copied))
            if crossing.heard is None:
                lost.append(coming)
            else:
                heapq.heappush(heap, (coming.time, coming.number, coming))
