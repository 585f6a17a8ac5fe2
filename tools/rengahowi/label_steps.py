"""The labels that neighbours on a wire have told each other, as a report tells what they say and what is delivered (RFC 8077 section 6)."""

from __future__ import annotations

from collections import deque

from .learned import FEC, FIRST_TLV, PW_ID, tlvs_of

TYPE_CHECKING = False
if TYPE_CHECKING:
    from collections.abc import Callable, Iterable

    from .network import Network, Pipe
    from .plan import Plan

# The types of Label Mapping, Label Withdraw and Label Release, and of the TLV of a Generic Label (RFC 5036 sections 3.4.2.1 and 3.7).
MAPPING, WITHDRAW, RELEASE, GENERIC = "0400", "0402", "0403", "0200"
# Where the type of a PDU's message stands, in hexadecimal.
TYPE = slice(20, 24)
# For so many ticks a number rests, and so many an edge keeps of those that it advertises no longer.
REST, MOST = 64, 4096


class Labels:
    """What is told and heard, by edge, neighbour and wire."""

    def __init__(self, plan: Plan, network: Network, put: Callable[[str, str], None]) -> None:
        self.network, self.put = network, put
        self.wires: dict[tuple[str, str, int], str] = {}
        self.over: dict[tuple[str, str], list[str]] = {}
        for wire in plan.wires.values():
            for a, b in wire.segments():
                for way in ((a, b), (b, a)):
                    self.wires[(*way, wire.pw_id)] = wire.name
                    self.over.setdefault(way, []).append(wire.name)
        self.groups = {(edge, name): wire.offer(edge)["group"] for name, wire in plan.wires.items() for edge in wire.ends()}
        # What is on its way from one edge to another, with the pipe that it is in; of other messages nothing.
        self.waiting: dict[tuple[str, str], tuple[Pipe, deque[str]]] = {}
        self.told: dict[tuple[str, str, str], str] = {}
        # The numbers of each edge that it advertises no longer, each with the peer that it waits for; those that rest by the tick of their end.
        self.kept: dict[str, dict[str, str]] = {edge: {} for edge in plan.edges}
        self.resting: dict[int, list[tuple[str, str]]] = {}

    def copy(self, network: Network, put: Callable[[str, str], None]) -> Labels:
        """The same over a copy of the network."""
        made = Labels.__new__(Labels)
        made.network, made.put = network, put
        made.wires, made.over, made.groups = self.wires, self.over, self.groups
        pipes = self.network.pipes
        made.waiting = {way: (network.pipes[way], deque(kept)) for way, (pipe, kept) in self.waiting.items() if pipes[way] is pipe}
        made.told = self.told.copy()
        made.kept = {edge: numbers.copy() for edge, numbers in self.kept.items()}
        made.resting = {tick: rows.copy() for tick, rows in self.resting.items()}
        return made

    def say(self, a: str, b: str, octets: str) -> None:
        """An edge says a message to another one."""
        kind = octets[TYPE]
        if (b, a) in self.network.stands:
            pipe = self.network.pipes[a, b]
            if (a, b) not in self.waiting or self.waiting[a, b][0] is not pipe:
                self.waiting[a, b] = pipe, deque()
            self.waiting[a, b][1].append(octets if kind in (MAPPING, WITHDRAW, RELEASE) else "")
        if kind == MAPPING:
            for wire, label in self.named(a, b, a, octets):
                self.tell(a, wire, b, label)
        elif kind == WITHDRAW:
            for wire, _ in self.named(a, b, a, octets):
                if (a, wire, b) in self.told:
                    self.tell(a, wire, b, self.told[a, wire, b].rstrip("!") + "!")

    def deliver(self, a: str, b: str, count: int) -> None:
        """So many messages from one edge have come to another one."""
        if (a, b) not in self.waiting or self.waiting[a, b][0] is not self.network.pipes[a, b]:
            return
        messages = self.waiting[a, b][1]
        for octets in [messages.popleft() for _ in range(min(count, len(messages)))]:
            kind = octets[TYPE]
            sender = b if kind == RELEASE else a
            for wire, label in self.named(a, b, sender, octets):
                if kind == RELEASE:
                    if label in ("0", self.told.get((b, wire, a), "").rstrip("!")):
                        self.tell(b, wire, a, "")
                else:
                    self.put(f"heard {b} {wire} {a}", label if kind == MAPPING else "")

    def named(self, a: str, b: str, sender: str, octets: str) -> Iterable[tuple[str, str]]:
        """The wires that a message between two edges names, each with its label: one by its PW ID, or all of a group of who told them."""
        tlvs = tlvs_of(octets[FIRST_TLV:])
        fec, label = tlvs.get(FEC, ""), str(int(tlvs.get(GENERIC, "0") or "0", 16))
        if fec[:2] != PW_ID or octets[TYPE] == RELEASE and fec[6:8] == "00":
            return []
        if fec[6:8] == "00":
            group = int(fec[8:16] or "0", 16)
            return [(wire, label) for wire in self.over.get((a, b), ()) if self.groups.get((sender, wire)) == group]
        wire = self.wires.get((a, b, int(fec[16:24] or "0", 16)))
        return [] if wire is None else [(wire, label)]

    def tell(self, edge: str, wire: str, peer: str, label: str) -> None:
        """An edge tells a label, or none any more: then its number waits for the peer."""
        if label:
            self.told[edge, wire, peer] = label
            if self.kept[edge].pop(label, None) is not None:
                self.put(f"label {edge} {label}", "")
        else:
            number = self.told.pop((edge, wire, peer), "").rstrip("!")
            if number and len(self.kept[edge]) < MOST:
                self.keep(edge, number, peer, f"waits {peer}")
        self.put(f"told {edge} {wire} {peer}", label)

    def keep(self, edge: str, number: str, peer: str, state: str) -> None:
        """A number is not advertised, and is in this state; the peer is none where it waits for none."""
        self.kept[edge][number] = peer
        self.put(f"label {edge} {number}", state)

    def connect(self, a: str, b: str, tick: int) -> None:
        """A connection begins: the numbers that wait for its peer rest from now on."""
        for edge, peer in ((a, b), (b, a)):
            for number in [number for number, waits in self.kept[edge].items() if waits == peer]:
                self.keep(edge, number, "", f"rests {tick}")
                self.resting.setdefault(tick + REST, []).append((edge, number))

    def tick(self, tick: int) -> None:
        """A tick: the rests that end with it are over."""
        for edge, number in self.resting.pop(tick, ()):
            if self.kept[edge].get(number) == "":
                self.keep(edge, number, "", "free")

    def end(self, edge: str, peer: str) -> None:
        """A session has ended at an edge, or begins anew."""
        for wire in self.over.get((edge, peer), ()):
            self.tell(edge, wire, peer, "")
            self.put(f"heard {edge} {wire} {peer}", "")
