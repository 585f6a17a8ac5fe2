"""A run as a capture: what each edge hears of LDP, as TCP, the Hellos that it says, as UDP, and the packets that it sends and receives."""

from __future__ import annotations

import ipaddress

from . import headers, pcapng
from .labels import label_of

TYPE_CHECKING = False
if TYPE_CHECKING:
    from typing import Any

    from .plan import Plan
    from .report import Entry, Event, Report

LDP = 646
FIRST_PORT = 49152
MOST, ALL = 1460, 65535
SECOND = 1_000_000


class Connection:
    """A TCP connection between two edges: the port of its active end, and how many octets each end has put and heard."""

    def __init__(self, active: Any, port: Any) -> None:
        self.active, self.port = active, port
        self.put: dict[str, int] = {}
        self.waiting: dict[str, Any] = {}

    def ports(self, sender: Any) -> tuple[Any, ...]:
        """The source and the destination port of what an edge sends."""
        return (self.port, LDP) if sender == self.active else (LDP, self.port)


class Capture:
    """The packets of a run, an interface an edge, each event a second."""

    def __init__(self, plan: Plan, report: Report) -> None:
        self.plan, self.report = plan, report
        self.number = {edge: place for place, edge in enumerate(plan.edges)}
        self.address = {edge: row["address"] for edge, row in plan.edges.items()}
        self.connections: dict[Any, Connection] = {}
        self.made = 0
        self.packets: dict[Any, Any] = {}
        self.blocks = [pcapng.section(), *(pcapng.interface(edge) for edge in plan.edges)]
        self.time = 0
        self.event: Event | None = None
        self.segments, self.frames, self.hellos = 0, 0, 0
        self.kinds: dict[int, set[str]] = {}

    def make(self) -> bytes:
        """The octets of the whole file."""
        for entry in self.report.front:
            self.take(entry)
        for event in self.report.events:
            self.event, self.time = event, event.number * SECOND
            if event.kind == "settle":
                self.settle(event.words[0], list(event.entries))
                continue
            if not event.is_idle():
                self.begin(event)
            for entry in event.entries:
                self.take(entry)
        return b"".join(self.blocks)

    def write(self, edge: str, octets: bytes, direction: Any) -> None:
        """A packet at an edge's interface, at the next microsecond of the event."""
        comment = f"event {self.event.number}: {self.event.text[:80]}" if self.event else "before the first event"
        self.blocks.append(pcapng.packet(self.number[edge], self.time, octets, direction, comment))
        self.time += 1

    def begin(self, event: Event) -> None:
        """What an event does by itself: a handshake, a delivery, an end that is lost, a packet that arrives."""
        words = event.words
        if event.kind == "connect":
            self.connect(*words)
        elif event.kind == "deliver":
            self.deliver(*words)
        elif event.kind == "cut":
            self.close(*words)
            self.close(*words[::-1])
        elif event.kind == "restart":
            for pair in [pair for pair in self.connections if words[0] in pair]:
                self.close(words[0], *(pair - set(words)))
        elif event.kind == "arrive" and words[0] in self.packets:
            start, end, octets = self.packets.pop(words[0])
            self.mpls(start, end, octets, end, pcapng.INBOUND)
        elif event.kind == "drop":
            self.packets.pop(words[0], None)

    def settle(self, count: int, entries: Any) -> None:
        """The deliveries of a line of `switchover`: of all that waits between the first two edges, in the plan's order, so many times or
        until nothing waits. Behind each stands what its receiver says of it."""
        ways = [way for a, b in self.plan.pairs() for way in ((a, b), (b, a))]
        ways.sort(key=lambda way: (self.number[way[0]], self.number[way[1]]))
        for _ in range(count):
            way = next((way for way in ways if self.waits(*way)), None)
            if way is None:
                break
            self.deliver(*way, ALL)
            while entries and self.is_of(entries[0], *way):
                self.take(entries.pop(0))
        for entry in entries:
            self.take(entry)

    def is_of(self, entry: Entry, sender: Any, receiver: Any) -> bool:
        """Whether the receiver tells it of what it hears from the sender: it answers that edge alone, and of a wire with it."""
        edge, other = entry.words[:2] if entry.words else (None, None)
        return edge == receiver and sender in (self.plan.wires[other].path if entry.kind == "uses" else (other,))

    def waits(self, sender: Any, receiver: Any) -> bool:
        """Whether something waits to be delivered."""
        connection = self.connections.get(frozenset((sender, receiver)))
        return connection is not None and bool(connection.waiting.get(receiver))

    def take(self, entry: Entry) -> None:
        """What an entry tells of a connection or a packet."""
        words = entry.words
        if entry.kind == "said":
            connection = self.connections.get(frozenset(words[:2]))
            if connection is not None and words[1] in connection.waiting:
                connection.waiting[words[1]] += bytes.fromhex(words[2])
        elif entry.kind == "session" and words[2].startswith("Ended:"):
            self.close(*words[:2])
        elif entry.kind == "sent":
            octets = bytes.fromhex(words[7])
            self.kinds.setdefault(label_of(words[7]), set()).add(self.kind_of(words[3], words[5]))
            self.packets[words[0]] = (words[1], words[2], octets)
            self.mpls(words[1], words[2], octets, words[1], pcapng.OUTBOUND)
        elif entry.kind == "hello":
            ends = self.address[words[1]], self.address[words[2]]
            self.hellos += 1
            self.write(words[1], headers.udp(*ends, (LDP, LDP), bytes.fromhex(words[3])), pcapng.OUTBOUND)
        elif entry.kind == "copied" and words[1] in self.packets:
            self.packets[words[0]] = self.packets[words[1]]
        elif entry.kind == "aged":
            self.packets.pop(words[0], None)

    def kind_of(self, wire: Any, origin: int) -> str:
        """What Wireshark is told of a packet's label: whether a control word follows, or nothing of a ping that has none, which its
        own guess finds."""
        if self.plan.wires[wire].near["control_word"]:
            return "pwethcw"
        return "pwethnocw" if origin else ""

    def mpls(self, start: str, end: str, octets: bytes, where: Any, direction: Any) -> None:
        """A packet of a pseudowire between two neighbours (RFC 4448, RFC 3032)."""
        self.frames += 1
        self.write(where, headers.ethernet(self.address[start], self.address[end], headers.MPLS, octets), direction)

    def decode_as(self) -> list[Any]:
        """What tells Wireshark of each label whether a control word follows it, which no packet says; labels in ranges. A label
        that stands for both at two edges, or for a ping without a control word, is left to Wireshark."""
        ranges: list[list[Any]] = []
        for label, kinds in sorted(self.kinds.items()):
            kind = min(kinds)
            if "" in kinds or len(kinds) > 1:
                continue
            if ranges and ranges[-1][1:] == [label - 1, kind]:
                ranges[-1][1] = label
            else:
                ranges.append([label, label, kind])
        spans = [(str(first) if first == last else f"{first}-{last}", kind) for first, last, kind in ranges]
        return [word for span, kind in spans for word in ("-d", f"mpls.label=={span},{kind}")]

    def segment(self, sender: Any, receiver: Any, flags: int, octets: bytes = b"") -> None:
        """A segment as its receiver hears it; each end acknowledges what it heard of the other one."""
        connection = self.connections[frozenset((sender, receiver))]
        counts = (connection.put[sender], connection.put[receiver] if flags & headers.ACK else 0)
        frame = headers.tcp(self.address[sender], self.address[receiver], connection.ports(sender), counts, flags, octets)
        self.write(receiver, frame, pcapng.INBOUND)
        connection.put[sender] += len(octets) + bool(flags & (headers.SYN | headers.FIN))

    def connect(self, a: str, b: str) -> None:
        """The handshake, which the edge with the larger address begins (RFC 5036 section 2.5.2)."""
        active, passive = sorted((a, b), key=lambda edge: ipaddress.IPv4Address(self.address[edge]), reverse=True)
        connection = Connection(active, FIRST_PORT + self.made % 16384)
        self.made += 1
        connection.put, connection.waiting = {a: 0, b: 0}, {a: b"", b: b""}
        self.connections[frozenset((a, b))] = connection
        self.segment(active, passive, headers.SYN)
        self.segment(passive, active, headers.SYN | headers.ACK)
        self.segment(active, passive, headers.ACK)

    def deliver(self, sender: Any, receiver: Any, count: int) -> None:
        """Octets that are delivered, in segments."""
        connection = self.connections.get(frozenset((sender, receiver)))
        if connection is None:
            return
        octets = connection.waiting.get(receiver, b"")
        connection.waiting[receiver] = octets[count:]
        for at in range(0, len(octets[:count]), MOST):
            self.segments += 1
            self.segment(sender, receiver, headers.PSH | headers.ACK, octets[:count][at : at + MOST])

    def close(self, edge: str, peer: str) -> None:
        """An edge's end is lost: what is on its way to it is so too. The connection goes once both ends are gone."""
        connection = self.connections.get(frozenset((edge, peer)))
        if connection is None or edge not in connection.waiting:
            return
        del connection.waiting[edge]
        if peer in connection.waiting:
            return
        self.segment(edge, peer, headers.RST | headers.ACK)
        del self.connections[frozenset((edge, peer))]
