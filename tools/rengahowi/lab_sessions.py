"""What the captures of a lab show of LDP (RFC 5036): the connections between its edges, what each edge said, and when the other one had it."""

from __future__ import annotations

from .capture_reading import Reader
from .command import Fault
from .program import decoded
from .tcp_streams import Connection, Connections

TYPE_CHECKING = False
if TYPE_CHECKING:
    from collections.abc import Iterator

    from .findings import Findings
    from .lab_file import Lab, Row
    from .tcp_streams import Half

LDP = 646
IPV4, MPLS, TAGGED = b"\x08\x00", b"\x88\x47", b"\x81\x00"
TCP = 6
# The head of a PDU: its version and its length, the sender's address and its label space.
HEAD = 10


class Step:
    """Something that happens to a session: an event's or an entry's words, the octets of a PDU or how many octets come, and of a PDU
    that was said or is heard its messages as the program reads them. `order` tells steps of one time apart."""

    __slots__ = ("time", "order", "kind", "edge", "peer", "octets", "count", "messages", "place")

    def __init__(self, time: int, order: int, kind: str, edge: str, peer: str, octets: bytes = b"", count: int = 0) -> None:
        self.time, self.order, self.kind, self.edge, self.peer = time, order, kind, edge, peer
        self.octets, self.count = octets, count
        self.messages: list[str] = []


class Vantage:
    """Where each two neighbours were captured: at which of the two, or between them."""

    def __init__(self, lab: Lab) -> None:
        self.places: dict[frozenset[str], set[str]] = {frozenset(pair): set() for pair in lab.plan.pairs()}
        for row in lab.captures:
            if row.is_port():
                continue
            for pair, places in self.places.items():
                if pair == set(row.link) or not row.link and row.at in pair:
                    places.add(row.at if row.at in pair else "")

    def are_seen(self, a: str, b: str) -> bool:
        """Whether there is a capture of what passes between two neighbours."""
        return bool(self.places.get(frozenset((a, b))))

    def roles(self, row: Row, sender: str, receiver: str) -> list[str]:
        """What a capture shows of what a sender sends: what was put, what was heard, or both, where no other one is nearer to that end."""
        places = self.places.get(frozenset((sender, receiver)), set())
        here = row.at if row.at in (sender, receiver) else ""
        near = (sender, "", receiver), (receiver, "", sender)
        best = [next((place for place in order if place in places), None) for order in near]
        return [role for role, place in zip(("put", "heard"), best) if place == here]


class Sessions:
    """Reads all captures between edges for LDP, and for the stations that the edges have there."""

    def __init__(self, lab: Lab, findings: Findings) -> None:
        self.lab, self.findings, self.vantage = lab, findings, Vantage(lab)
        self.edge_of = {bytes(map(int, row["address"].split("."))): edge for edge, row in lab.plan.edges.items()}
        self.address_of = {edge: address for address, edge in self.edge_of.items()}
        self.connections: dict[frozenset[str], Connections] = {frozenset(pair): Connections() for pair in lab.plan.pairs()}
        # By capture the edge that has a station's address there.
        self.stations: dict[int, dict[bytes, str]] = {}
        self.octets = 0

    def read(self) -> list[Step]:
        """What happened to the sessions, in the order of the times."""
        for row in self.lab.captures:
            if not row.is_port():
                self.read_row(row)
        steps = [step for pair in self.connections.values() for step in self.steps_of(pair)]
        steps.sort(key=lambda step: (step.time, step.order))
        told = [step for step in steps if step.kind == "said"]
        for step, messages in zip(told, self.messages_of([step.octets for step in told])):
            step.messages = messages
        return steps

    def read_row(self, row: Row) -> None:
        """Takes the segments of LDP out of a capture, and notes which edge sends from which station."""
        stations = self.stations.setdefault(row.number, {})
        reader = Reader(row.path, row.name, self.findings.__class__())
        for packet in reader.packets():
            octets = packet.octets
            if octets[12:14] != IPV4 or len(octets) < 34:
                continue
            sender = self.edge_of.get(octets[26:30])
            if sender is None or row.link and sender not in row.link:
                continue
            if not packet.cooked or packet.direction == "in":
                stations.setdefault(octets[6:12], sender)
            if octets[23] == TCP and LDP.to_bytes(2, "big") in (octets[34:36], octets[36:38]):
                self.take(row, packet.number, packet.time + row.skew, octets[14:])
        self.octets += reader.octets

    def take(self, row: Row, number: int, time: int, octets: bytes) -> None:
        """A segment of LDP in an IPv4 packet."""
        from dpkt.ip import IP  # type: ignore[import]

        packet = IP(octets)
        segment = packet.data
        sender, receiver = self.edge_of.get(packet.src), self.edge_of.get(packet.dst)
        if isinstance(segment, bytes) or sender is None or receiver is None or frozenset((sender, receiver)) not in self.connections:
            return
        ends = (sender, segment.sport), (receiver, segment.dport)
        found = self.connections[frozenset((sender, receiver))]
        connection = found.take(ends, self.vantage.roles(row, sender, receiver), segment.seq, segment.flags, bytes(segment.data), time)
        connection.seen = connection.seen or (row.name, number)

    def messages_of(self, pdus: list[bytes]) -> list[list[str]]:
        """The messages of each PDU, as the program decodes them; none of one that it refuses."""
        found: list[list[str]] = []
        while len(found) < len(pdus):
            lines = decoded(pdus[len(found) :])
            if lines is None:
                raise Fault("the captures have LDP, which the program decodes: run bin/vplsnet once, which builds it")
            good = next((place for place, messages in enumerate(lines) if not messages), len(lines))
            found += lines[: good + 1]
        return found

    def steps_of(self, found: Connections) -> Iterator[Step]:
        """What happened in the connections of two edges. Where one begins while an end of the one before stands, that is lost."""
        standing: set[str] = set()
        found.found.sort(key=lambda one: one.time)
        if found.found and not found.found[-1].is_whole:
            a, b = found.found[-1].ends
            text = f"the LDP connection of {a} and {b} began before it, so its labels are not known"
            cure = "begin the captures before LDP comes up, or clear the neighbours (clear mpls ldp neighbor)"
            self.findings.tell("begun", *(found.found[-1].seen or (self.lab.path, 0)), text, cure)
        for connection in found.found:
            a, b = connection.ends
            for end, other in ((a, b), (b, a)):
                if end in standing:
                    yield Step(connection.time, 0, "lose", end, other)
            yield Step(connection.time, 1, "connect", a, b)
            standing = {a, b}
            until = min((one.time for one in found.found if one.time > connection.time), default=None)
            for step in self.steps_in(connection):
                if until is None or step.time < until:
                    standing -= {step.edge} if step.kind == "lose" else set()
                    yield step

    def steps_in(self, connection: Connection) -> Iterator[Step]:
        """What was said, heard and lost in a connection."""
        lost: dict[str, int] = {}
        for sender, receiver in (connection.ends, connection.ends[::-1]):
            put, heard = connection.halves[sender, "put"], connection.halves[sender, "heard"]
            for half in (put, heard):
                if half.waiting:
                    text = f"octets of LDP from {sender} to {receiver} are missing, so what they say behind is not known"
                    self.findings.tell(f"gap {sender} {receiver}", self.lab.path, 0, text, "give tcpdump a larger buffer (-B 65536)")
                    yield Step(min(time for _, time in half.waiting.values()), 4, "gap", sender, receiver)
            yield from self.talk(sender, receiver, put, heard)
            for end, half in ((sender, put), (receiver, heard)):
                if half.over is not None:
                    lost[end] = min(half.over, lost.get(end, half.over))
        for end, time in lost.items():
            other = connection.ends[connection.ends[0] == end]
            yield Step(time, 5, "lose", end, other)

    def talk(self, sender: str, receiver: str, put: Half, heard: Half) -> Iterator[Step]:
        """What a sender said and a receiver heard: each PDU as its first octet was put, each piece as it came."""
        whole = put if len(put.octets) >= len(heard.octets) else heard
        for first, last in pdus_in(bytes(whole.octets), self.address_of[sender]):
            time = (put if first < len(put.octets) else heard).time_at(first)
            yield Step(time, 2, "said", sender, receiver, bytes(whole.octets[first:last]))
        before = 0
        for end, time in zip(heard.ends, heard.times):
            put_at = put.time_at(before) if before < len(put.octets) else time
            yield Step(max(time, put_at), 3, "deliver", sender, receiver, count=end - before)
            before = end


def pdus_in(octets: bytes, address: bytes) -> Iterator[tuple[int, int]]:
    """Where the PDUs of a stream begin and end (RFC 5036 section 3.1); the last one may be a part. Where the stream begins within a PDU,
    the first one is found by the sender's identifier, and what stands before it is a part by itself."""
    place = 0
    while place < len(octets):
        if octets[place : place + 2] != b"\0\1" or len(octets) >= place + 8 and octets[place + 4 : place + 8] != address:
            found = octets.find(address + b"\0\0", place + 1) - 4
            found = found if found > place else len(octets)
            yield place, found
            place = found
            continue
        end = place + 4 + int.from_bytes(octets[place + 2 : place + 4], "big") if len(octets) >= place + 4 else len(octets)
        yield place, min(end, len(octets))
        place = end
