"""Packets of pseudowires in the captures between a lab's edges: from which edge to which one, on which wire, with which frame."""

from __future__ import annotations

from .labels import ROUTER_ALERT
from .lab_sessions import MPLS

TYPE_CHECKING = False
if TYPE_CHECKING:
    from collections.abc import Iterator

    from .capture_reading import Packet
    from .findings import Findings
    from .lab_file import Lab, Row
    from .lab_intake import Missing
    from .lab_sessions import Sessions
    from .lab_wires import WiresOfLdp
    from .plan import Wire

BOTTOM = 0x100
TAG = b"\x81\x00"


class Found:
    """A packet with a frame: the way that it goes, what the capture shows of it, its octets behind the Ethernet header, and the frame."""

    __slots__ = ("way", "roles", "octets", "inner")

    def __init__(self, way: tuple[str, str, Wire], roles: list[str], octets: bytes, inner: bytes) -> None:
        self.way, self.roles, self.octets, self.inner = way, roles, octets, inner


class Links:
    """Reads packets by the labels that the edges have told, and by the stations that they have in each capture."""

    def __init__(self, lab: Lab, sessions: Sessions, wires: WiresOfLdp, findings: Findings, missing: Missing) -> None:
        self.lab, self.sessions, self.wires, self.findings, self.missing = lab, sessions, wires, findings, missing
        self.neighbours: dict[str, set[str]] = {edge: set() for edge in lab.plan.edges}
        for a, b in lab.plan.pairs():
            self.neighbours[a].add(b)
            self.neighbours[b].add(a)
        self.others = 0

    def read(self, row: Row, packet: Packet) -> Found | None:
        """A packet of a pseudowire with a frame; None of another one."""
        octets = packet.octets[14:] if packet.octets[12:14] == MPLS else packet.octets[18:] if packet.octets[16:18] == MPLS else None
        if octets is None:
            return None
        place, entry, alerts = 0, 0, False
        while place + 4 <= len(octets):
            entry = int.from_bytes(octets[place : place + 4], "big")
            place += 4
            if entry & BOTTOM:
                break
            alerts = alerts or entry >> 12 == ROUTER_ALERT
        ends = list(self.ends_of(row, packet))
        known = [(pair, self.wires.labels[(*pair, entry >> 12)]) for pair in ends if (*pair, entry >> 12) in self.wires.labels]
        if len(known) != 1:
            self.is_unknown(row, packet, ends, entry >> 12, len(known))
            return None
        (sender, receiver), (wire, has_word, is_tagged) = known[0]
        inner = inner_of(octets[place:], has_word, is_tagged)
        if alerts or inner is None:
            self.others += 1
            return None
        return Found((sender, receiver, wire), self.sessions.vantage.roles(row, sender, receiver), octets, inner)

    def ends_of(self, row: Row, packet: Packet) -> Iterator[tuple[str, str]]:
        """The edges between which a packet may pass: by the stations of both, or by its direction at the edge of the capture."""
        stations = self.sessions.stations.get(row.number, {})
        target = None if packet.cooked else stations.get(packet.octets[:6])
        source = stations.get(packet.octets[6:12])
        if source is None and packet.direction == "out":
            source = row.at or None
        if target is None and packet.direction == "in":
            target = row.at or None
        if row.link and (source or target) in row.link:
            source = source or next(edge for edge in row.link if edge != target)
            target = next(edge for edge in row.link if edge != source)
        for sender in [source] if source else self.neighbours[target] if target else []:
            for receiver in [target] if target else self.neighbours[sender]:
                if receiver in self.neighbours[sender]:
                    yield sender, receiver

    def is_unknown(self, row: Row, packet: Packet, ends: list[tuple[str, str]], label: int, count: int) -> None:
        """A packet of which the wire is not known."""
        pairs = [frozenset(pair) for pair in ends] or [frozenset(row.link)] * bool(row.link) or [
            frozenset((row.at, other)) for other in self.neighbours.get(row.at, ())
        ]
        self.missing.pairs.update(pairs)
        if not ends:
            text = "the edges that a packet of MPLS passes between are not known: no LDP or OSPF of theirs is in the capture"
            self.findings.tell("stations", row.name, packet.number, text, "let the captures begin before LDP comes up, and write link and at in the row")
        elif count:
            text = f"label {label} is that of several neighbours"
            self.findings.tell("labels", row.name, packet.number, text, "capture each link by itself, with link in the row")
        else:
            text = f"no LDP that was captured tells label {label}, so the packet's pseudowire is not known"
            self.findings.tell("label", row.name, packet.number, text, "let the captures begin before LDP comes up")


def inner_of(octets: bytes, has_word: bool, is_tagged: bool) -> bytes | None:
    """The frame in a packet, without control word and, in tagged mode, tag (RFC 4448 sections 4.3 and 4.6); None of what is no frame."""
    if has_word:
        if len(octets) < 4 or octets[0] >> 4:
            return None
        octets = octets[4:]
    if len(octets) < 14:
        return None
    if is_tagged:
        return octets[:12] + octets[16:] if octets[12:14] == TAG and len(octets) >= 18 else None
    return octets
