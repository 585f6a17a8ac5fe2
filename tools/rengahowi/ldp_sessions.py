"""The LDP sessions of a capture: both sides in order, each message in words, and what the pseudowires come to by it."""

from __future__ import annotations

from typing import NamedTuple

from .program import decoded
from .tshark import Segment, whole

TYPE_CHECKING = False
if TYPE_CHECKING:
    from typing import Any

    from .plan import Plan

# The types of pseudowires (RFC 4446 section 3.2), and the failures and wishes of a status (sections 3.5, RFC 6870).
TYPES = {"5": "raw", "4": "tagged"}
STATUSES = {
    **{0x01: "not forwarding", 0x02: "site cannot receive", 0x04: "site cannot send", 0x08: "network cannot receive"},
    **{0x10: "network cannot send", 0x20: "standby", 0x40: "asks to switch over"},
}
FAILURES = 0x1F
# What a fatal or advisory status says (RFC 5036 section 3.9).
CODES = {
    **{0x01: "bad LDP identifier", 0x02: "bad version", 0x03: "bad PDU length", 0x04: "unknown message type", 0x05: "bad message length"},
    **{0x06: "unknown TLV", 0x07: "bad TLV length", 0x08: "malformed TLV", 0x09: "hold timer expired", 0x0A: "shutdown", 0x0C: "unknown FEC"},
    **{0x10: "no Hello", 0x14: "KeepAlive timer expired", 0x16: "missing parameters", 0x18: "bad KeepAlive Time", 0x28: "PW status"},
}
PLAIN = {
    **{"LabelMapping": "Label Mapping", "LabelWithdraw": "Label Withdraw", "LabelRelease": "Label Release", "LabelRequest": "Label Request"},
    **{"AddressWithdraw": "Address Withdraw", "LabelAbortRequest": "Label Abort Request"},
}


class Said(NamedTuple):
    """A PDU: the packet and the time by which it is whole, who said it to whom, and its octets."""

    packet: int
    time: float
    source: str
    destination: str
    octets: bytes


class Side:
    """What one end of a connection says: its octets in their order, each once, however its segments came."""

    def __init__(self) -> None:
        self.octets, self.next, self.begun = b"", 0, False
        self.waiting: dict[int, bytes] = {}

    def take(self, segment: Segment) -> list[bytes]:
        """The PDUs that are whole by a segment."""
        if not self.begun:
            self.begun, self.next = True, segment.place
        self.waiting.setdefault(segment.place, segment.octets)
        for place in sorted(self.waiting):
            octets = self.waiting[place]
            if place <= self.next:
                new = octets[self.next - place :]
                self.octets, self.next = self.octets + new, self.next + len(new)
                del self.waiting[place]
        found = []
        while whole(self.octets[: size_of(self.octets)]):
            size = size_of(self.octets)
            found.append(self.octets[:size])
            self.octets = self.octets[size:]
        return found


def size_of(octets: bytes) -> int:
    """How many octets the first PDU of a stream has, or as many as are needed to tell."""
    return 4 + int.from_bytes(octets[2:4], "big") if len(octets) >= 4 else 4


def sessions_of(segments: list[Segment]) -> tuple[dict[int, list[Said]], dict[tuple[int, str], int]]:
    """The PDUs of each connection in order; and how many octets are left over of what an end said."""
    sides: dict[tuple[int, str], Side] = {}
    found: dict[int, list[Said]] = {}
    for segment in segments:
        side = sides.setdefault((segment.stream, segment.source), Side())
        for octets in side.take(segment):
            found.setdefault(segment.stream, []).append(Said(segment.packet, segment.time, segment.source, segment.destination, octets))
        found.setdefault(segment.stream, [])
    left = {key: len(side.octets) + sum(map(len, side.waiting.values())) for key, side in sides.items() if side.octets or side.waiting}
    return found, left


class Content(NamedTuple):
    """What an end tells of a pseudowire: its label, its type, whether it has a control word, its MTU, its status and its group."""

    label: str
    kind: str
    control_word: bool
    mtu: str
    status: int
    group: str


class Wires:
    """The pseudowires of a session by their PW IDs: what each end has told, and what they come to by that."""

    def __init__(self) -> None:
        self.told: dict[tuple[str, str], Content] = {}

    def take(self, source: str, parts: dict[str, str], name: str) -> str | None:
        """What an end tells in a message; the PW ID that it is about, None where it is about none, or all of a group."""
        if "fec" not in parts or name not in ("LabelMapping", "Notification", "LabelWithdraw"):
            return None
        bit, kind, group, number = parts["fec"].split("/")
        status = int(parts.get("status", "0"))
        if name == "LabelMapping":
            self.told[source, number] = Content(parts.get("label", "-"), kind, bit == "1", parts.get("mtu", "0"), status, group)
            return number
        for key in [key for key, content in self.told.items() if key[0] == source and (key[1] == number or number == "*" and content.group == group)]:
            if name == "LabelWithdraw":
                del self.told[key]
            elif "status" in parts:
                self.told[key] = self.told[key]._replace(status=status)
        return number if number != "*" else None

    def state(self, ends: tuple[str, str], number: str, names: dict[str, str]) -> str:
        """What a pseudowire comes to, by what both ends have told (RFC 8077 sections 6 and 7)."""
        both = [self.told.get((end, number)) for end in ends]
        missing = [names.get(end, end) for end, content in zip(ends, both) if content is None]
        if missing:
            return f"{' and '.join(missing)} told no label"
        a, b = (content for content in both if content is not None)
        if a.control_word != b.control_word:
            return "down: one has a control word, the other none"
        if a.kind != b.kind:
            return f"down: types {TYPES.get(a.kind, a.kind)} and {TYPES.get(b.kind, b.kind)}"
        if "0" not in (a.mtu, b.mtu) and a.mtu != b.mtu:
            return f"down: MTU {a.mtu} and {b.mtu}"
        said = [f"{names.get(end, end)} says {status_of(content.status)}" for end, content in zip(ends, (a, b)) if content.status]
        failed = any(content.status & FAILURES for content in (a, b))
        return ("down: " if failed else "standby: " if said else "up") + ", ".join(said)


def status_of(status: int) -> str:
    """The bits of a status, in words."""
    known = [text for bit, text in STATUSES.items() if status & bit]
    rest = status & ~sum(STATUSES)
    return " and ".join(known + ([f"0x{rest:x}"] if rest else [])) or "no failure"


def parts_of(line: str) -> tuple[str, dict[str, str]]:
    """The name and the parts of a line of `decode`."""
    name, *words = line.split(" ")
    return name, dict(word.split("=", 1) for word in words if "=" in word)


def words_of(line: str, wires: dict[str, str]) -> str:
    """A line of `decode` in words."""
    name, parts = parts_of(line)
    found = [PLAIN.get(name, name)]
    if "session" in parts:
        _, keepalive, _, _, _, most, receiver = parts["session"].split("/")
        found.append(f"to {receiver.partition(':')[0]}, KeepAlive Time {keepalive}, Max PDU Length {most}")
    if "code" in parts:
        fatal, _, data, _, _ = parts["code"].split("/")
        found.append(f"{'fatal' if fatal == '1' else 'advisory'}: {CODES.get(int(data), f'status 0x{int(data):x}')}")
    if "fec" in parts:
        found.append(pseudowire(parts, wires, name == "LabelMapping"))
    if "label" in parts:
        found.append(f"label {parts['label']}")
    if "status" in parts:
        found.append(f"status {status_of(int(parts['status']))}")
    if "macs" in parts:
        count = parts["macs"].partition("/")[0]
        found.append("all addresses that were not learned by it" if count == "0" else f"{count} addresses")
    if "why" in parts or "type" in parts:
        found.append(" ".join(f"{key}={parts[key]}" for key in ("type", "why") if key in parts))
    return ", ".join(found)


def pseudowire(parts: dict[str, str], wires: dict[str, str], is_mapping: bool) -> str:
    """The pseudowire of a message, and what a mapping offers of it."""
    bit, kind, group, number = parts["fec"].split("/")
    name = f" ({wires[number]})" if number in wires else ""
    found = [f"PW {number}{name}" if number != "*" else f"all PWs of group {group}"]
    if is_mapping:
        found[0] += f" {TYPES.get(kind, f'type {kind}')}"
        found.append("control word" if bit == "1" else "no control word")
        found.append(f"MTU {parts['mtu']}" if "mtu" in parts else "no MTU")
        found += [f"{key} {parts[key]}" for key in ("vlan", "vccv", "description") if key in parts]
    return ", ".join(found)


def rows_of(pdus: list[Said], plan: Plan | None) -> list[dict[str, Any]]:
    """A row for each message of a connection: when, by whom, what, and what its pseudowire comes to by it."""
    wires = Wires()
    rows: list[dict[str, Any]] = []
    names = {row["address"]: name for name, row in plan.edges.items()} if plan is not None else {}
    for said, lines in zip(pdus, decoded(pdu.octets for pdu in pdus) or [[] for _ in pdus]):
        ends = said.source, said.destination
        known = wires_between(plan, [names.get(end, "") for end in ends])
        for line in lines:
            name, parts = parts_of(line)
            number = wires.take(said.source, parts, name)
            first, second = sorted(ends)
            rows.append({
                "time": said.time, "packet": said.packet, "from": names.get(said.source, said.source), "to": names.get(said.destination, said.destination),
                "message": words_of(line, known), "decoded": line,
                "pseudowire": None if number is None else {"pw_id": int(number), "state": wires.state((first, second), number, names)},
            })  # fmt: skip
    return rows


def wires_between(plan: Plan | None, edges: list[str]) -> dict[str, str]:
    """The names of the wires of two edges by their PW IDs."""
    if plan is None:
        return {}
    return {str(wire.pw_id): wire.name for wire in plan.wires.values() if any(set(pair) == set(edges) for pair in wire.segments())}
