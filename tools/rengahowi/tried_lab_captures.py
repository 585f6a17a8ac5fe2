"""Writes what a run shows as the captures of a lab, for the checks of `tools/from-lab`: each frame at its port, and LDP and packets at both
ends of each link. It shares nothing with what from-lab reads by."""

from __future__ import annotations

import pathlib
import random
import struct

from . import headers, pcapng
from .writing import value

TYPE_CHECKING = False
if TYPE_CHECKING:
    from typing import Any

    from .plan import Plan

LDP, FIRST_PORT = 646, 40000
START = 1_700_000_000 * 1_000_000
EVENT = 1_000_000
WINDOW = 1_000_000_000
MICROSECONDS, NANOSECONDS = 0xA1B2C3D4, 0xA1B23C4D


class CaptureFile:
    """A capture, classic or pcapng: the packets that it has so far."""

    def __init__(self, path: pathlib.Path, kind: str) -> None:
        self.path, self.kind, self.count = path, kind, 0
        self.parts = [pcapng.section(), pcapng.interface(path.stem)] if kind == "pcapng" else [self.head()]

    def head(self) -> bytes:
        """The head of a file in the classic format, in either order of octets, by microseconds or nanoseconds."""
        order, magic = (">" if "big" in self.kind else "<"), NANOSECONDS if "nano" in self.kind else MICROSECONDS
        return struct.pack(f"{order}IHHiIII", magic, 2, 4, 0, 0, 262144, 1)

    def add(self, time: int, octets: bytes, direction: int) -> int:
        """A packet at a time in microseconds. Answers its number."""
        self.count += 1
        if self.kind == "pcapng":
            self.parts.append(pcapng.packet(0, time, octets, direction, "made for a check"))
        else:
            order, units = (">" if "big" in self.kind else "<"), 1000 if "nano" in self.kind else 1
            self.parts.append(struct.pack(f"{order}IIII", time // 1_000_000, time % 1_000_000 * units, len(octets), len(octets)) + octets)
        return self.count

    def close(self) -> None:
        """Writes the file."""
        self.path.write_bytes(b"".join(self.parts))


class Talk:
    """The connection of two edges: what each has put and heard, and which ends stand."""

    def __init__(self, active: str, passive: str, port: int, rng: random.Random) -> None:
        self.active, self.port = active, port
        self.first = {active: rng.randrange(1 << 32), passive: rng.randrange(1 << 32)}
        self.put, self.heard = {active: 0, passive: 0}, {active: 0, passive: 0}
        self.waiting = {active: b"", passive: b""}
        self.stands = {active, passive}


class LabCaptures:
    """Follows the lines of a report, and writes a folder with captures and a LAB.toml. `places` has of each line that is a frame at a port,
    or a packet that is put, the file and the packet."""

    def __init__(self, plan: Plan, folder: pathlib.Path, seed: int, links: bool = True, table: bool = True) -> None:
        self.plan, self.folder, self.rng, self.links, self.table = plan, folder, random.Random(seed), links, table
        self.files: dict[tuple[Any, ...], CaptureFile] = {}
        self.talks: dict[frozenset[str], Talk] = {}
        self.packets: dict[str, tuple[str, str, bytes]] = {}
        self.log: list[str] = []
        self.places: dict[int, tuple[str, int]] = {}
        self.ends: dict[str, list[str]] = {edge: [wire.name for wire in plan.wires.values() if edge in wire.ends()] for edge in plan.edges}
        self.time, self.made = START, 0
        for circuit in plan.circuits:
            kinds = [("pcapng", ("both",)), (self.rng.choice(["classic", "classic big", "classic nano"]), ("in", "out"))]
            kind, ways = self.rng.choice(kinds)
            for way in ways:
                self.files["port", circuit, way] = CaptureFile(folder / f"{circuit}-{way}.pcap", kind)
        # A capture for each end of each link, or one for all links of an edge.
        self.by_edge = links and self.rng.random() < 0.3
        for at in plan.edges if self.by_edge else ():
            self.files["edge", at, ""] = CaptureFile(folder / f"at-{at}.pcap", self.rng.choice(["pcapng", "classic"]))
        for a, b in plan.pairs() if links and not self.by_edge else ():
            for at in (a, b):
                self.files["link", frozenset((a, b)), at] = CaptureFile(folder / f"{a}-{b}-at-{at}.pcap", self.rng.choice(["pcapng", "classic"]))

    def write(self, lines: list[str]) -> None:
        """Writes everything of a report's lines."""
        idle = {number - 1 for number, line in enumerate(lines) if line == "idle"}
        for number, line in enumerate(lines[1:-1], 1):
            words = line.split(" ")
            if words[0] == ">":
                self.time = START + number * EVENT
                if number not in idle:
                    self.event(words[1:])
            else:
                self.time += 1
                self.entry(number, words)
        for file in self.files.values():
            file.close()
        (self.folder / "told.log").write_text("".join(f"{line}\n" for line in self.log), encoding="ascii")
        (self.folder / "LAB.toml").write_text(self.lab(), encoding="ascii")

    def lab(self) -> str:
        """The text of LAB.toml. In a run all that an edge does is done at once, and a packet may take any time."""
        rows: list[tuple[str, dict[str, Any]]] = []
        for (kind, name, way), file in self.files.items():
            row: dict[str, Any] = {"file": file.path.name}
            if kind == "port":
                row |= {"circuit": name} | ({} if way == "both" else {"direction": way})
            elif kind == "edge":
                row |= {"edge": name}
            else:
                row |= {"link": sorted(name), "at": way}
            rows.append(("capture", row))
        rows.append(("table", {"file": "told.log"}))
        text = 'plan = "plan.toml"\nflood = 1000000\nsettle = 0\nclocks = 0\n'
        return text + "".join(f"\n[[{table}]]\n" + "".join(f"{key} = {value(it)}\n" for key, it in row.items()) for table, row in rows)

    def port(self, number: int, circuit: str, way: str, octets: str) -> None:
        """A frame at a port."""
        file = self.files.get(("port", circuit, "both")) or self.files["port", circuit, way]
        direction = pcapng.INBOUND if way == "in" else pcapng.OUTBOUND
        self.places[number] = file.path.name, file.add(self.time, bytes.fromhex(octets), direction)

    def link(self, sender: str, receiver: str, at: str, octets: bytes) -> tuple[str, int]:
        """A packet at an end of a link. Answers the file and the packet."""
        file = self.files.get(("edge", at, "") if self.by_edge else ("link", frozenset((sender, receiver)), at))
        if file is None:
            return "", 0
        return file.path.name, file.add(self.time, octets, pcapng.OUTBOUND if at == sender else pcapng.INBOUND)

    def segment(self, talk: Talk, sender: str, receiver: str, at: str, place: int, flags: int, octets: bytes = b"") -> None:
        """A segment at an end of a connection, at a place of its sender's stream."""
        ports = (talk.port, LDP) if sender == talk.active else (LDP, talk.port)
        source, target = (self.plan.edges[edge]["address"] for edge in (sender, receiver))
        counts = (talk.first[sender] + place, talk.first[receiver] + 1 + talk.heard[sender] if flags & headers.ACK else 0)
        self.link(sender, receiver, at, headers.tcp(source, target, ports, counts, flags, octets))

    def event(self, words: list[str]) -> None:
        """An event that applied."""
        kind, *rest = words
        if kind == "connect":
            self.connect(*rest)
        elif kind == "deliver":
            self.deliver(rest[0], rest[1], int(rest[2]))
        elif kind == "lose":
            self.lose(*rest)
        elif kind == "restart":
            self.restart(rest[0])
        elif kind == "circuit":
            self.note(*rest)
        elif kind == "arrive" and rest[0] in self.packets:
            sender, receiver, octets = self.packets.pop(rest[0])
            self.mpls(sender, receiver, receiver, octets)
        elif kind == "drop":
            self.packets.pop(rest[0], None)

    def entry(self, number: int, words: list[str]) -> None:
        """What is told."""
        kind, *rest = words
        if kind == "in":
            self.port(number, rest[0], "in", rest[2])
        elif kind == "left":
            self.port(number, rest[0], "out", rest[3])
        elif kind == "sent":
            octets = bytes.fromhex(rest[7])
            self.packets[rest[0]] = rest[1], rest[2], octets
            self.places[number] = self.mpls(rest[1], rest[2], rest[1], octets)
        elif kind == "copied" and rest[1] in self.packets:
            self.packets[rest[0]] = self.packets[rest[1]]
        elif kind == "aged":
            self.packets.pop(rest[0], None)
        elif kind == "said":
            self.say(rest[0], rest[1], bytes.fromhex(rest[2]))
        elif kind == "wire" and self.table:
            self.note(*rest)
        elif kind == "session" and rest[2].startswith("Ended:"):
            self.lose(rest[0], rest[1])

    def note(self, *words: str) -> None:
        """A line of the log of what edges say."""
        seconds = f"{self.time // 1_000_000}.{self.time % 1_000_000:06}"
        self.log.append(" ".join((seconds, *words)))

    def mpls(self, sender: str, receiver: str, at: str, octets: bytes) -> tuple[str, int]:
        """A packet of a pseudowire at an end of its link."""
        source, target = (self.plan.edges[edge]["address"] for edge in (sender, receiver))
        return self.link(sender, receiver, at, headers.ethernet(source, target, headers.MPLS, octets))

    def connect(self, a: str, b: str) -> None:
        """The handshake, as both ends see it."""
        active, passive = (a, b) if self.rng.random() < 0.5 else (b, a)
        talk = Talk(active, passive, FIRST_PORT + self.made % 20000, self.rng)
        self.made += 1
        self.talks[frozenset((a, b))] = talk
        for sender, receiver, place, flags in ((active, passive, 0, headers.SYN), (passive, active, 0, headers.SYN | headers.ACK), (active, passive, 1, headers.ACK)):
            for at in (sender, receiver):
                self.segment(talk, sender, receiver, at, place, flags)

    def say(self, sender: str, receiver: str, octets: bytes) -> None:
        """What an edge puts; now and then once more, and a part of it before the whole."""
        talk = self.talks.get(frozenset((sender, receiver)))
        if talk is None or sender not in talk.stands:
            return
        place = talk.put[sender] + 1
        parts = [(0, octets)]
        if self.rng.random() < 0.1:
            cut = self.rng.randrange(len(octets) + 1)
            parts = [(cut, octets[cut:]), (0, octets[:cut]), (0, octets)]
        for offset, part in parts:
            self.segment(talk, sender, receiver, sender, place + offset, headers.PSH | headers.ACK, part)
        talk.put[sender] += len(octets)
        if receiver in talk.stands:
            talk.waiting[receiver] += octets

    def deliver(self, sender: str, receiver: str, count: int) -> None:
        """Octets that come, or the end of the stream, where the sender's end is gone."""
        talk = self.talks.get(frozenset((sender, receiver)))
        if talk is None or receiver not in talk.stands:
            return
        octets, talk.waiting[receiver] = talk.waiting[receiver][:count], talk.waiting[receiver][count:]
        if octets:
            self.segment(talk, sender, receiver, receiver, talk.heard[receiver] + 1, headers.PSH | headers.ACK, octets)
            talk.heard[receiver] += len(octets)
        elif sender not in talk.stands:
            self.segment(talk, sender, receiver, receiver, talk.heard[receiver] + 1, headers.RST)
            talk.stands.discard(receiver)

    def lose(self, edge: str, peer: str) -> None:
        """An edge's end is gone: it says so, and its peer hears of it once all before it is delivered."""
        talk = self.talks.get(frozenset((edge, peer)))
        if talk is not None and edge in talk.stands:
            self.segment(talk, edge, peer, edge, talk.put[edge] + 1, headers.RST | headers.ACK)
            talk.stands.discard(edge)
            talk.waiting[edge] = b""

    def restart(self, edge: str) -> None:
        """An edge loses all connections, and its table has no pseudowire that is up."""
        for pair in self.talks:
            if edge in pair:
                self.lose(edge, *(pair - {edge}))
        for wire in self.ends[edge] if self.table else ():
            self.note(edge, wire, "NoLocal")
