"""A report of what was captured in a lab: all captures in the order of their times, each frame with what became of it."""

from __future__ import annotations

import collections
import heapq
import sys
import time as clock

from .capture_reading import IN, OUT, SECOND
from .findings import Findings
from .lab_blocks import BlockWriter
from .lab_frames import TAG, Entered, Inner, Leaving, Matcher, Past
from .lab_intake import Intake
from .lab_judging import Judging, is_reserved
from .lab_links import Links
from .lab_sessions import MPLS, Sessions, Step
from .lab_stretches import Stretches
from .lab_tables import DOWN, tables_of
from .lab_wires import WiresOfLdp
from .network import UP

TYPE_CHECKING = False
if TYPE_CHECKING:
    from collections.abc import Callable, Iterable, Iterator
    from typing import Any

    from .capture_reading import Packet
    from .lab_file import Lab, Row
    from .lab_stretches import Stretch
    from .lab_tables import Told

# Types of frames that devices make themselves: LLDP, slow protocols, and the loop test of some switches.
OWN_TYPES = {b"\x88\xcc", b"\x88\x09", b"\x90\x00"}
OWN_GROUPS = (bytes.fromhex("01000ccccccc"), bytes.fromhex("01000ccccccd"))
MOST_PAST = 1_000_000
LATE = 10
SHOWN_EVERY = 4096

Item = tuple[int, int, int, str, "Any"]


class LabReport:
    """Makes the report of a lab. `stretches` has what is written, `judging` what of it is judged, `findings` what was found."""

    def __init__(self, lab: Lab, done: Callable[[Stretch], None], progress: bool = False) -> None:
        self.lab, self.plan, self.findings, self.progress = lab, lab.plan, Findings(), progress
        self.sessions = Sessions(lab, self.findings)
        self.stretches = Stretches(lab.plan, done)
        self.wires = WiresOfLdp(lab.plan)
        self.intake = Intake(lab, self.findings, self.sessions.vantage)
        self.inner, self.missing = self.intake.inner, self.intake.missing
        self.links = Links(lab, self.sessions, self.wires, self.findings, self.missing)
        self.matcher = Matcher(lab, self.inner)
        self.judging = Judging(lab, self.inner, self.stretches, self.missing)
        self.writer = BlockWriter(lab.plan, self.inner, self.stretches, lab.clocks)
        self.steps: list[Step] = []
        self.tables: list[Told] = []
        self.told: dict[tuple[str, str], str] = {}
        self.derived: dict[tuple[str, str], str] = {}
        self.queue: collections.deque[tuple[int, str, Any]] = collections.deque()
        self.held: collections.deque[tuple[int, bytes, Leaving]] = collections.deque()
        self.own: collections.Counter[str] = collections.Counter()
        self.unseen: collections.Counter[str] = collections.Counter()
        # Of each capture at a port with a tag, whether there are frames with one and without.
        self.tagged: dict[tuple[str, int], set[bool]] = {}
        self.shown = 0.0
        self.wait = lab.flood + lab.settle
        self.past_is_cut = False

    def make(self) -> None:
        """Reads everything and writes the report."""
        self.steps, self.tables = self.sessions.read(), tables_of(self.lab)
        self.begin()
        for count, (time, _, _, kind, what) in enumerate(self.merged()):
            self.advance(time)
            if kind == "port":
                self.take_frame(time, *what)
            else:
                self.take(time, kind, what)
            if count % SHOWN_EVERY == 0:
                self.show()
        self.end()

    def begin(self) -> None:
        """Ports of which nothing that leaves is captured take no part."""
        leaves = {circuit for row in self.lab.captures for circuit in row.circuits if row.direction != IN}
        enters = {circuit for row in self.lab.captures for circuit in row.circuits if row.direction != OUT}
        self.missing.services |= {self.inner.service[circuit] for circuit in self.plan.circuits if circuit not in enters}
        for circuit in self.plan.circuits:
            if circuit not in leaves or circuit not in enters:
                what = "what leaves there at " if circuit in enters else "what enters there at " if circuit in leaves else ""
                self.findings.tell(f"port {circuit}", self.lab.path, 0, f"{what}circuit {circuit} is in no capture", "capture it too")
            if circuit not in leaves:
                self.stretches.circuit(circuit, "off")
        tables = {(edge, wire) for _, (edge, *rest), _ in self.tables for wire in rest}
        ends = {(edge, wire.name) for wire in self.plan.wires.values() for edge in wire.ends()}
        if ends - tables and self.steps:
            text = f"the states of {len(ends - tables)} ends of pseudowires are worked out from LDP, since no table tells them"
            self.findings.tell("derived", self.lab.path, 0, text)

    def merged(self) -> Iterable[Item]:
        """Everything in the order of the times: of one time first LDP, then tables, then frames."""
        steps: Iterator[Item] = ((step.time, -2, place, "step", step) for place, step in enumerate(self.steps))
        tables: Iterator[Item] = ((time, -1, place, "table", (end, state)) for place, (time, end, state) in enumerate(self.tables))
        return heapq.merge(steps, tables, *(self.intake.packets(row) for row in self.lab.captures))

    def take(self, time: int, kind: str, what: Any) -> None:
        """Something else than a frame at a port happens."""
        if kind == "link":
            self.take_packet(time, *what)
        elif kind == "step":
            self.take_step(time, what)
        else:
            self.take_table(time, *what)

    def take_frame(self, time: int, row: Row, packet: Packet) -> None:
        """A frame at a port."""
        octets = packet.octets
        if packet.missing > 0:
            return
        circuit = self.circuit_of(row, octets)
        direction = row.direction or packet.direction
        if row.stations and not direction:
            direction = IN if octets[6:12] in row.stations else OUT
        if circuit is None:
            self.unseen[f"{row.name} has frames of no circuit of its row"] += 1
            return
        if not direction:
            text = "nothing tells whether the frame enters or leaves"
            self.findings.tell("direction", row.name, packet.number, text, "capture by -Q in and -Q out, or name the stations behind the port (stations = [..])")
            return
        tag = self.inner.tags[circuit]
        if tag is not None:
            if row.untagged:
                octets = octets[:12] + TAG + tag.to_bytes(2, "big") + octets[12:]
            self.tagged.setdefault((row.name, tag), set()).add(octets[12:14] == TAG)
        place = row.number, packet.number
        if direction == IN:
            self.queue.append((time, "frame", self.matcher.enter(time, circuit, octets, place)))
            if len(octets) >= 12:
                self.judging.hear(self.inner.service[circuit], octets[6:12], time)
        else:
            held = self.matcher.leave(time, circuit, octets, place)
            if held is not None:
                self.held.append((time + self.wait, *held))

    def circuit_of(self, row: Row, octets: bytes) -> str | None:
        """The circuit of a frame, of several ones at a port by its tag."""
        if len(row.circuits) == 1:
            return row.circuits[0]
        tag = int.from_bytes(octets[14:16], "big") & 0x0FFF if octets[12:14] == TAG else None
        of_tag = {self.inner.tags[one]: one for one in row.circuits}
        return of_tag.get(tag, of_tag.get(None))

    def take_packet(self, time: int, row: Row, packet: Packet) -> None:
        """A packet between edges."""
        if packet.missing > 0 or MPLS not in (packet.octets[12:14], packet.octets[16:18]):
            return
        found = self.links.read(row, packet)
        if found is not None:
            self.matcher.cross(self.inner.key(found.inner), time, found.roles, found.way, found.octets, (row.number, packet.number))

    def take_step(self, time: int, step: Step) -> None:
        """Something of LDP."""
        self.queue.append((time, "step", step))
        if step.kind in ("connect", "lose", "gap"):
            pair = {step.edge, step.peer}
            self.judging.change({wire.service for wire in self.plan.wires.values() if any(pair == set(ends) for ends in wire.segments())}, time)
        for edge, wire, state in self.wires.take(step):
            self.derived[edge, wire] = state
            self.see(time, edge, wire)

    def take_table(self, time: int, end: tuple[str, ...], state: str) -> None:
        """What an edge's table says."""
        if len(end) == 1:
            self.queue.append((time, "circuit", (end[0], state)))
            self.judging.change({self.inner.service[end[0]]}, time)
            return
        self.told[end[0], end[1]] = state
        self.see(time, *end)

    def see(self, time: int, edge: str, wire: str) -> None:
        """The state of an end: up where all that tell of it say so."""
        told, derived = self.told.get((edge, wire)), self.derived.get((edge, wire))
        has_ldp = all(self.sessions.vantage.are_seen(*pair) for pair in self.plan.wires[wire].segments())
        state = told if told not in (None, UP) else derived if has_ldp else told
        if told == DOWN and has_ldp and derived not in (None, UP):
            state = derived  # which says more than that it is down
        if told is None and any(table.edge == edge for table in self.lab.tables):
            state = "NoLocal"
        self.queue.append((time, "wire", (edge, wire, state or "NoLocal")))
        self.judging.change({self.plan.wires[wire].service}, time)

    def advance(self, now: int) -> None:
        """Time goes on: what waited long enough is written."""
        if not self.held and (not self.queue or self.queue[0][1] == "frame" and self.queue[0][0] + self.wait >= now):
            return
        while self.held and self.held[0][0] < now:
            _, key, leaving = self.held.popleft()
            past = self.matcher.expire(key, leaving)
            if past is not False:
                self.queue.append((now, "late", (leaving, past)))
        while self.queue and (self.queue[0][1] != "frame" or self.queue[0][0] + self.wait < now):
            self.write(*self.queue.popleft())

    def write(self, _time: int, kind: str, what: Any) -> None:
        """The next thing of the report."""
        out = self.stretches
        if kind == "frame":
            self.write_frame(what)
        elif kind == "late":
            self.write_late(*what)
        elif kind == "circuit":
            out.circuit(*what)
        elif kind == "wire":
            if out.states.get(what[:2], "NoLocal") != what[2]:
                out.wire(*what)
        elif what.kind == "connect":
            out.connect(what.edge, what.peer)
        elif what.kind == "said":
            out.say(what.edge, what.peer, what.octets)
        elif what.kind == "deliver":
            out.deliver(what.edge, what.peer, what.count)
        elif what.kind == "lose":
            out.lose(what.edge, what.peer)
        out.cut()

    def write_frame(self, entered: Entered) -> None:
        """A frame and what became of it."""
        service = self.inner.service[entered.circuit]
        are_seen = all(
            self.sessions.vantage.are_seen(*pair) and frozenset(pair) not in self.missing.pairs for pair in self.plan.pairs(service)
        )
        why = self.judging.why_not(entered, are_seen)
        entered.is_judged = self.judging.count(entered, why, are_seen)
        self.writer.write(entered, bool(why), are_seen)
        if len(entered.octets) >= 12:
            self.stretches.came(service, entered.octets[6:12].hex())
        self.matcher.close(entered, self.stretches.now.number)
        if len(self.matcher.past) > MOST_PAST:
            self.past_is_cut = True
            self.matcher.forget(MOST_PAST // 2)

    def write_late(self, leaving: Leaving, past: Past | None) -> None:
        """A copy whose frame was written before, or that no frame which entered explains."""
        octets, circuit = leaving.octets or b"", leaving.circuit
        if past is None:
            if self.is_own(octets):
                self.own["to a reserved group" if is_reserved(octets) else "of its own"] += 1
                return
            ran = self.judging.ran(leaving.time - self.lab.flood, leaving.time)
            if not ran or self.past_is_cut or self.missing.services & {self.inner.service[circuit]}:
                self.unseen["frames left whose entry is not captured"] += 1
                return
            self.stretches.event("tick")
            self.stretches.entry(f"left {circuit} 0 0 {octets.hex()}", leaving.place)
            return
        past.late += 1
        if past.late > LATE:
            return
        self.stretches.event("tick")
        inner = self.inner.of(circuit, octets)
        if past.stretch != self.stretches.now.number and inner is not None:
            self.write_again(past, self.inner.at(past.circuit, inner))
        self.stretches.entry(f"left {circuit} {past.number} 0 {octets.hex()}", leaving.place)

    def write_again(self, past: Past, octets: bytes) -> None:
        """A frame that a stretch before this one has, and what left of it there: judged where it was judged."""
        if past.is_judged:
            self.stretches.event(f"frame {past.circuit} {octets.hex()}")
        self.stretches.entry(f"in {past.circuit} {past.number} {octets.hex()}", (0, 0))
        for circuit in past.served:
            again = self.inner.at(circuit, self.inner.of(past.circuit, octets) or octets)
            self.stretches.entry(f"left {circuit} {past.number} 0 {again.hex()}", (0, 0))
        past.stretch = self.stretches.now.number

    def is_own(self, octets: bytes) -> bool:
        """Whether a device may have made a frame itself."""
        return is_reserved(octets) or octets[12:14] in OWN_TYPES or octets[:6] in OWN_GROUPS or octets[6:12] in self.lab.own

    def end(self) -> None:
        """Everything that waits is written, and what was found on the whole is told."""
        forever = 1 << 100
        self.advance(forever)
        self.advance(forever)
        self.stretches.finish()
        self.tell_repeated()
        for count, text in ((self.own.total(), "frames that an edge made itself are left out: LLDP, BPDUs and their like, or from a station of own"),
                            (self.links.others, "packets of pseudowires that carry no frame are left out, such as pings of VCCV")):
            if count:
                self.findings.tell(text, self.lab.path, 0, f"{count} {text}")
        for (name, tag), seen in self.tagged.items():
            if True not in seen:
                text = f"no frame of {name} has the tag {tag} of its circuit: it was captured behind a VLAN interface, or the card keeps tags apart"
                self.findings.tell("tag", name, 0, text, "write untagged = true in its row, or turn offloading off (ethtool -K IFACE rxvlan off txvlan off)")
        for text, count in self.unseen.items():
            self.findings.tell(text, self.lab.path, 0, f"{count} times {text}; they are left out")

    def tell_repeated(self) -> None:
        """Frames of which others have the same octets, and effects before their causes."""
        repeated, early = self.matcher.repeated, self.matcher.early
        if repeated:
            first = repeated[0]
            text = f"{len(repeated)} frames have the octets of one before, so their copies are told apart by their order alone"
            self.findings.tell("repeated", self.lab.captures[first.place[0]].name, first.place[1], text, "give each test frame a number within")
        if early:
            cause, late, place = early[0]
            row, where = self.lab.captures[place[0]].name, f"{self.lab.captures[cause[0]].name}, packet {cause[1]}"
            text = f"it is {late / SECOND:.6f} s before what it comes of ({where}), and so are {len(early) - 1} more"
            self.findings.tell("early", row, place[1], text, f"give the captures a skew (--skew {row}=SECONDS), or the lab larger clocks")

    def show(self) -> None:
        """Tells on standard error how far it is, once in a while, where somebody looks."""
        if not self.progress or clock.monotonic() < self.shown + 1:
            return
        self.shown = clock.monotonic()
        sys.stderr.write(f"\r{self.matcher.count} frames entered, {sum(self.judging.judged.values())} floods judged \r")
