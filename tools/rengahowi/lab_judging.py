"""Which floods of a lab are judged, and why others are not."""

from __future__ import annotations

import bisect
import collections

from .network import UP

TYPE_CHECKING = False
if TYPE_CHECKING:
    from .lab_file import Lab
    from .lab_frames import Entered, Inner
    from .lab_intake import Missing
    from .lab_stretches import Stretches

# A time behind all others.
LATER = 1 << 100
# Groups that a bridge may keep for itself (IEEE 802.1D clause 7.12.6).
RESERVED = bytes.fromhex("0180c20000")


def is_reserved(octets: bytes) -> bool:
    """Whether a frame goes to one of the reserved groups."""
    return octets[:5] == RESERVED and len(octets) > 5 and octets[5] < 0x10


class Judging:
    """Counts floods, and says of each frame whether something came into its time that takes the promise from it."""

    def __init__(self, lab: Lab, inner: Inner, stretches: Stretches, missing: Missing) -> None:
        self.lab, self.inner, self.stretches, self.missing, self.plan = lab, inner, stretches, missing, lab.plan
        self.changes: dict[str, list[int]] = {service: [] for service in lab.plan.services}
        # When a frame of each station entered first.
        self.heard: dict[str, dict[bytes, int]] = {service: {} for service in lab.plan.services}
        self.judged: collections.Counter[str] = collections.Counter()
        self.reasons: collections.Counter[str] = collections.Counter()

    def change(self, services: set[str], time: int) -> None:
        """Something changes that floods of these services depend on."""
        for service in services:
            if not self.changes[service] or self.changes[service][-1] != time:
                self.changes[service].append(time)

    def hear(self, service: str, source: bytes, time: int) -> None:
        """A frame of a source enters."""
        self.heard[service].setdefault(source, time)

    def ran(self, first: int, last: int) -> bool:
        """Whether all captures ran between two times, as far as LAB.toml tells."""
        return not (self.lab.begin is not None and first < self.lab.begin or self.lab.end is not None and last > self.lab.end)

    def sites(self, entered: Entered) -> list[str]:
        """The circuits at which a flood has to leave."""
        service = self.inner.service[entered.circuit]
        return [one for one in self.plan.circuits_of(service) if one not in self.stretches.off and one != entered.circuit]

    def is_complete(self, entered: Entered) -> bool:
        """Whether it left once at each other site, and nowhere else."""
        return sorted(one.circuit for one in entered.leavings) == sorted(self.sites(entered))

    def is_accounted(self, entered: Entered) -> bool:
        """Whether each of its packets was seen at both ends."""
        return all(one.heard is not None for one in entered.crossings)

    def over(self, entered: Entered, are_seen: bool) -> int:
        """Until when what happens may take the promise from a frame."""
        is_known = self.is_complete(entered) or are_seen and self.is_accounted(entered)
        return (entered.last() if is_known else entered.time + self.lab.flood) + self.lab.settle

    def why_not(self, entered: Entered, are_seen: bool) -> str:
        """What takes the promise from a frame beside its service's state; empty where nothing does."""
        service, whole = self.inner.service[entered.circuit], self.is_complete(entered)
        if is_reserved(entered.octets):
            return "they go to a group that a bridge may keep for itself (IEEE 802.1D)"
        if not self.ran(entered.time, entered.time + self.lab.flood):
            return "not all captures ran then (from and until of LAB.toml)"
        times = self.changes[service]
        place = bisect.bisect_right(times, entered.time - self.lab.settle)
        if place < len(times) and times[place] <= self.over(entered, are_seen):
            return "a session, a pseudowire or a port changed in their time"
        if not whole and entered.twin is not None and not entered.twin.is_judged:
            return "another frame of the same octets was on its way"
        if not whole and self.missing.circuits.intersection(self.sites(entered)):
            return "the capture of a port is not whole"
        if entered.octets[:6] == b"\x02\0\0\0\0\0" and self.inner.first:
            return "a cooked capture has no destination"
        return ""

    def count(self, entered: Entered, why: str, are_seen: bool) -> bool:
        """Counts a frame once its state is known, and answers whether it is judged; no flood is counted for why it is not."""
        service, target = self.inner.service[entered.circuit], entered.inner[:6]
        inner = self.inner.of(entered.circuit, entered.octets)
        is_group = len(target) > 0 and bool(target[0] & 1)
        if not is_group and self.heard[service].get(target, LATER) <= self.over(entered, are_seen):
            self.stretches.needs(service, target.hex())
            return False
        if not self.inner.is_formed(entered.circuit, inner):
            why = "the edge takes no such frame: too short, too long, or with another tag"
        elif entered.circuit in self.stretches.off:
            why = "their port is off, or what leaves there was not captured"
        elif not self.stretches.network.is_calm(service):
            why = self.why_not_calm(service)
        elif not why and are_seen and any(one.heard is None for one in entered.crossings):
            why = "a packet was lost between edges"
        elif not why and any(one.repeats is not None for one in entered.crossings):
            why = "a packet was repeated between edges"
        if why:
            self.reasons[why] += 1
            return False
        self.judged[service] += 1
        return True

    def why_not_calm(self, service: str) -> str:
        """Why a service is not calm."""
        network = self.stretches.network
        if network.unsettled(service):
            return f"{service} was not calm: LDP was on its way, or one end of a connection was gone"
        states = self.stretches.states
        ends = [(edge, wire.name) for wire in self.plan.wires_of(service) for edge in wire.ends()]
        if not any(end in states for end in ends):
            return f"{service} was not calm: neither LDP nor a table tells of its pseudowires"
        down = next((f"{edge} had {wire} {states.get((edge, wire), 'NoLocal')}" for edge, wire in ends if states.get((edge, wire)) != UP), "its mesh is not full")
        return f"{service} was not calm: {down}"
