"""Frames at the ports of a lab and in packets between its edges, matched by their octets: which frame that entered each of them is."""

from __future__ import annotations

import collections

TYPE_CHECKING = False
if TYPE_CHECKING:
    from collections.abc import Iterable
    from typing import Any

    from .lab_file import Lab
    from .plan import Plan, Wire

# Octets up to which a frame is filled up where a tag goes or comes, without its frame check sequence (IEEE 802.3 clause 3.2.8).
LEAST, LEAST_TAGGED = 60, 64
TAG = b"\x81\x00"
# More copies of one frame than these are not kept: they show a fault by far.
MOST_COPIES = 200

# A capture's number, and the number of a packet in it.
Place = tuple[int, int]
NOWHERE: Place = (0, 0)


class Leaving:
    """A frame that leaves at a circuit, with its octets where they are no others' octets under the circuit's own tag."""

    __slots__ = ("time", "circuit", "place", "octets")

    def __init__(self, time: int, circuit: str, place: Place, octets: bytes | None) -> None:
        self.time, self.circuit, self.place, self.octets = time, circuit, place, octets


class Crossing:
    """A packet from an edge to its neighbour on a wire: when it was put and when it was heard, None where that was not seen."""

    __slots__ = ("sender", "receiver", "wire", "octets", "put", "heard", "place", "repeats", "fits")

    def __init__(self, sender: str, receiver: str, wire: Wire, octets: bytes, place: Place) -> None:
        self.sender, self.receiver, self.wire, self.octets, self.place = sender, receiver, wire, octets, place
        self.put: int | None = None
        self.heard: int | None = None
        self.repeats: Crossing | None = None

    def is_as(self, sender: str, receiver: str, wire: Wire) -> bool:
        """Whether it goes this way."""
        return self.wire is wire and self.receiver == receiver and self.sender == sender


class Entered:
    """A frame that entered, counted from 1, with all that was seen of its copies."""

    __slots__ = ("number", "time", "circuit", "place", "octets", "inner", "leavings", "crossings", "twin", "is_judged", "left_out")

    def __init__(self, number: int, time: int, circuit: str, place: Place, octets: bytes, inner: bytes) -> None:
        self.number, self.time, self.circuit, self.place, self.octets, self.inner = number, time, circuit, place, octets, inner
        self.leavings: list[Leaving] = []
        self.crossings: list[Crossing] = []
        self.twin: Entered | None = None
        self.is_judged = False
        self.left_out = 0

    def served(self, circuit: str) -> bool:
        """Whether it left at a circuit already."""
        return any(leaving.circuit == circuit for leaving in self.leavings)

    def last(self) -> int:
        """The time of the last thing that was seen of it."""
        times = [time for one in self.crossings for time in (one.put, one.heard) if time is not None]
        return max([self.time, *times, *(leaving.time for leaving in self.leavings)])


class Past:
    """What is kept of a frame whose time is over: its number, its circuit, where it left, whether it was judged, and its stretch."""

    __slots__ = ("number", "circuit", "served", "is_judged", "stretch", "late")

    def __init__(self, entered: Entered, stretch: int) -> None:
        self.number, self.circuit, self.is_judged, self.stretch = entered.number, entered.circuit, entered.is_judged, stretch
        self.served = tuple(leaving.circuit for leaving in entered.leavings)
        self.late = 0


class Inner:
    """The inner frames of a plan's circuits, and by what they are known again."""

    def __init__(self, plan: Plan, is_cooked: bool) -> None:
        self.tags = {name: row["tag"] for name, row in plan.circuits.items()}
        self.service = {name: row["service"] for name, row in plan.circuits.items()}
        self.edge = {name: row["edge"] for name, row in plan.circuits.items()}
        self.most = {name: plan.services[row["service"]]["mtu"] + 18 for name, row in plan.circuits.items()}
        self.first = 6 if is_cooked else 0

    def of(self, circuit: str, octets: bytes) -> bytes | None:
        """The frame without the tag of its circuit; None where it has another one or none."""
        tag = self.tags[circuit]
        if tag is None:
            return octets
        if octets[12:14] != TAG or len(octets) < 18 or int.from_bytes(octets[14:16], "big") & 0x0FFF != tag:
            return None
        return octets[:12] + octets[16:]

    def at(self, circuit: str, inner: bytes) -> bytes:
        """A frame as it leaves at a circuit."""
        tag = self.tags[circuit]
        return inner if tag is None else inner[:12] + TAG + int(tag).to_bytes(2, "big") + inner[12:]

    def key(self, inner: bytes) -> bytes:
        """By what a frame is known again: its octets, without those that may fill it up; in a lab with cooked captures, which have no
        destinations, without that."""
        if len(inner) <= LEAST_TAGGED:
            inner = inner[:14] + inner[14:].rstrip(b"\0")
        return inner[self.first :]

    def is_formed(self, circuit: str, inner: bytes | None) -> bool:
        """Whether an edge takes a frame, as far as its octets tell."""
        return inner is not None and 14 <= len(inner) <= self.most[circuit]


class Matcher:
    """Gives each frame that is seen to the frame that entered which it is a copy of."""

    def __init__(self, lab: Lab, inner: Inner) -> None:
        self.lab, self.inner = lab, inner
        self.open: dict[bytes, list[Entered]] = {}
        self.past: dict[int, Past] = {}
        self.waiting: dict[bytes, list[Any]] = {}
        self.count = 0
        self.repeated: list[Entered] = []
        # Causes, by how much each is late, and their effects.
        self.early: list[tuple[Place, int, Place]] = []

    def enter(self, time: int, circuit: str, octets: bytes, place: Place) -> Entered:
        """A frame enters. What was seen of it before, by another clock, is its own."""
        inner = self.inner.of(circuit, octets)
        key = self.inner.key(octets if inner is None else inner)
        self.count += 1
        entered = Entered(self.count, time, circuit, place, octets, octets if inner is None else inner)
        others = self.open.setdefault(key, [])
        if others or hash(key) in self.past:
            self.repeated.append(entered)
        if others:
            entered.twin = others[-1]
        others.append(entered)
        for seen in self.waiting.pop(key, ()):
            if isinstance(seen, Leaving):
                self.note_early(entered.place, entered.time, seen.time, seen.place)
                self.give(others, seen)
            else:
                self.note_early(entered.place, entered.time, seen[0], seen[4])
                self.cross(key, *seen)
        return entered

    def note_early(self, cause: Place, time: int, seen: int, place: Place) -> None:
        """An effect that is seen before its cause, by more than the clocks allow, is kept."""
        if seen < time - self.lab.clocks:
            self.early.append((cause, time - seen, place))

    def leave(self, time: int, circuit: str, octets: bytes, place: Place) -> tuple[bytes, Leaving] | None:
        """A frame leaves. Answers its key where no frame is open that it is a copy of: it waits for one."""
        inner = self.inner.of(circuit, octets)
        key = self.inner.key(octets if inner is None else inner)
        own = inner is not None and len(inner) <= self.inner.most[circuit]
        leaving = Leaving(time, circuit, place, None if own else octets)
        others = self.open.get(key)
        if others:
            self.give(others, leaving)
            return None
        leaving.octets = octets
        self.waiting.setdefault(key, []).append(leaving)
        return key, leaving

    def give(self, others: list[Entered], leaving: Leaving) -> None:
        """Gives a copy to a frame of the same octets."""
        found = others[0] if len(others) == 1 else self.chosen(others, leaving.circuit)
        if len(found.leavings) < MOST_COPIES:
            found.leavings.append(leaving)
        else:
            found.left_out += 1

    def chosen(self, others: list[Entered], circuit: str) -> Entered:
        """Of several frames of the same octets the first one that has to leave at a circuit and has not yet, else the last one of its
        service, else the first one of another service."""
        service = self.inner.service[circuit]
        own = [one for one in others if self.inner.service[one.circuit] == service]
        elsewhere = [one for one in own if one.circuit != circuit]
        waits = [one for one in elsewhere if not one.served(circuit)]
        return waits[0] if waits else (elsewhere or own or others[:1])[-1]

    def cross(self, key: bytes, time: int, roles: Iterable[str], way: tuple[str, str, Wire], octets: bytes, place: Place) -> None:
        """A packet with a copy of a frame is seen as it is put, as it is heard, or both."""
        others = self.open.get(key)
        if not others:
            self.waiting.setdefault(key, []).append((time, roles, way, octets, place))
            return
        service = way[2].service
        own = [one for one in others if self.inner.service[one.circuit] == service] or others
        for role in roles:
            self.note(own, role, time, way, octets, place)

    def note(self, others: list[Entered], role: str, time: int, way: tuple[str, str, Wire], octets: bytes, place: Place) -> None:
        """What is put is a crossing of the first frame that has none this way; what is heard is one that was put, or a repetition."""
        for entered in others:
            for one in entered.crossings:
                if getattr(one, role) is None and one.repeats is None and one.is_as(*way):
                    setattr(one, role, time)
                    if role == "put" and one.heard is not None:
                        self.note_early(place, time, one.heard, one.place)
                    return
        fresh = next((one for one in others if not any(crossing.is_as(*way) for crossing in one.crossings)), others[-1])
        if len(fresh.crossings) >= MOST_COPIES:
            fresh.left_out += 1
            return
        crossing = Crossing(*way, octets, place)
        setattr(crossing, role, time)
        if role == "heard":
            crossing.repeats = next((one for one in fresh.crossings if one.put is not None and one.heard is not None and one.is_as(*way)), None)
        fresh.crossings.append(crossing)

    def close(self, entered: Entered, stretch: int) -> None:
        """The time of a frame is over."""
        key = self.inner.key(entered.inner)
        others = self.open.get(key, [])
        if entered in others:
            others.remove(entered)
        if not others:
            self.open.pop(key, None)
        self.past[hash(key)] = Past(entered, stretch)

    def forget(self, most: int) -> None:
        """Keeps so many of the past at most, the latest ones."""
        while len(self.past) > most:
            del self.past[next(iter(self.past))]

    def expire(self, key: bytes, leaving: Leaving) -> Past | None | bool:
        """A copy has waited for its frame: the one of the past that it is of, or None; False where it found one meanwhile."""
        waiting = self.waiting.get(key, [])
        if leaving not in waiting:
            return False
        waiting.remove(leaving)
        if not waiting:
            del self.waiting[key]
        return self.past.get(hash(key))


def counted(found: Iterable[str]) -> dict[str, int]:
    """How often each word is there."""
    return dict(collections.Counter(found))
