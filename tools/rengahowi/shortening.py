"""The shortest scenario that still shows something: events are taken out, and with them the packets that come of them, so that the others
are numbered anew; and then services, edges, circuits and wires that it does not take."""

from __future__ import annotations

from typing import NamedTuple

from .writing import scenario

TYPE_CHECKING = False
if TYPE_CHECKING:
    from collections.abc import Callable, Collection, Iterator
    from typing import Any

    from .plan_rows import Rows

# Events that name a packet, and those that stand for several ones with the event that they do.
PACKETS = ("arrive", "drop", "again")
MANY = {"settle": "deliver", "flow": "arrive", "tick": "tick", "play": "frame"}
ALL = 10000


class Packet(NamedTuple):
    """A packet: the event of the scenario by which it was sent, by its place, the packet that arrived then, and its wire."""

    event: int
    parent: int
    wire: str


class Shown(NamedTuple):
    """A scenario, and what its report tells: the place of the event that each event of the report belongs to, the events of the
    scenario that were idle, and the packets by their numbers."""

    rows: Rows
    events: list[str]
    places: list[int]
    idle: set[int]
    packets: dict[int, Packet]

    def text(self) -> str:
        """The text of the scenario."""
        return scenario({table: rows for table, rows in self.rows.items() if rows}, self.events)


def shown(rows: Rows, events: list[str], lines: list[str]) -> Shown:
    """A scenario with its report."""
    reported = list(events_in(lines))
    places = list(places_of(events, reported))
    idle: set[int] = set()
    packets: dict[int, Packet] = {}
    for place, (text, entries) in zip(places, reported):
        words = text.split(" ")
        if entries[:1] == ["idle"] and words[0] not in ("tick", "restart"):
            idle.add(place)
        for entry in entries:
            kind, *more = entry.split(" ")
            if kind in ("sent", "copied"):
                wire = more[3] if kind == "sent" else packets[int(more[1])].wire
                packets[int(more[0])] = Packet(place, int(words[1]) if words[0] in PACKETS else 0, wire)
    return Shown(rows, events, places, idle, packets)


def events_in(lines: list[str]) -> Iterator[tuple[str, list[str]]]:
    """The events of a report, each with its entries."""
    text, entries = "", list[str]()
    for line in lines:
        if line.startswith("> "):
            if text:
                yield text, entries
            text, entries = line[2:], []
        else:
            entries.append(line)
    if text:
        yield text, entries


def places_of(events: list[str], reported: list[tuple[str, list[str]]]) -> Iterator[int]:
    """For each event of a report the place of that of the scenario which it belongs to. One that stands for several takes those of its
    kind as long as they apply: where it ended before its number was reached, no more of them do."""
    at = 0
    for place, text in enumerate(events):
        words = text.split(" ")
        kind = MANY.get(words[0])
        if kind is None or text == "tick":
            at += 1
            yield place
            continue
        most = int(words[1]) if words[-1].isdigit() else ALL
        while most > 0 and at < len(reported) and reported[at][0].split(" ")[0] == kind and (kind in ("tick", "frame") or reported[at][1] != ["idle"]):
            at, most = at + 1, most - 1
            yield place


def without(it: Shown, removed: Collection[int], wires: Collection[str] = ()) -> list[str]:
    """The events without these, by their places, and without the packets that come of them or go over these wires."""
    numbers: dict[int, int] = {}
    for number, packet in sorted(it.packets.items()):
        if packet.event not in removed and packet.wire not in wires and (packet.parent == 0 or packet.parent in numbers):
            numbers[number] = len(numbers) + 1
    events = []
    for place, text in enumerate(it.events):
        kind, _, word = text.partition(" ")
        if kind in PACKETS and int(word) in numbers:
            text = f"{kind} {numbers[int(word)]}"
        elif kind in PACKETS:
            continue
        if place not in removed:
            events.append(text)
    return events


class Shortening:
    """Takes out what it can of a scenario, as long as `look` still shows it: that answers the report's lines, or None."""

    def __init__(self, it: Shown, look: Callable[[Rows, list[str]], list[str] | None]) -> None:
        self.it, self.look = it, look

    def becomes(self, rows: Rows, events: list[str]) -> bool:
        """Whether it still shows with these rows and events; then they are those of the scenario."""
        if rows == self.it.rows and events == self.it.events:
            return False
        lines = self.look(rows, events)
        if lines is None:
            return False
        self.it = shown(rows, events, lines)
        return True

    def take_out(self, removed: Collection[int]) -> bool:
        """Whether it still shows without these events."""
        return self.becomes(self.it.rows, without(self.it, removed))

    def end_at(self, event: int) -> None:
        """Nothing behind this event of the report, where that is known to be enough."""
        if event < len(self.it.places):
            self.take_out(range(self.it.places[event] + 1, len(self.it.events)))

    def run(self) -> Shown:
        """As little as can be, one thing taken out at a time."""
        self.take_out(self.it.idle)
        self.halve(len(self.it.events) // 2)
        before = None
        while before != (self.it.rows, self.it.events):
            before = self.it.rows, self.it.events
            self.fewer_rows()
            self.halve(2)
            self.join_up()
        return self.it

    def halve(self, size: int) -> None:
        """Events taken out, so many at a time and then half of that."""
        while size > 0:
            place, count = 0, len(self.it.events)
            while place < len(self.it.events):
                if not self.take_out(range(place, min(place + size, len(self.it.events)))):
                    place += size
            if size > 1 or len(self.it.events) == count:
                size //= 2

    def fewer_rows(self) -> None:
        """Services, edges, circuits and wires taken out."""
        for table in ("service", "edge", "wire", "circuit", "group"):
            for name in [row["name"] for row in self.it.rows.get(table, [])]:
                self.drop(table, name)

    def drop(self, table: str, name: str) -> bool:
        """Whether it still shows without a row, and all that names it."""
        gone = {name}
        for other in ("circuit", "wire"):
            for row in self.it.rows[other]:
                if row["name"] in gone or row["service"] == name or name in (row.get("edge"), *row.get("path", [])):
                    gone.add(row["name"])
        rows = {other: [row for row in found if row["name"] not in gone] for other, found in self.it.rows.items()}
        if table == "group" and any(name == row.get(end, {}).get("group") for row in rows["wire"] for end in ("near", "far")):
            return False
        pairs = {frozenset(pair) for row in rows["wire"] for pair in zip(row["path"], row["path"][1:])}
        removed = [place for place, text in enumerate(self.it.events) if is_gone(text.split(" "), gone, pairs)]
        return self.becomes(rows, without(self.it, removed, gone))

    def join_up(self) -> None:
        """Several deliveries, or arrivals, as one event."""
        for kind, one in (("deliver", f"settle {ALL}"), ("arrive", f"flow {ALL}")):
            place = 0
            while place < len(self.it.events):
                end = place
                while end < len(self.it.events) and self.it.events[end].startswith(f"{kind} "):
                    end += 1
                if end - place > 1:
                    self.becomes(self.it.rows, [*self.it.events[:place], one, *self.it.events[end:]])
                place = max(place, end) + 1


def is_gone(words: list[str], gone: set[str], pairs: set[frozenset[str]]) -> bool:
    """Whether an event names a row that is gone, or two edges between which no wire is left."""
    return not gone.isdisjoint(words[1:]) or words[0] in ("connect", "deliver", "lose") and frozenset(words[1:3]) not in pairs
