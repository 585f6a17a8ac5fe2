"""Random orders of what is delivered and what arrives around a failure, and the shortest scenario in which a frame comes twice."""

from __future__ import annotations

import pathlib
import random
from collections import Counter

from .called import replayed
from .command import Fault
from .event_kinds import ALL
from .plan_rows import rows_of_plan
from .probing import BROADCAST, Frame
from .shortening import Shortening, events_in, shown
from .writing import scenario

TYPE_CHECKING = False
if TYPE_CHECKING:
    from collections.abc import Collection, Mapping
    from typing import Any

    from .cases import Base
    from .failures import Case
    from .plan import Plan
    from .plan_rows import Rows
    from .shortening import Shown

# So many broadcasts enter while the failure or its mending is told, and so often each delivery and each arrival may come then.
FRAMES, PASSES = 6, 3
# Of five deliveries one takes a part of what is on its way.
PART, OCTETS = 0.2, 60
KINDS = ("twice", "back", "never")


class Orders:
    """The random orders of a case: of those edges that said something in the case by itself."""

    def __init__(self, base: Base, case: Case, ways: Any) -> None:
        self.base, self.case, self.ways = base, case, ways
        self.sites = list(base.plan.circuits)
        # How many packets a broadcast comes to, as far as the first phase tells.
        self.packets = -(-base.packets_before // max(1, len(base.probes.frames["before"]))) * 2

    def events(self, chance: Any) -> list[str]:
        """The events of one order, behind those of the set-up."""
        first = self.base.packets + 1
        events = []
        before: tuple[str, ...] = ()
        for stage, switches in (("failed", self.case.failure), ("mended", self.case.mending)):
            events += self.stage(chance, list(switches), self.ways[stage], first)
            events += self.base.probes.rest_behind(switches, before)
            before = switches
            first += FRAMES * self.packets
        return events

    def stage(self, chance: Any, switches: Any, ways: Any, first: int) -> list[str]:
        """What is switched, with frames, deliveries and arrivals around it, in any order; then deliveries and arrivals alone."""
        frames = [self.broadcast(chance.choice(self.sites)) for _ in range(FRAMES)] if self.sites else []
        events = []
        for number in range(PASSES):
            moved = [self.delivery(chance, way) for way in ways] + [f"arrive {first + place}" for place in range(FRAMES * self.packets)]
            moved += frames if number == 0 else []
            chance.shuffle(moved)
            if number == 0:
                place = chance.randrange(len(moved) + 1)
                moved[place:place] = switches
            events += moved
        return events

    def broadcast(self, circuit: str) -> str:
        """A frame to everybody."""
        return f"frame {circuit} {self.base.probes.octets(Frame(circuit, None))}"

    @staticmethod
    def delivery(chance: Any, way: Any) -> str:
        """What is on its way from an edge to a neighbour is delivered, or a part of it."""
        return f"deliver {way[0]} {way[1]} {chance.randint(1, OCTETS) if chance.random() < PART else ALL}"


class Tried:
    """A broadcast of a report: where it entered, the sites that it is due at, how often it left at each, and its packets under way."""

    def __init__(self, circuit: str, due: set[str]) -> None:
        self.circuit, self.due = circuit, due
        self.left: Counter[str] = Counter()
        self.under_way: set[str] = set()


def faults_of(sites: Mapping[str, list[str]], lines: list[str]) -> dict[str, tuple[int, str]]:
    """Which faults some broadcast of a report shows, each with the event by which the first one of it is shown, by its place, and the
    number of the frame: whether it left twice at a site, or where it entered, or never at one that was on all the while, though
    nothing of it is under way. `sites` has for each circuit those of its service."""
    on = dict.fromkeys(sites, True)
    frames: dict[str, Tried] = {}
    of_packet: dict[str, Tried] = {}
    found: dict[str, tuple[int, str]] = {}
    event = -1
    for line in lines:
        kind, _, rest = line.partition(" ")
        if kind == ">":
            event += 1
            word, _, rest = rest.partition(" ")
            if word in ("arrive", "drop") and rest in of_packet:
                of_packet.pop(rest).under_way.discard(rest)
            elif word == "circuit":
                circuit, switch = rest.split(" ")
                on[circuit] = switch == "on"
                for frame in frames.values():
                    frame.due.discard(circuit)
        elif kind == "left":
            circuit, origin, _ = rest.split(" ", 2)
            if origin in frames:
                frame = frames[origin]
                frame.left[circuit] += 1
                if circuit == frame.circuit:
                    found.setdefault("back", (event, origin))
                elif frame.left[circuit] > 1:
                    found.setdefault("twice", (event, origin))
        elif kind == "in":
            circuit, origin, octets = rest.split(" ")
            if octets.startswith(BROADCAST):
                frames[origin] = Tried(circuit, {site for site in sites[circuit] if on[site] and site != circuit})
        elif kind in ("sent", "copied"):
            words = rest.split(" ", 7)
            sent = frames.get(words[5]) if kind == "sent" else of_packet.get(words[1])
            if sent is not None:
                of_packet[words[0]] = sent
                sent.under_way.add(words[0])
    for origin, frame in frames.items():
        if not frame.under_way and any(frame.left[site] == 0 for site in frame.due):
            found.setdefault("never", (event, origin))
    return found


def try_orders(base: Base, case: Case, folder: pathlib.Path, ways: Any, wanted: Collection[str], count: int, seed: int) -> dict[str, Any]:
    """In how many orders of a case a broadcast came twice, back or never; and the shortest scenario of each kind of `wanted`."""
    orders, path = Orders(base, case, ways), pathlib.Path(folder, "order.toml")
    counts: Counter[str] = Counter()
    first: dict[str, tuple[int, list[str]]] = {}
    for number in range(count):
        chance = random.Random(f"{seed} {case.name} {number}")
        events = [*base.events, *base.probes.rest(base.probes.set_up), *orders.events(chance)]
        for kind in faults_of(base.sites, base.replay(path, events).decode().splitlines()):
            counts[kind] += 1
            first.setdefault(kind, (number, events))
    shortest = {}
    for kind, (number, events) in first.items():
        if kind in wanted:
            found = Shortest(base.plan, path, kind).of(events)
            shortest[kind] = {"order": number, "events": found.events, "scenario": found.text()}
    return {"tried": count, "seed": seed, **{kind: counts[kind] for kind in KINDS}, "shortest": shortest}


class Shortest:
    """Looks for the shortest scenario that shows a kind of fault."""

    def __init__(self, plan: Plan, path: pathlib.Path, kind: str) -> None:
        self.rows, self.path, self.kind = rows_of_plan(plan), path, kind
        self.fault: tuple[int, str] | None = None

    def look(self, rows: Rows, events: list[str]) -> list[str] | None:
        """The report of a scenario that shows the fault; None where it shows none, or is none."""
        self.path.write_text(scenario({table: found for table, found in rows.items() if found}, events), encoding="utf-8")
        try:
            lines = replayed(self.path).decode().splitlines()
        except Fault:
            return None
        service = {row["name"]: row["service"] for row in rows["circuit"]}
        sites = {name: [other for other in service if service[other] == service[name]] for name in service}
        self.fault = faults_of(sites, lines).get(self.kind)
        return lines if self.fault is not None else None

    def of(self, events: list[str]) -> Shown:
        """The shortest that is found for these events: first without what comes behind the fault and without the other frames."""
        lines = self.look(self.rows, events)
        if lines is None or self.fault is None:
            raise Fault("a fault is not shown a second time")
        shortening = Shortening(shown(self.rows, events, lines), self.look)
        event, frame = self.fault
        entered = [place for place, (text, entries) in zip(shortening.it.places, events_in(lines)) if entries[:1] and entries[0].startswith("in ")]
        others = set(entered) - {entered[int(frame) - 1]} if len(entered) >= int(frame) else set()
        if self.kind != "never":
            shortening.end_at(event)
        shortening.take_out([place for place in others if place < len(shortening.it.events)])
        return shortening.run()
