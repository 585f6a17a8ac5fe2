"""A run as steps: what is so before the first event, and what each event changes of it. No state is told twice, so a run of many events
stays small, and who follows the steps forward knows how to go back.

What may change is a cell, which has a name of a few words, and its value is a text, empty where there is nothing:

- `session A B`: what edge A says of its session with B
- `end E W`: what edge E says of its end of wire W
- `told E W PEER` and `heard E W PEER`: the label that E advertises to its neighbour on the wire, with `!` while it is withdrawn, and the one
  that it has heard
- `label E N`: what holds the number N of a label of E that is no longer advertised: `waits PEER` for a connection with that peer, `rests
  TICK` since that tick, or `free`
- `circuit C`: on or off
- `octets A B`: how many octets of LDP are on their way from A to B
- `packet N`: edge, edge, wire, wire of arrival and frame of a packet that is under way
- `mac S E ADDRESS`: the port behind which edge E has learned an address of service S, and the tick
- `calm S`: calm or not
- `adjacency A B`: what A says of the Hellos of B, in a report of `discover`
- `tick`: how many there were
"""

from __future__ import annotations

import itertools

from .label_steps import Labels
from .learned import Learned
from .network import OPERATIONAL, UP, network_of
from .report import ALWAYS

TYPE_CHECKING = False
if TYPE_CHECKING:
    from collections.abc import Callable, Sequence
    from typing import Any

    from .network import Network
    from .plan import Plan
    from .report import Report

# A copy that is dropped for this cause was made by a bridge, which has learned before.
BEHIND_THE_BRIDGE = "LinkFault"
OF_PACKETS = ("frame", "arrive", "drop")
OF_LDP = ("connect", "deliver", "lose", "restart")


class Steps:
    """The cells, their values, and the changes of each event: those of event N stand from `begins[N]` up to `begins[N + 1]`; those
    before the first event are of event 0."""

    def __init__(self) -> None:
        self.cells: dict[str, int] = {}
        self.values: dict[str, int] = {"": 0}
        self.begins: list[int] = [0]
        self.changed: list[int] = []
        self.to: list[int] = []
        self.now: dict[str, str] = {}
        self.before: dict[str, str] = {}  # of what was put since the last event

    @classmethod
    def of(cls, data: dict[str, Any]) -> Steps:
        """The steps of their data."""
        made = cls()
        made.cells, made.values = ({name: place for place, name in enumerate(data[kind])} for kind in ("cells", "values"))
        made.begins, made.changed, made.to = [0, *itertools.accumulate(data["counts"])], data["changed"], data["to"]
        return made

    def put(self, name: str, text: str) -> None:
        """A cell has this value from here on."""
        now = self.now.get(name, "")
        if now != text:
            self.before.setdefault(name, now)
            if text:
                self.now[name] = text
            else:
                del self.now[name]

    def end_event(self) -> None:
        """The changes from here on are those of the next event."""
        for name, before in self.before.items():
            now = self.now.get(name, "")
            if now != before:
                self.changed.append(self.cells.setdefault(name, len(self.cells)))
                self.to.append(self.values.setdefault(now, len(self.values)))
        self.before.clear()
        self.begins.append(len(self.changed))

    def behind(self) -> Steps:
        """Steps of which what is so now is so before the first event."""
        made = Steps()
        made.now = self.now.copy()
        for name, text in self.now.items():
            made.changed.append(made.cells.setdefault(name, len(made.cells)))
            made.to.append(made.values.setdefault(text, len(made.values)))
        made.begins.append(len(made.changed))
        return made

    def data(self, known: Steps | None = None) -> dict[str, Any]:
        """All of it, ready for JSON: how many changes each event has, and not where they begin. What others that began as these did have
        already is left out."""
        counts = [after - before for before, after in zip(self.begins, self.begins[1:])]
        cells, values, events, changes = (len(known.cells), len(known.values), len(known.begins) - 1, len(known.changed)) if known else (0, 0, 0, 0)
        return {
            "cells": list(self.cells)[cells:],
            "values": list(self.values)[values:],
            "counts": counts[events:],
            "changed": self.changed[changes:],
            "to": self.to[changes:],
        }


class Follower:
    """Follows the lines of a report and writes down what each event changes."""

    def __init__(self, plan: Plan, network: Network) -> None:
        self.plan, self.network, self.steps = plan, network, Steps()
        self.learned, self.labels = Learned(plan), Labels(plan, network, self.steps.put)
        # By a tick what may be forgotten then: the service, the edge, the address, and since when it was known.
        self.old: dict[int, list[tuple[str, str, str, int]]] = {}
        self.sources: dict[str, str] = {}  # of each frame
        # What a bridge hears by the event that is followed, unless that drops it: service, edge, address, port.
        self.hears: tuple[str, str, str, str] | None = None
        self.touched: set[tuple[str, str]] = set()  # ways of which octets were put or taken
        # The services of each two neighbours, and of each service the neighbours that are not settled.
        self.services: dict[frozenset[str], list[str]] = {}
        for service in plan.services:
            for pair in plan.pairs(service):
                self.services.setdefault(frozenset(pair), []).append(service)
        self.unsettled: dict[str, set[frozenset[str]]] = {service: set() for service in plan.services}
        self.put_all()

    def behind(self) -> Follower:
        """One that goes on where this one is, and begins with what is so now."""
        made = Follower.__new__(Follower)
        made.plan, made.network, made.steps = self.plan, self.network.copy(), self.steps.behind()
        made.learned, made.labels = self.learned.copy(), self.labels.copy(made.network, made.steps.put)
        made.old = {tick: rows.copy() for tick, rows in self.old.items()}
        made.sources, made.hears, made.touched = self.sources.copy(), None, set()
        made.services, made.unsettled = self.services, {service: pairs.copy() for service, pairs in self.unsettled.items()}
        return made

    def follow(self, rows: list[list[str]], keeps: Callable[[int], bool] = lambda place: True) -> Steps:
        """Follows all lines. What an event changes that is not kept is told with the next one that is."""
        is_kept = len(self.steps.begins) == 1  # else what is so before the first event is told already
        place, whole = 0, len(rows)
        while place < whole:
            row = rows[place]
            if row[0] == ">":
                self.end_event(is_kept)
                is_kept = keeps(place)
                if not is_kept and row[1] in OF_PACKETS:
                    place = self.pass_by(rows, place, keeps)
                    continue
                is_told = place + 1 < whole and rows[place + 1][0] == "idle" and row[1] not in ALWAYS
                if not self.network.is_idle(is_told, row[1], row[2:]):
                    self.begin(row[1], row[2:])
            else:
                self.take(row)
            place += 1
        self.end_event(is_kept)
        return self.steps

    def pass_by(self, rows: list[list[str]], place: int, keeps: Callable[[int], bool]) -> int:
        """Goes past frames and packets that are not kept, of which no more is told than what bridges hear by them; answers where it stopped."""
        under, mine = self.network.packets, set[str]()
        while place < len(rows):
            row = rows[place]
            kind = row[0]
            if kind == ">":
                self.hear()
                if row[1] not in OF_PACKETS or keeps(place):
                    break
                if row[1] != "frame":
                    packet = under.pop(row[2], None)
                    if row[2] not in mine:
                        self.steps.put(f"packet {row[2]}", "")
                    if row[1] == "arrive":
                        self.arrive(packet)
            elif kind == "sent":
                under[row[1]] = row[2:7]
                mine.add(row[1])
            elif kind != "left":
                self.take(row)
            place += 1
        self.hear()
        for name in sorted(mine & under.keys()):
            self.steps.put(f"packet {name}", " ".join(under[name]))
        return place

    def put_all(self) -> None:
        """What is so before the first event."""
        for a, b in self.network.sessions:
            self.steps.put(f"session {a} {b}", self.network.sessions[a, b])
        for (edge, wire), state in self.network.ends.items():
            self.steps.put(f"end {edge} {wire}", state)
        for circuit in self.plan.circuits:
            self.steps.put(f"circuit {circuit}", "on")
        self.put_calm()

    def begin(self, kind: str, words: list[str]) -> None:
        """What an event does that applies."""
        sent = self.network.packets.get(words[0]) if kind == "arrive" else None
        heard = self.network.heard
        self.network.apply(kind, words)
        if kind in OF_LDP:
            self.touch(kind, words)
        if kind == "deliver":
            self.withdraw(words)
            self.labels.deliver(words[0], words[1], self.network.heard - heard)
        elif kind == "connect":
            self.labels.connect(words[0], words[1], self.learned.ticks)
        elif kind == "restart":
            self.restart(words[0])
        elif kind == "tick":
            self.tick()
        elif kind in ("arrive", "drop"):
            self.steps.put(f"packet {words[0]}", "")
            self.arrive(sent)
        elif kind == "circuit":
            self.steps.put(f"circuit {words[0]}", words[1])
            if words[1] == "off":
                row = self.plan.circuits[words[0]]
                self.forget(row["service"], row["edge"], words[0])

    def arrive(self, packet: Sequence[str] | None) -> None:
        """A packet comes to its edge; a switching point hears nothing by it."""
        if packet is not None and packet[4] in self.sources and packet[1] in self.plan.wires[packet[2]].ends():
            self.hears = self.plan.wires[packet[2]].service, packet[1], self.sources[packet[4]], packet[2]

    def hear(self) -> None:
        """What a bridge hears by an event it learns."""
        if self.hears is not None and len(self.hears[2]) == len("020000000001"):
            self.learn(*self.hears)
        self.hears = None

    def touch(self, kind: str, words: list[str]) -> None:
        """The connections of which an event puts or takes octets, or whose sessions may change by it."""
        if kind == "restart":
            self.touched.update(way for way in self.network.pipes if words[0] in way)
            return
        for way in ((words[0], words[1]), (words[1], words[0])):
            if way in self.network.pipes:
                self.touched.add(way)
                self.steps.put(f"session {way[0]} {way[1]}", self.network.sessions[way])

    def take(self, row: list[str]) -> None:
        """What a line tells."""
        kind, *words = row
        self.network.tell(kind, words)
        if kind == "said":
            self.touched.add((words[0], words[1]))
            self.labels.say(words[0], words[1], words[2])
        elif kind == "session":
            self.steps.put(f"session {words[0]} {words[1]}", words[2])
            self.touched.update(((words[0], words[1]), (words[1], words[0])))
            if words[2] != OPERATIONAL:
                self.labels.end(words[0], words[1])
        elif kind == "wire":
            self.steps.put(f"end {words[0]} {words[1]}", words[2])
            if words[2] != UP:
                self.forget(self.plan.wires[words[1]].service, words[0], words[1])
        elif kind in ("sent", "copied"):
            self.steps.put(f"packet {words[0]}", " ".join(self.network.packets.get(words[0], ())))
        elif kind == "aged":
            self.steps.put(f"packet {words[0]}", "")
        elif kind == "in":
            circuit = self.plan.circuits[words[0]]
            self.sources[words[1]] = words[2][12:24]
            self.hears = circuit["service"], circuit["edge"], words[2][12:24], words[0]
        elif kind == "dropped" and words[2] != BEHIND_THE_BRIDGE:
            self.hears = None
        elif kind == "adjacency":
            self.steps.put(f"adjacency {words[0]} {words[1]}", words[2])

    def end_event(self, is_kept: bool) -> None:
        """What is so behind an event."""
        self.hear()
        for a, b in sorted(self.touched):
            if (a, b) in self.network.pipes:
                octets = self.network.pipes[a, b].octets()
                self.steps.put(f"octets {a} {b}", str(octets) if octets else "")
                self.settle(a, b)
        if self.touched or self.network.told:
            self.put_calm()
        self.touched.clear()
        self.network.told.clear()
        if is_kept:
            self.steps.end_event()

    def put_calm(self) -> None:
        """Which services are calm."""
        for service, pairs in self.unsettled.items():
            self.steps.put(f"calm {service}", "calm" if not pairs and self.network.is_full(service) else "not calm")

    def settle(self, a: str, b: str) -> None:
        """Two neighbours may be settled now, or no longer."""
        pair, is_settled = frozenset((a, b)), self.network.is_settled(a, b)
        for service in self.services[pair]:
            if is_settled:
                self.unsettled[service].discard(pair)
            else:
                self.unsettled[service].add(pair)

    def learn(self, service: str, edge: str, address: str, port: str) -> None:
        """A bridge hears an address."""
        if self.learned.bridges[service].get(edge, {}).get(address) == (port, self.learned.ticks):
            return
        self.learned.learn(service, edge, address, port)
        found = self.learned.bridges[service].get(edge, {}).get(address)
        if found == (port, self.learned.ticks):
            self.steps.put(f"mac {service} {edge} {address}", f"{port} {found[1]}")
            forgets = found[1] + self.plan.services[service]["age"]
            self.old.setdefault(forgets, []).append((service, edge, address, found[1]))

    def tick(self) -> None:
        """A tick: what has grown old is forgotten."""
        self.learned.ticks += 1
        self.labels.tick(self.learned.ticks)
        self.steps.put("tick", str(self.learned.ticks))
        for service, edge, address, since in self.old.pop(self.learned.ticks, ()):
            bridge = self.learned.bridges[service].get(edge, {})
            if address in bridge and bridge[address][1] == since:
                del bridge[address]
                self.steps.put(f"mac {service} {edge} {address}", "")

    def forget(self, service: str, edge: str, port: str) -> None:
        """What was learned behind a port is forgotten."""
        before = list(self.learned.bridges[service].get(edge, ()))
        self.learned.forget_port(service, edge, port)
        self.put_forgotten(service, edge, before)

    def restart(self, edge: str) -> None:
        """An edge forgets all."""
        for service, bridges in self.learned.bridges.items():
            before = list(bridges.pop(edge, ()))
            self.put_forgotten(service, edge, before)
        for a, b in self.network.sessions:
            if a == edge:
                self.labels.end(a, b)
                self.steps.put(f"session {a} {b}", self.network.sessions[a, b])
        for end, wire in self.network.ends:
            if end == edge:
                self.steps.put(f"end {end} {wire}", self.network.ends[end, wire])

    def withdraw(self, words: list[str]) -> None:
        """An edge hears withdrawals of addresses."""
        pipe = self.network.pipes.get((words[0], words[1]))
        came = pipe.came if pipe is not None else []
        if not came:
            return
        before = {service: list(bridges.get(words[1], ())) for service, bridges in self.learned.bridges.items()}
        for octets in came:
            self.learned.withdraw(words[1], words[0], octets)
        for service, addresses in before.items():
            self.put_forgotten(service, words[1], addresses)

    def put_forgotten(self, service: str, edge: str, before: list[str]) -> None:
        """Those of the addresses that a bridge no longer knows."""
        bridge = self.learned.bridges[service].get(edge, {})
        for address in before:
            if address not in bridge:
                self.steps.put(f"mac {service} {edge} {address}", "")


def steps_of(plan: Plan, report: Report) -> Steps:
    """The steps of a report over its plan."""
    return Follower(plan, network_of(plan, report.rows)).follow(report.rows)
