"""Writes a report of a lab, cut into stretches that `audit` takes one by one: each begins with what stands by then."""

from __future__ import annotations

import array
import collections
import os
import pathlib
import tempfile

from .capture_reading import BROADCAST
from .network import UP, Network
from .report import REPORT

TYPE_CHECKING = False
if TYPE_CHECKING:
    from collections.abc import Callable

    from .lab_frames import Place
    from .plan import Plan

# A stretch ends behind this many octets. The program takes 67,108,864, and no frame with its copies has as many as are left.
MOST = 50_331_648
PLACES = 1 << 40
PIECE = 65535


class Stretch:
    """A part of the report in a file: how many lines it has, of which kinds, and what is seen in each line by its capture and packet."""

    def __init__(self, number: int) -> None:
        self.number = number
        handle, self.path = tempfile.mkstemp(prefix="rengahowi-lab-", suffix=".report")
        self.file = os.fdopen(handle, "w", encoding="ascii", buffering=1 << 20)
        # By the first two letters of a line, of which no two kinds have the same ones.
        self.counts: collections.Counter[str] = collections.Counter()
        self.places = array.array("Q", [0])
        self.size, self.last, self.packets = 0, "", 0
        self.sources: set[tuple[str, str]] = set()
        self.line(REPORT, 0)

    def line(self, text: str, place: int) -> None:
        """Writes a line."""
        self.file.write(text + "\n")
        self.places.append(place)
        self.size += len(text) + 1
        self.counts[text[:2]] += 1

    def end(self) -> None:
        """Writes the last line."""
        kinds = {"events": "> ", "in": "in", "left": "le", "sent": "se", "dropped": "dr"}
        self.line("end " + " ".join(f"{name}={self.counts[kind]}" for name, kind in kinds.items()), 0)
        self.file.close()

    def place_of(self, line: int) -> Place:
        """The capture and the packet of a line."""
        return self.places[line] // PLACES, self.places[line] % PLACES

    def remove(self) -> None:
        """Removes the file."""
        pathlib.Path(self.path).unlink(missing_ok=True)


class Stretches:
    """The whole report. Each stretch that is done is handed on."""

    def __init__(self, plan: Plan, done: Callable[[Stretch], None]) -> None:
        self.plan, self.network, self.done = plan, Network(plan), done
        self.off: set[str] = set()
        self.states: dict[tuple[str, str], str] = {}
        # What was said and not yet delivered as whole PDUs, and how many octets of it were delivered.
        self.said: dict[tuple[str, str], list[bytes]] = {}
        self.part: dict[tuple[str, str], int] = {}
        self.now = Stretch(1)

    def event(self, text: str) -> None:
        """An event."""
        self.now.last = text
        self.now.line(f"> {text}", 0)

    def entry(self, text: str, place: Place) -> None:
        """What is told of frames and packets."""
        self.now.line(text, place[0] * PLACES + place[1])

    def beside(self) -> None:
        """What is told next comes of no event of LDP that is seen: time has passed."""
        if self.now.last.split(" ")[0] not in ("connect", "deliver", "lose", "tick"):
            self.event("tick")

    def connect(self, a: str, b: str) -> None:
        """A connection comes to stand."""
        self.network.apply("connect", (a, b))
        for way in ((a, b), (b, a)):
            self.said[way], self.part[way] = [], 0
        self.event(f"connect {a} {b}")

    def lose(self, a: str, b: str) -> None:
        """An end of one is gone, and what was on its way to it."""
        if (a, b) not in self.network.stands:
            return
        self.network.apply("lose", (a, b))
        self.said[b, a], self.part[b, a] = [], 0
        self.event(f"lose {a} {b}")

    def say(self, a: str, b: str, octets: bytes) -> None:
        """An edge says something."""
        self.network.tell("said", (a, b, octets.hex()))
        if (b, a) in self.network.stands:
            self.said.setdefault((a, b), []).append(octets)
        self.beside()
        self.entry(f"said {a} {b} {octets.hex()}", (0, 0))

    def deliver(self, a: str, b: str, count: int) -> None:
        """What was said comes, or a part of it."""
        if (b, a) not in self.network.stands:
            return
        self.network.apply("deliver", (a, b, count))
        waiting, self.part[a, b] = self.said.setdefault((a, b), []), self.part.get((a, b), 0) + count
        while waiting and self.part[a, b] >= len(waiting[0]):
            self.part[a, b] -= len(waiting.pop(0))
        while count > 0:
            self.event(f"deliver {a} {b} {min(count, PIECE)}")
            count -= PIECE

    def wire(self, edge: str, wire: str, state: str) -> None:
        """An end of a pseudowire is up, or down for a cause."""
        self.states[edge, wire] = state
        self.network.tell("wire", (edge, wire, state))
        self.beside()
        self.entry(f"wire {edge} {wire} {state}", (0, 0))

    def circuit(self, circuit: str, state: str) -> None:
        """A port goes on or off."""
        self.network.apply("circuit", (circuit, state))
        (self.off.discard if state == "on" else self.off.add)(circuit)
        self.event(f"circuit {circuit} {state}")

    def came(self, service: str, source: str) -> None:
        """A frame of this source has entered."""
        self.now.sources.add((service, source))

    def needs(self, service: str, station: str) -> None:
        """A frame goes to a station that was heard, of which this stretch has no frame yet: it gets one, which is nobody's."""
        if (service, station) not in self.now.sources:
            self.came(service, station)
            self.event("tick")
            self.entry(f"in {self.plan.circuits_of(service)[0]} 0 {BROADCAST.hex()}{station}88b5", (0, 0))

    def cut(self) -> None:
        """Ends the stretch where it is long enough, and begins the next one with what stands."""
        if self.now.size >= MOST:
            self.finish()
            self.now = Stretch(self.now.number + 1)
            self.stand()

    def stand(self) -> None:
        """Tells what stands: connections with what is on its way, pseudowires, and the ports that are off."""
        for a, b in self.plan.pairs():
            ends = [way for way in ((a, b), (b, a)) if way in self.network.stands]
            if ends:
                self.event(f"connect {a} {b}")
                for way in ((a, b), (b, a)):
                    if way not in ends:
                        self.event(f"lose {way[0]} {way[1]}")
                for way in ends:
                    self.stand_way(*way[::-1])
        up = [end for end, state in self.states.items() if state == UP]
        for edge, wire in up:
            self.beside()
            self.entry(f"wire {edge} {wire} up", (0, 0))
        for circuit in sorted(self.off):
            self.event(f"circuit {circuit} off")

    def stand_way(self, a: str, b: str) -> None:
        """Tells what is on its way to an end that stands."""
        for octets in self.said.get((a, b), ()):
            self.entry(f"said {a} {b} {octets.hex()}", (0, 0))
        if self.part.get((a, b)):
            self.event(f"deliver {a} {b} {self.part[a, b]}")

    def finish(self) -> None:
        """Ends the report, or a stretch of it."""
        self.now.end()
        self.done(self.now)
