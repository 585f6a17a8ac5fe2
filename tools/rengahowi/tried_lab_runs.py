"""Random scenarios for the checks of `tools/from-lab`, of each kind: one edge, a mesh, spokes, moves, switching points, pings, losses and
restarts. No two frames of one scenario have the same octets."""

from __future__ import annotations

import random

from . import writing

TYPE_CHECKING = False
if TYPE_CHECKING:
    from typing import Any

KINDS = ("one edge", "mesh", "spokes", "moves", "switching points", "pings", "losses", "restarts")


class RandomRun:
    """A scenario of a seed. Its kind is that of the seed, one after another."""

    def __init__(self, seed: int) -> None:
        self.kind, self.rng = KINDS[seed % len(KINDS)], random.Random(seed)
        self.frames, self.events = 0, list[str]()
        self.rows = self.plan()
        self.circuits = [row["name"] for row in self.rows["circuit"]]

    def plan(self) -> dict[str, list[dict[str, Any]]]:
        """The rows of the plan, with some offers that differ from the usual ones."""
        rng = self.rng
        services, tags, circuits = rng.choice((1, 2, 2, 3)), rng.random() < 0.3, rng.choice((1, 1, 2))
        if self.kind == "one edge":
            return writing.mesh(1, rng.choice((2, 3)), services, tags)
        if self.kind in ("mesh", "losses", "restarts") and rng.random() < 0.7:
            rows = writing.mesh(rng.choice((2, 3, 3, 4)), circuits, services, tags)
        else:
            spokes = 1 if self.kind == "spokes" else 2
            rows = writing.hierarchy(rng.choice((2, 3)), rng.choice((1, 2)), circuits, spokes, services, tags, self.kind == "switching points")
        for wire in rows["wire"]:
            offer: dict[str, Any] = {"control_word": False} if rng.random() < 0.3 else {}
            offer |= {"mode": "tagged"} if rng.random() < 0.2 else {}
            offer |= {"vccv": rng.choice((1, 2, 4, 7))} if self.kind == "pings" else {}
            # Which of several spokes an edge uses is told by statuses alone.
            offer |= {"status": False} if wire["class"] == "mesh" and rng.random() < 0.2 else {}
            if offer:
                wire["near"] = offer
        return rows

    def text(self) -> str:
        """The scenario."""
        self.events += [*writing.connected(self.rows)]
        for _ in range(self.rng.randrange(6, 14)):
            self.step()
        self.events += ["flow 1000", "settle 10000"]
        for _ in range(4):
            self.flood()
        return writing.scenario(self.rows, self.events, f"A random run: {self.kind}.")

    def step(self) -> None:
        """Something happens; mostly frames, and what the kind is named by."""
        what: dict[str, Any] = {
            "moves": self.move, "spokes": self.switch, "pings": self.ping, "losses": self.lose_packet, "restarts": self.restart,
        }
        chance = self.rng.random()
        if chance < 0.5:
            self.flood()
        elif chance < 0.8:
            what.get(self.kind, self.switch)()
        elif chance < 0.9:
            self.switch_circuit()
        else:
            self.events.append(self.rng.choice(("tick", "tick 2", "settle 3", "settle 10000")))

    def frame(self) -> None:
        """A frame enters: to all, to a group, or to a station that may have been heard."""
        place = self.rng.randrange(len(self.circuits))
        tag = self.rows["circuit"][place].get("tag")
        target = self.rng.choice(("ffffffffffff", "01005e000001", f"0200000000{self.rng.randrange(len(self.circuits)):02x}"))
        self.frames += 1
        tagged = f"8100{tag:04x}" if tag is not None else ""
        filling = "00" * self.rng.choice((0, 4, 42, 300))
        self.events.append(f"frame {self.circuits[place]} {target}0200000000{place:02x}{tagged}88b5{self.frames:08x}{filling}")

    def flood(self) -> None:
        """A frame, whose copies all arrive; now and then two at once, or something in between."""
        self.frame()
        if self.rng.random() < 0.2:
            self.frame()
        if self.rng.random() < 0.1:
            self.events += ["flow 1", self.rng.choice(("tick", "settle 1"))]
        self.events.append("flow 1000")

    def settle(self) -> None:
        """LDP is delivered, in part or whole."""
        self.events.append(self.rng.choice(("settle 1", "settle 4", "settle 10000", "settle 10000")))

    def segment(self) -> tuple[str, str]:
        """Two neighbours."""
        wire = self.rng.choice(self.rows["wire"])
        place = self.rng.randrange(len(wire["path"]) - 1)
        a, b = wire["path"][place : place + 2]
        return (a, b) if self.rng.random() < 0.5 else (b, a)

    def move(self) -> None:
        """A spoke gets another priority, or tells a failure."""
        spokes = [wire for wire in self.rows["wire"] if wire["class"] == "spoke"]
        if not spokes:
            return
        spoke = self.rng.choice(spokes)
        number = self.rng.choice((0, 5, 15, 40))
        self.events.append(f"priority {spoke['path'][0]} {spoke['name']} {number}")
        self.settle()

    def switch(self) -> None:
        """A wire goes off or on, or a session is lost."""
        if not self.rows["wire"]:
            return
        wire, (a, b) = self.rng.choice(self.rows["wire"]), self.segment()
        edge = self.rng.choice(wire["path"])
        told = f"status {wire['path'][0]} {wire['name']} {self.rng.choice((0, 1, 2))}"
        self.events.append(self.rng.choice((f"wire {edge} {wire['name']} off", f"wire {edge} {wire['name']} on", f"lose {a} {b}", told)))
        self.settle()
        if self.rng.random() < 0.6:
            self.events += [f"wire {edge} {wire['name']} on", f"connect {a} {b}"]
            self.settle()

    def switch_circuit(self) -> None:
        """A circuit goes off or on."""
        self.events.append(f"circuit {self.rng.choice(self.circuits)} {self.rng.choice(('off', 'on', 'on'))}")

    def ping(self) -> None:
        """A ping of a wire, whose packets arrive."""
        if self.rows["wire"]:
            wire = self.rng.choice(self.rows["wire"])
            self.events += [f"ping {self.rng.choice((wire['path'][0], wire['path'][-1]))} {wire['name']}", "flow 1000"]

    def lose_packet(self) -> None:
        """A frame of whose packets some are lost or repeated. Numbers of packets that are not under way are idle."""
        self.frame()
        for _ in range(3):
            number = self.rng.randrange(1, 3 * self.frames + 3)
            self.events.append(f"{self.rng.choice(('drop', 'again', 'arrive'))} {number}")
        self.events.append("flow 1000")

    def restart(self) -> None:
        """An edge restarts, and joins again."""
        edge = self.rng.choice(self.rows["edge"])["name"]
        self.events.append(f"restart {edge}")
        self.settle()
        if self.rng.random() < 0.8:
            self.events += [event for event in writing.connected(self.rows) if edge in event.split(" ")]
            self.settle()
