"""Which way a frame goes from a state of the network, edge by edge, and why."""

from __future__ import annotations

from .arrivals import Arrivals
from .command import Fault
from .probing import BROADCAST
from .stale import Tables

TYPE_CHECKING = False
if TYPE_CHECKING:
    from typing import Any

    from .at_event import AtEvent
    from .plan import Plan, Wire

# An edge passes a frame on so often at most until it has come to all.
MOST_STEPS = 64


class Station:
    """What the edges hold: the stations that they have learned, and why the end of a wire does not forward."""

    def __init__(self, lines: list[str]) -> None:
        self.learned = Tables("\n".join(lines)).learned
        self.states: dict[tuple[str, str], str] = {}
        edge = ""
        for line in lines:
            kind, *words = line.split(" ")
            if kind == "edge":
                edge = words[0]
            elif kind == "end":
                self.states[edge, words[0]] = words[5]


def lines_of(at: AtEvent, circuit: str, octets: str) -> list[str]:
    """The lines that a frame makes which enters there, once each of its copies has arrived: packets that are under way already do not."""
    arrivals = Arrivals()
    first = sum(line.startswith(("sent ", "copied ")) for line in at.lines) + 1
    for _ in range(MOST_STEPS):
        events, _ = arrivals.events(0, set(), first)
        lines = at.behind([f"frame {circuit} {octets}", *events])
        if not arrivals.learn(lines, [0], first):
            return lines
    raise Fault("the frame does not come to an end")


class Way:
    """The steps of a frame: what each edge that it comes to makes of it."""

    def __init__(self, plan: Plan, station: Station, lines: list[str]) -> None:
        self.plan, self.station = plan, station
        self.steps: list[dict[str, Any]] = []
        packets: dict[str, list[str]] = {}
        for line in lines:
            kind, *words = line.split(" ")
            if kind == ">" and words[0] == "frame":
                circuit, octets = words[1:]
                self.circuit, self.to = circuit, octets[:12].lower()
                self.begin(plan.circuits[circuit]["edge"], circuit, "")
            elif kind == ">" and words[0] == "arrive":
                edge, peer, wire = packets[words[1]][:3]
                self.begin(peer, wire, edge)
            elif kind == "idle":
                self.steps[-1]["why"] = "the circuit is off"
            elif kind == "sent":
                packets[words[0]] = words[1:]
                self.steps[-1]["sent"].append({"to": words[2], "wire": words[3]})
            elif kind == "left":
                self.steps[-1]["left"].append(words[0])
            elif kind == "dropped":
                self.steps[-1]["dropped"] = words[2]
        for step in self.steps:
            step["why"] = step["why"] or self.why(step)
            step["not"] = self.not_by(step)

    def begin(self, edge: str, by: str, sender: str) -> None:
        """The frame comes to an edge, by a circuit or by a wire from a neighbour."""
        self.steps.append({"edge": edge, "by": by, "from": sender, "sent": [], "left": [], "dropped": None, "why": ""})

    def service(self) -> str:
        """The service that it belongs to."""
        return str(self.plan.circuits[self.circuit]["service"])

    def is_passed(self, step: dict[str, Any]) -> bool:
        """Whether an edge is a switching point of the wire by which the frame comes, and looks at no address."""
        wire = self.plan.wires.get(step["by"])
        return wire is not None and step["edge"] not in wire.ends()

    def why(self, step: dict[str, Any]) -> str:
        """Why an edge does with it what it does."""
        if step["dropped"]:
            return f"it is dropped: {step['dropped']}"
        if self.is_passed(step):
            return f"a switching point of {step['by']} passes it on"
        if int(self.to[:2], 16) % 2:
            return "it goes to everybody" if self.to == BROADCAST else "it goes to a group"
        learned = self.station.learned.get((step["edge"], self.service(), self.to))
        if learned is None:
            return "its station is not known"
        if learned.port == step["by"]:
            return f"its station is behind {learned.port}, by which it came"
        return f"its station is behind {learned.port}, as learned in tick {learned.tick}"

    def not_by(self, step: dict[str, Any]) -> list[dict[str, str]]:
        """The wires by which an edge does not send what it floods, and why."""
        key = (step["edge"], self.service(), self.to)
        if step["dropped"] or self.is_passed(step) or key in self.station.learned:
            return []
        sent = {one["wire"] for one in step["sent"]}
        wires = [wire for wire in self.plan.wires_of(self.service()) if step["edge"] in wire.ends() and wire.name not in sent]
        return [{"wire": wire.name, "why": self.why_not(step, wire)} for wire in wires]

    def why_not(self, step: dict[str, Any], wire: Wire) -> str:
        """Why a flooded frame does not go by a wire."""
        came = self.plan.wires.get(step["by"])
        if came is wire:
            return "it came by it"
        state = self.station.states.get((step["edge"], wire.name), "")
        if state != "up":
            return state
        return "it came by a mesh wire" if came is not None and came.kind == wire.kind == "mesh" else "it is too long for it, or its link takes nothing"

    def missed(self, on: list[str]) -> list[str]:
        """The sites of its service at which it did not leave."""
        left = {site for step in self.steps for site in step["left"]}
        return [site for site in on if site not in left and site != self.circuit]
