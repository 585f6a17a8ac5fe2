"""What all writers of configurations have in common: the part of each service at an edge, and what a vendor's words cannot say."""

from __future__ import annotations

import re
from typing import NamedTuple

TYPE_CHECKING = False
if TYPE_CHECKING:
    from typing import Any

    from ..plan import Plan, Wire

# What an end offers of which nothing is said, but for what each vendor's words mean then.
SILENT: dict[str, Any] = {"vlan": None, "vccv": 0, "group": 0, "description": ""}
USUAL_PRIORITY = 100
# A description that every vendor's words can have.
PLAIN = re.compile(r"[!#-~]+(?: [!#-~]+)*")


class End(NamedTuple):
    """An end of a wire at an edge, and the address of the edge at its other end."""

    wire: Wire
    offer: dict[str, Any]
    far: str


class Port(NamedTuple):
    """A circuit: its name, its tag, and the number of its port, from 1."""

    name: str
    tag: int | None
    number: int


class Part:
    """A service at an edge: its circuits, and the ends of its wires: in the mesh, those where a spoke ends, and those where one starts, the
    one that is used first."""

    def __init__(self, number: int, service: str) -> None:
        self.number, self.service = number, service
        self.circuits: list[Port] = []
        self.mesh: list[End] = []
        self.hubs: list[End] = []
        self.starts: list[End] = []
        self.ranks: list[int] = []

    def ends(self) -> list[End]:
        """All ends."""
        return [*self.mesh, *self.hubs, *self.starts]


class Text:
    """The configurations of a plan in a vendor's words. `left_out` has a line for each thing that they do not say."""

    ending = ".cfg"
    # The keys of an end that no word of the vendor says, and those of which a service has one value at an edge.
    unsaid: tuple[str, ...] = ()
    shared: tuple[str, ...] = ()
    # How many spokes one spoke edge chooses among at most, and the priorities that can be said.
    most_spokes = 2
    ranks = range(2)
    says_age = True
    meanings: dict[str, Any] = {}
    least_keepalive = 3

    def __init__(self, plan: Plan) -> None:
        self.plan = plan
        self.left_out: list[str] = []

    def leave(self, text: str) -> None:
        """Something that is not said."""
        if text not in self.left_out:
            self.left_out.append(text)

    def files(self, _name: str) -> dict[str, str]:
        """All files, by their names."""
        self.check_services()
        return {f"{edge}{self.ending}": self.router(edge, self.parts(edge)) for edge in self.plan.edges}

    def router(self, edge: str, parts: list[Part]) -> str:
        """The configuration of an edge."""
        raise NotImplementedError

    def check_services(self) -> None:
        """Tells what is not said of services and edges."""
        for edge, row in self.plan.edges.items():
            for key, usual in (("first_label", 16), ("max_pdu", 4096)):
                if row[key] != usual:
                    self.leave(f"edge {edge}: {key} is left out")
        for wire in self.plan.wires.values():
            if len(wire.path) > 2:
                self.leave(f"wire {wire.name} is left out: a switching point is not written")
        for service, row in self.plan.services.items():
            wires = [wire for wire in self.plan.wires_of(service) if len(wire.path) == 2]
            if not wires and not self.plan.circuits_of(service):
                self.leave(f"service {service} is left out: no edge has a part in it")
            mtus = [wire.offer(edge)["mtu"] for wire in wires for edge in wire.ends()]
            if mtus and max(mtus) != row["mtu"]:
                self.leave(f"service {service}: its MTU {row['mtu']} is left out, since its pseudowires offer {max(mtus)} at most")
            if row["age"] != 300 and not self.says_age:
                self.leave(f"service {service}: its age {row['age']} is left out")

    def parts(self, edge: str) -> list[Part]:
        """The services of an edge."""
        found = {service: Part(place, service) for place, service in enumerate(self.plan.services, 1)}
        number = 0
        for name, row in self.plan.circuits.items():
            if row["edge"] == edge:
                number += 1
                found[row["service"]].circuits.append(Port(name, row["tag"], number))
        for wire in self.plan.wires.values():
            if edge in wire.ends() and len(wire.path) == 2:
                far = wire.path[1] if edge == wire.path[0] else wire.path[0]
                part = found[wire.service]
                ends = part.mesh if wire.kind == "mesh" else part.starts if edge == wire.path[0] else part.hubs
                ends.append(End(wire, dict(wire.offer(edge)), self.plan.edges[far]["address"]))
        parts = [part for part in found.values() if part.circuits or part.ends()]
        for part in parts:
            self.choose(edge, part)
            self.check_ends(edge, part)
        return parts

    def choose(self, edge: str, part: Part) -> None:
        """Orders the spokes of a spoke edge, and tells of priorities that are not said as they are."""
        part.starts.sort(key=lambda end: end.wire.priority)
        for end in part.starts[self.most_spokes :]:
            self.leave(f"wire {end.wire.name} at {edge} is left out: a spoke edge has {self.most_spokes} spokes at most")
        del part.starts[self.most_spokes :]
        if len(part.starts) == 1 and part.starts[0].wire.priority != USUAL_PRIORITY:
            self.leave(f"wire {part.starts[0].wire.name}: its priority {part.starts[0].wire.priority} is left out: it is the only spoke")
        part.ranks = self.ranks_of([end.wire.priority for end in part.starts]) if len(part.starts) > 1 else []
        for end, rank in zip(part.starts, part.ranks):
            if rank != end.wire.priority:
                self.leave(f"wire {end.wire.name}: its priority {end.wire.priority} becomes {rank}")

    def ranks_of(self, priorities: list[int]) -> list[int]:
        """The priorities that are said of spokes in their order: those of the plan where all can be said, and the least ones else."""
        return priorities if all(priority in self.ranks for priority in priorities) else list(self.ranks[: len(priorities)])

    def check_ends(self, edge: str, part: Part) -> None:
        """Tells what is not said of ends, and has them offer what is said."""
        ends = part.ends()
        for end in ends:
            if end.offer["description"] and "description" not in self.unsaid and not PLAIN.fullmatch(end.offer["description"]):
                self.leave(f"wire {end.wire.name} at {edge}: its description is left out: it is no plain words with a blank between each two")
                end.offer["description"] = ""
            for key in self.unsaid:
                usual = SILENT[key] if key in SILENT else self.meanings[key].value
                if end.offer[key] != usual:
                    self.leave(f"wire {end.wire.name} at {edge}: {key} {end.offer[key]} is left out")
                    end.offer[key] = usual
            for key in self.shared:
                if end.offer[key] != ends[0].offer[key]:
                    self.leave(f"wire {end.wire.name} at {edge}: {key} {end.offer[key]!r} is left out, since a service has one here, {ends[0].offer[key]!r}")
                    end.offer[key] = ends[0].offer[key]
            if end.offer["mtu"] == 0:
                self.leave(f"wire {end.wire.name} at {edge}: that it tells no MTU is left out")
                end.offer["mtu"] = self.plan.services[part.service]["mtu"]

    def one(self, part: Part, key: str) -> Any:
        """The value that all ends of a service share here."""
        if part.ends():
            return part.ends()[0].offer[key]
        if key == "mtu":
            return self.plan.services[part.service]["mtu"]
        return SILENT[key] if key in SILENT else self.meanings[key].value

    def keepalive(self, edge: str) -> int | None:
        """The KeepAlive time of an edge, where it is not the one that stands by itself."""
        said: int = self.plan.edges[edge]["keepalive"]
        if said < self.least_keepalive:
            self.leave(f"edge {edge}: its keepalive is {self.least_keepalive}, the least that is taken, and not {said}")
            said = self.least_keepalive
        return None if said == self.meanings["keepalive"].value else said

    def age(self, part: Part) -> int | None:
        """The age of a service, where it is not the one that stands by itself."""
        age: int = self.plan.services[part.service]["age"]
        return age if age != self.meanings["age"].value else None
