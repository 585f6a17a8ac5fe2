"""Which pseudowires are the mesh and which are spokes, and at which end a spoke starts: a scenario has two tiers, core edges in the mesh of
a service and spoke edges that hang on them (RFC 4762 section 10)."""

from __future__ import annotations

from collections import Counter
from typing import NamedTuple

from .parts import MESH, POINT, SPOKE, Instance, Pseudowire, Router

TYPE_CHECKING = False
if TYPE_CHECKING:
    from collections.abc import Callable


class End(NamedTuple):
    """An end of a pseudowire, with where it stands. That of an edge without a configuration has no kind of its own."""

    router: Router
    instance: Instance
    wire: Pseudowire
    guessed: bool = False

    def chooses(self) -> bool:
        """Whether its edge has it as one of several, or as the way of one circuit."""
        return not self.guessed and (self.wire.rank is not None or self.wire.kind == POINT)

    def is_of(self, kind: str) -> bool:
        """Whether it may be of a kind."""
        return self.guessed or self.wire.kind == kind


class Joined:
    """A pseudowire: its ends, its class in a scenario, and where it starts. Without a class it is left out."""

    def __init__(self, near: End, far: End) -> None:
        self.near, self.far = near, far
        self.kind: str | None = None

    def turn(self, start: Router) -> None:
        """Has it start at one of its routers."""
        if self.far.router is start:
            self.near, self.far = self.far, self.near

    def routers(self) -> tuple[Router, Router]:
        """Both routers."""
        return self.near.router, self.far.router


class Spokes:
    """The classes of all pseudowires of a service. `tell` is told of what a scenario cannot have: an end, words, and the kind of what is
    told."""

    def __init__(self, wires: list[Joined], tell: Callable[[End, str, str], None]) -> None:
        self.wires, self.tell = wires, tell
        self.core = {router for wire in wires if self.is_mesh(wire) for router in wire.routers()}
        self.starts = {end.router for wire in wires for end in (wire.near, wire.far) if end.chooses()} - self.core
        self.degree = Counter(router for wire in wires for router in wire.routers())

    @staticmethod
    def is_mesh(wire: Joined) -> bool:
        """Whether both ends have it in the mesh."""
        ends = wire.near, wire.far
        return all(end.is_of(MESH) for end in ends) and not any(end.chooses() for end in ends)

    def sort(self) -> None:
        """Gives each its class and its start."""
        undecided = []
        for wire in self.wires:
            if self.is_mesh(wire):
                wire.kind = MESH
            elif not self.decide(wire):
                undecided.append(wire)
        self.inner(undecided)
        self.check()

    def decide(self, wire: Joined) -> bool:
        """A wire of which either end says that it is no mesh; false where the number of wires has to tell."""
        near, far = wire.near, wire.far
        choosing = [end for end in (near, far) if end.chooses()]
        if len(choosing) == 2:
            return self.leave(near, "both its ends choose among several, and in a scenario a spoke edge alone does", "tiers")
        for end in choosing:
            if end.router in self.core:
                return self.leave(end, "its edge is in the mesh of this service and chooses among spokes, which makes a third tier", "tiers")
            return self.starts_at(wire, end)
        if near.router in self.starts or far.router in self.starts:
            return self.starts_at(wire, near if near.router in self.starts else far)
        return self.by_mesh(wire)

    def by_mesh(self, wire: Joined) -> bool:
        """A wire that is a spoke to one end at least, by which of its edges are in the mesh."""
        in_mesh = [end for end in (wire.near, wire.far) if not end.guessed and end.wire.kind == MESH]
        for end in in_mesh:
            if end.router not in self.core:
                return self.starts_at(wire, end)
            self.tell(end, "is in the split horizon of the mesh here, and a spoke at its other end: it stands as a mesh wire", "differs")
            wire.kind = MESH
            return True
        outside = [end for end in (wire.near, wire.far) if end.router not in self.core]
        if len(outside) == 1:
            return self.starts_at(wire, outside[0])
        if not outside:
            return self.leave(wire.near, "it is a spoke between two edges of the mesh, and a scenario has two tiers", "tiers")
        return False

    def starts_at(self, wire: Joined, end: End) -> bool:
        """A spoke, which starts here."""
        wire.turn(end.router)
        wire.kind = SPOKE
        if not wire.far.guessed and wire.far.wire.kind == MESH and len(wire.far.instance.pseudowires) > 1:
            self.tell(wire.far, "is in split horizon with the others here, and a spoke in the scenario: frames do not pass between them", "differs")
        return True

    def leave(self, end: End, why: str, kind: str) -> bool:
        """A wire that is left out."""
        self.tell(end, f"is left out: {why}", kind)
        return True

    def inner(self, wires: list[Joined]) -> None:
        """Wires that are spokes to both ends, with no edge of the mesh: the edge that has one alone is the spoke edge. Two edges that both
        have more are core edges, and the wire between them is the mesh, as long as each has one such wire."""
        between = Counter(router for wire in wires if min(self.degree[one] for one in wire.routers()) > 1 for router in wire.routers())
        for wire in wires:
            near, far = wire.routers()
            if min(self.degree[near], self.degree[far]) == 1:
                self.starts_at(wire, wire.near if self.degree[near] < self.degree[far] else wire.far)
            elif between[near] == between[far] == 1:
                wire.kind = MESH
                self.core.update((near, far))
            else:
                self.leave(wire.near, "it is a spoke of a third tier", "tiers")

    def check(self) -> None:
        """Leaves out a spoke that ends at a spoke edge, and one that starts at an edge of the mesh."""
        mesh = {router for wire in self.wires if wire.kind == MESH for router in wire.routers()}
        starts = {wire.near.router for wire in self.wires if wire.kind == SPOKE and wire.near.router not in mesh}
        for wire in self.wires:
            if wire.kind == SPOKE and wire.near.router in mesh:
                self.leave(wire.near, "its edge is in the mesh of this service already, and a scenario has two tiers", "tiers")
                wire.kind = None
            elif wire.kind == SPOKE and wire.far.router in starts:
                self.leave(wire.near, "the edge at which it ends is a spoke edge itself, and a scenario has two tiers", "tiers")
                wire.kind = None
