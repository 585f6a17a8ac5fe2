"""What a configuration says of VPLS, whichever vendor's it is."""

from __future__ import annotations

from typing import NamedTuple

TYPE_CHECKING = False
if TYPE_CHECKING:
    from typing import Any

# How an end of a pseudowire is forwarded: in split horizon with its like, to and from all others, or to and from one circuit.
MESH, SPOKE, POINT = "mesh", "spoke", "point"


class Said(NamedTuple):
    """A value, and the line that says it."""

    value: Any
    line: int


class Told(NamedTuple):
    """What a planner is told of a line, and of another line where it takes two."""

    path: str
    line: int
    kind: str
    text: str
    other_path: str | None = None
    other_line: int | None = None


class Circuit:
    """An attachment circuit: its interface, and the tag of its frames."""

    def __init__(self, interface: str, line: int, tag: int | None = None) -> None:
        self.interface, self.line, self.tag = interface, line, tag


class Pseudowire:
    """One end of a pseudowire: its neighbour, its PW ID, what it offers, and how it is forwarded. An end with a rank is one of several
    by which its edge reaches the rest, of which the least rank is used."""

    def __init__(self, name: str, line: int, kind: str = MESH) -> None:
        self.name, self.line, self.kind = name, line, kind
        self.neighbour: str | None = None
        self.pw_id: Said | None = None
        self.rank: Said | None = None
        self.offer: dict[str, Said] = {}
        self.classes: list[Said] = []
        self.left_out = False


class Instance:
    """A service at a router: its name, what all its pseudowires offer, its circuits and pseudowires, and after how long it forgets. One
    that is a point joins one circuit with a pseudowire, without a bridge."""

    def __init__(self, name: str | None, line: int) -> None:
        self.name, self.line = name, line
        self.offer: dict[str, Said] = {}
        self.circuits: list[Circuit] = []
        self.pseudowires: list[Pseudowire] = []
        self.age: Said | None = None
        self.pw_id: Said | None = None
        self.shut = self.point = False


class Router:
    """What a configuration says of its router."""

    def __init__(self, path: str, vendor: str, lines: int) -> None:
        self.path, self.vendor, self.lines = path, vendor, lines
        self.name: str | None = None
        self.address: str | None = None
        self.addresses: dict[str, int] = {}
        self.keepalive = self.age = 0
        self.offer: dict[str, Said] = {}
        self.classes: dict[str, dict[str, Said]] = {}
        self.defaults: dict[str, Any] = {}
        self.instances: list[Instance] = []
        self.told: list[Told] = []

    def offered(self, instance: Instance, wire: Pseudowire) -> dict[str, Said]:
        """What an end offers, each with the line that says it: of what nothing says, that of the pseudowire."""
        found = {key: Said(value, wire.line) for key, value in self.defaults.items()}
        for offer in (self.offer, instance.offer, *(self.classes.get(name.value, {}) for name in wire.classes), wire.offer):
            found.update(offer)
        return found
