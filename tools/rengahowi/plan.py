"""A scenario as the program accepts it: edges, services, circuits, wires and events."""

from __future__ import annotations

from .command import Fault, text_of
from .keys import ENDS, OFFER, PLAIN_OFFER, TABLES
from .plain_toml import NotPlain, read_plain

TYPE_CHECKING = False
if TYPE_CHECKING:
    import pathlib
    from typing import Any


class Wire:
    """A pseudowire: its path from the first to the last edge, and what each of the two terminal edges offers, by key."""

    __slots__ = ("name", "service", "kind", "path", "pw_id", "priority", "near", "far")

    def __init__(self, keys: dict[str, Any], near: dict[str, Any], far: dict[str, Any]) -> None:
        self.name: str = keys["name"]
        self.service: str = keys["service"]
        self.kind: str = keys["class"]  # mesh or spoke
        self.path: tuple[str, ...] = tuple(keys["path"])
        self.pw_id: int = keys["pw_id"]
        self.priority: int = keys["priority"]
        self.near, self.far = near, far

    def __eq__(self, other: object) -> bool:
        """Whether both say the same."""
        return isinstance(other, Wire) and all(getattr(self, name) == getattr(other, name) for name in self.__slots__)

    def __hash__(self) -> int:
        """Equal ones have one name."""
        return hash(self.name)

    def ends(self) -> tuple[Any, ...]:
        """Its two terminal edges."""
        return self.path[0], self.path[-1]

    def offer(self, edge: str) -> dict[str, Any]:
        """What a terminal edge offers."""
        return self.near if edge == self.path[0] else self.far

    def segments(self) -> list[Any]:
        """The pairs of neighbours on its path."""
        return list(zip(self.path, self.path[1:]))


class Plan:
    """The rows of a scenario by their names, in its order."""

    def __init__(self, rows: dict[str, Any]) -> None:
        self.version = rows["version"]
        self.edges, self.services, self.groups, self.circuits = (
            {row["name"]: self.filled(table, row) for row in rows.get(table, [])} for table in ("edge", "service", "group", "circuit")
        )
        self.wires = {row["name"]: self.wire_of(row) for row in rows.get("wire", [])}
        self.events = rows.get("events", [])

    def filled(self, table: str, row: dict[str, Any]) -> dict[Any, Any]:
        """A row with its defaults."""
        return {key.name: row.get(key.name, key.default) for key in TABLES[self.version][table]}

    def wire_of(self, row: dict[str, Any]) -> Wire:
        """A wire of its row: an MTU that is not told is 0, and an absent one the service's; a group is its number."""
        keys = self.filled("wire", row)
        if self.version == 1:
            near = {key.name: keys[key.name] for key in PLAIN_OFFER}
            far = {name: value if keys[f"far_{name}"] is None else keys[f"far_{name}"] for name, value in near.items()}
        else:
            near, far = ({key.name: (keys[end] or {}).get(key.name, key.default) for key in OFFER} for end in ENDS)
            for offer in (near, far):
                offer["group"] = 0 if offer["group"] is None else self.groups[offer["group"]]["number"]
            far = near if keys["far"] is None else far
        for offer in (near, far):
            if offer["mtu"] is None:
                offer["mtu"] = self.services[keys["service"]]["mtu"]
        return Wire(keys, near, far)

    def part(self, service: str) -> Plan:
        """The plan of one service alone, with the edges that have something of it."""
        made = Plan.__new__(Plan)
        made.version, made.groups, made.events = self.version, self.groups, self.events
        made.services = {service: self.services[service]}
        made.circuits = {name: row for name, row in self.circuits.items() if row["service"] == service}
        made.wires = {wire.name: wire for wire in self.wires_of(service)}
        own = {edge for wire in made.wires.values() for edge in wire.path} | {row["edge"] for row in made.circuits.values()}
        made.edges = {name: row for name, row in self.edges.items() if name in own}
        return made

    def wires_of(self, service: str) -> list[Any]:
        """The wires of a service."""
        return [wire for wire in self.wires.values() if wire.service == service]

    def circuits_of(self, service: str) -> list[Any]:
        """The names of the circuits of a service."""
        return [name for name, row in self.circuits.items() if row["service"] == service]

    def spoke_edges(self, service: str) -> set[Any]:
        """The edges at which spokes of a service start."""
        return {wire.path[0] for wire in self.wires_of(service) if wire.kind == "spoke"}

    def core_edges(self, service: str) -> list[Any]:
        """The edges that have a circuit or a wire's end of a service, and start no spoke of it."""
        ends = {edge for wire in self.wires_of(service) for edge in wire.ends()}
        sites = {row["edge"] for row in self.circuits.values() if row["service"] == service}
        return [edge for edge in self.edges if edge in (ends | sites) - self.spoke_edges(service)]

    def pairs(self, service: str | None = None) -> list[Any]:
        """The pairs of edges that a segment of a wire joins, of one service or of all, each once, in the plan's order."""
        found: dict[tuple[str, str], None] = {}
        places = {name: place for place, name in enumerate(self.edges)}
        for wire in self.wires.values():
            for a, b in wire.segments() if service in (None, wire.service) else ():
                found[(a, b) if places[a] < places[b] else (b, a)] = None
        return list(found)


def tables_of(text: str) -> dict[str, Any]:
    """The tables of a text of TOML."""
    try:
        return read_plain(text)
    except NotPlain:
        import tomllib  # where it is needed: its start takes longer than most calls

        return tomllib.loads(text)


def is_address(text: str) -> bool:
    """Whether a text is a dotted quad without leading zeros, other than 0.0.0.0."""
    parts = text.split(".")
    return len(parts) == 4 and text != "0.0.0.0" and all(is_octet(part) for part in parts)


def is_octet(part: Any) -> bool:
    """Whether a text is a number up to 255 without leading zeros."""
    return part.isascii() and part.isdigit() and len(part) <= 3 and (part == "0" or part[0] != "0") and int(part) < 256


def read_plan(path: str | pathlib.Path) -> Plan:
    """The plan of a scenario's file. What the program would refuse is not told apart here: `check-scenario` does that."""
    return plan_of(text_of(path), path)


def plan_of(text: str, path: str | pathlib.Path) -> Plan:
    """The plan of the text of a scenario, which came from this file."""
    try:
        plan = Plan(tables_of(text))
        known = set(plan.edges)
        whole = all(row["edge"] in known and row["service"] in plan.services for row in plan.circuits.values())
        if not whole or not all(len(wire.path) > 1 and known.issuperset(wire.path) for wire in plan.wires.values()):
            raise ValueError("a row names what is not there")
        if not isinstance(plan.events, list) or not all(isinstance(event, str) for event in plan.events):
            raise ValueError("events is no array of texts")
        if not all(is_address(row["address"]) for row in plan.edges.values()):
            raise ValueError("an address is none")
        return plan
    except (KeyError, TypeError, ValueError, AttributeError, RecursionError) as fault:
        raise Fault(f"{path} is no scenario that the program accepts ({fault}); tools/check-scenario {path} says more") from None
