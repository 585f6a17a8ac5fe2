"""Plans by chance, of what a vendor's configurations can say, and when two plans are the same but for the names that a configuration does
not have."""

from __future__ import annotations

from collections import Counter

from . import writing

TYPE_CHECKING = False
if TYPE_CHECKING:
    import random
    from typing import Any

    from .plan import Plan

# What ends offer, as the configurations of a vendor can say it: at each end by itself, or the same at all.
EACH: dict[str, list[str]] = {
    "ios-xr": ["mode", "control_word"],
    "ios": ["mode", "control_word", "vccv", "status"],
    "junos": ["mode", "control_word", "vccv", "status", "description"],
    "sr-os": ["mode", "control_word", "vlan", "status", "description"],
    "vrp": [],
    "frr": ["control_word", "status"],
}
TOGETHER: dict[str, list[str]] = {
    "ios-xr": ["status", "description"],
    "ios": ["description"],
    "junos": [],
    "sr-os": [],
    "vrp": ["mode", "control_word", "description"],
    "frr": ["mode"],
}
VALUES: dict[str, list[Any]] = {
    "mode": ["raw", "tagged"],
    "control_word": [True, False],
    "status": [True, False],
    "vlan": [None, 7, 4095],
    "vccv": [0, 1, 3, 6],
    "description": ["", "from end to end", "7"],
}
UNUSUAL: dict[str, dict[str, Any]] = {"vrp": {"mode": "tagged"}, "junos": {"status": False}}
RANKS = {"ios-xr": (0, 1), "ios": (0, 7), "junos": (0, 1), "sr-os": (0, 4), "vrp": (3, 9)}
LEAST_KEEPALIVE = {"ios-xr": 15, "ios": 15, "frr": 15}


def random_plan(chance: random.Random, vendor: str) -> str:
    """The text of a plan of core edges in mesh, and of spoke edges with one spoke or two where the vendor has them."""
    cores, leaves = chance.randint(1, 4), 0 if vendor == "frr" else chance.randint(0, 3)
    rows: dict[str, list[dict[str, Any]]] = {"edge": [], "service": [], "circuit": [], "wire": []}
    for number in range(cores + leaves):
        row: dict[str, Any] = {"name": f"e{number}", "address": f"10.0.{chance.randint(0, 255)}.{number + 1}"}
        if chance.random() < 0.3:
            row["keepalive"] = chance.randint(LEAST_KEEPALIVE.get(vendor, 3), 65535)
        rows["edge"].append(row)
    for number in range(chance.randint(1, 3)):
        add_service(chance, vendor, rows, f"s{number}", cores, leaves)
    return writing.scenario(rows, [])


def add_service(chance: random.Random, vendor: str, rows: dict[str, list[dict[str, Any]]], service: str, cores: int, leaves: int) -> None:
    """A service of some of the edges."""
    row: dict[str, Any] = {"name": service, "mtu": chance.choice([1500, 1500, 9000, 576])}
    if vendor not in ("vrp", "frr") and chance.random() < 0.3:
        row["age"] = chance.randint(1, 9999)
    rows["service"].append(row)
    core = sorted(chance.sample(range(cores), chance.randint(1, cores)))
    number = 1000 * (len(rows["service"]) + 1)
    shared = {key: chance.choice(VALUES[key]) for key in TOGETHER[vendor]} if vendor != "ios-xr" else {}
    if vendor == "ios-xr":
        shared = {"description": chance.choice(VALUES["description"])}
    add_circuits(chance, rows, service, [edge for edge in core if chance.random() < 0.8])
    for place, near in enumerate(core):
        for far in core[place + 1 :]:
            number += vendor != "junos"
            add_wire(chance, vendor, rows, shared, service, "mesh", [near, far], number)
    for leaf in range(cores, cores + leaves):
        if chance.random() < 0.2:
            continue
        ends = chance.sample(core, min(len(core), chance.randint(1, 2)))
        add_circuits(chance, rows, service, [leaf], vendor == "ios" and len(ends) > 1)
        number += 1
        for place, end in enumerate(ends):
            add_wire(chance, vendor, rows, shared, service, "spoke", [leaf, end], number)
            if len(ends) > 1:
                rows["wire"][-1]["priority"] = RANKS[vendor][place]


def add_circuits(chance: random.Random, rows: dict[str, list[dict[str, Any]]], service: str, edges: list[int], one: bool = False) -> None:
    """Circuits of a service at some edges; one at each, or up to two."""
    for edge in edges:
        for _ in range(1 if one else chance.randint(1, 2)):
            row: dict[str, Any] = {"name": f"c{len(rows['circuit'])}", "edge": f"e{edge}", "service": service}
            rows["circuit"].append({**row, **({"tag": chance.randint(1, 4094)} if chance.random() < 0.6 else {})})


def add_wire(
    chance: random.Random, vendor: str, rows: dict[str, list[dict[str, Any]]], shared: dict[str, Any], service: str, kind: str, path: list[int], pw_id: int
) -> None:
    """A wire of a service, whose ends offer what the vendor can say."""
    row: dict[str, Any] = {"name": f"w{len(rows['wire'])}", "service": service, "class": kind, "path": [f"e{edge}" for edge in path], "pw_id": pw_id}
    both = {key: chance.choice(VALUES[key]) for key in EACH[vendor]}
    for end in ("near", "far"):
        own = {key: chance.choice(VALUES[key]) for key in EACH[vendor] if chance.random() < 0.1}
        offer: dict[str, Any] = {**UNUSUAL.get(vendor, {}), **shared, **both, **own}
        row[end] = {key: value for key, value in offer.items() if value is not None}
    rows["wire"].append(row)


def same_but_for_names(plan: Plan) -> tuple[Any, ...]:
    """What two plans have to agree on: all but the names of circuits and wires, the direction of mesh wires, and the events."""
    wires: Counter[tuple[Any, ...]] = Counter()
    for wire in plan.wires.values():
        ends = [(wire.path, wire.near, wire.far), (wire.path[::-1], wire.far, wire.near)]
        path, near, far = min(ends, key=lambda end: end[0]) if wire.kind == "mesh" else ends[0]
        wires[wire.service, wire.kind, path, wire.pw_id, wire.priority, tuple(sorted(near.items(), key=str)), tuple(sorted(far.items(), key=str))] += 1
    circuits = Counter((row["edge"], row["service"], row["tag"]) for row in plan.circuits.values())
    edges = {name: tuple(row.items()) for name, row in plan.edges.items()}
    return edges, {name: tuple(row.items()) for name, row in plan.services.items()}, circuits, wires
