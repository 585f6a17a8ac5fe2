"""The rows of a plan as a scenario of version 2 has them, without what is a default."""

from __future__ import annotations

from .keys import EDGE, OFFER, SERVICE

TYPE_CHECKING = False
if TYPE_CHECKING:
    from typing import Any

    from .keys import Key
    from .plan import Plan, Wire

    Rows = dict[str, list[dict[str, Any]]]


def rows_of_plan(plan: Plan) -> Rows:
    """All rows."""
    numbers = dict.fromkeys(offer["group"] for wire in plan.wires.values() for offer in (wire.near, wire.far) if offer["group"])
    groups = {number: next((name for name, row in plan.groups.items() if row["number"] == number), f"g{number}") for number in numbers}
    return {
        "edge": [plain(row, EDGE) for row in plan.edges.values()],
        "service": [plain(row, SERVICE) for row in plan.services.values()],
        "group": [{"name": name, "number": number} for number, name in groups.items()],
        "circuit": [{key: value for key, value in row.items() if value is not None} for row in plan.circuits.values()],
        "wire": [wire_row(plan, wire, groups) for wire in plan.wires.values()],
    }


def plain(row: dict[str, Any], keys: list[Key]) -> dict[str, Any]:
    """A row without its defaults."""
    return {key.name: row[key.name] for key in keys if key.needed or row[key.name] != key.default}


def wire_row(plan: Plan, wire: Wire, groups: dict[int, str]) -> dict[str, Any]:
    """The row of a wire."""
    row: dict[str, Any] = {"name": wire.name, "service": wire.service, "class": wire.kind, "path": list(wire.path), "pw_id": wire.pw_id}
    if wire.kind == "spoke" and wire.priority != 100:
        row["priority"] = wire.priority
    mtu = plan.services[wire.service]["mtu"]
    near, far = (
        {key.name: groups[offer["group"]] if key.name == "group" else offer[key.name] for key in OFFER if told(key, offer[key.name], mtu)}
        for offer in (wire.near, wire.far)
    )
    if near:
        row["near"] = near
    if far != near:
        row["far"] = far
    return row


def told(key: Key, value: Any, mtu: int) -> bool:
    """Whether a value of an offer is no default."""
    if key.name == "group":
        return bool(value)
    return bool(value != (mtu if key.name == "mtu" else key.default))
