"""Writes scenarios of version 2: the text of rows and events, and plans of real size."""

from __future__ import annotations

import re

from .command import Fault
from .event_kinds import MOST
from .keys import MOST_ROWS, NEWEST
from .plan import Plan
from .settle_bound import LINES, Bound, settles

TYPE_CHECKING = False
if TYPE_CHECKING:
    from collections.abc import Iterable
    from typing import Any


def value(it: Any) -> str:
    """A value as TOML writes it."""
    if isinstance(it, bool):
        return "true" if it else "false"
    if isinstance(it, int):
        return str(it)
    if isinstance(it, (list, tuple)):
        return "[" + ", ".join(value(one) for one in it) + "]"
    if isinstance(it, dict):
        return "{ " + ", ".join(f"{key} = {value(one)}" for key, one in it.items()) + " }" if it else "{}"
    return '"' + re.sub(r'[\x00-\x1f"\\\x7f]', escaped, it) + '"'


def escaped(found: Any) -> str:
    """A character that a text of TOML cannot have as it is."""
    return f"\\{found[0]}" if found[0] in '"\\' else f"\\u{ord(found[0]):04x}"


def scenario(rows: dict[str, list[dict[str, Any]]], events: list[str], comment: str = "") -> str:
    """The text of a scenario: `rows` has for each table a list of rows, each a dict of its keys; an end of
    a wire is a dict in it."""
    for table, most in MOST_ROWS.items():
        count = len(events) if table == "events" else len(rows.get(table, ()))
        if count > most:
            raise Fault(f"{count} rows of {table}: a scenario has at most {most}")
    text = "".join(f"# {line}\n" for line in comment.splitlines())
    text += f"version = {NEWEST}\nevents = [\n" + "".join(f"  {value(event)},\n" for event in events) + "]\n"
    for table, found in rows.items():
        for row in found:
            text += f"\n[[{table}]]\n" + "".join(f"{key} = {value(it)}\n" for key, it in row.items())
    return text


def connected(rows: dict[str, list[dict[str, Any]]]) -> list[str]:
    """The events that connect each two neighbours, and deliver until nothing of LDP is left: as often as is proved to be enough."""
    pairs: dict[frozenset[str], tuple[str, str]] = {}
    for wire in rows["wire"]:
        for pair in zip(wire["path"], wire["path"][1:]):
            pairs.setdefault(frozenset(pair), pair)
    return [f"connect {a} {b}" for a, b in pairs.values()] + (settles(bound_of(rows)) if pairs else [])


def bound_of(rows: dict[str, list[dict[str, Any]]]) -> int:
    """By how many deliveries a plan comes to rest at most, once all neighbours are connected."""
    return Bound(Plan({"version": NEWEST, **rows})).connected()


def rest_words(rows: dict[str, list[dict[str, Any]]]) -> str:
    """What a scenario says of that."""
    bound, made = bound_of(rows), MOST * LINES
    few = "" if bound <= made else f"; no more than {made} are made, which are not proved to be enough"
    return f"Once all are connected signalling comes to rest within {bound} deliveries, by proof{few}."


def rows_of(count: int, circuits: int, services: int = 1, tags: bool = False) -> dict[str, list[dict[str, Any]]]:
    """So many edges, e0 and on, so many services, s or s1 and on, and so many circuits of each service at each edge: c0 and on where
    there is one of one service, else c0_0, c0_s1 or c0_s1_0 and on. With tags each service has a VLAN ID of its own, from 101 on."""
    names = ["s"] if services == 1 else [f"s{number + 1}" for number in range(services)]
    rows: dict[str, list[dict[str, Any]]] = {
        "edge": [{"name": f"e{edge}", "address": f"10.0.0.{edge + 1}"} for edge in range(count)],
        "service": [{"name": name} for name in names],
        "circuit": [],
        "wire": [],
    }
    for edge in range(count):
        for place, service in enumerate(names):
            for number in range(circuits):
                name = f"c{edge}" + (f"_{service}" if services > 1 else "") + (f"_{number}" if circuits > 1 else "")
                row: dict[str, Any] = {"name": name, "edge": f"e{edge}", "service": service}
                rows["circuit"].append({**row, "tag": 101 + place} if tags else row)
    return rows


def add_wires(rows: dict[str, list[dict[str, Any]]], kind: str, paths: Iterable[tuple[int, ...]], priorities: list[int] | None | None = None, service: str = "s") -> None:
    """Adds wires of a service along paths of edges, whose names and PW IDs go on from those that are there."""
    for place, path in enumerate(paths):
        number = len(rows["wire"]) + 1
        row = {"name": f"w{number}", "service": service, "class": kind, "path": [f"e{edge}" for edge in path], "pw_id": number}
        if priorities:
            row["priority"] = priorities[place]
        rows["wire"].append(row)


def mesh(count: int, circuits: int, services: int = 1, tags: bool = False) -> dict[str, list[dict[str, Any]]]:
    """A full mesh of so many edges."""
    rows = rows_of(count, circuits, services, tags)
    for service in rows["service"]:
        add_wires(rows, "mesh", [(a, b) for a in range(count) for b in range(a + 1, count)], service=service["name"])
    return rows


def hierarchy(cores: int, spoke_edges: int, circuits: int, spokes: int = 1, services: int = 1, tags: bool = False, stitched: bool = False) -> dict[str, list[dict[str, Any]]]:
    """A full mesh of core edges, and spoke edges that hang on them in turn, each by so many spokes to cores next to each other,
    the first of them with the least priority number. Where they are stitched, a later spoke passes the first one's core edge."""
    rows = rows_of(cores + spoke_edges, circuits, services, tags)
    ends = [(edge, number) for edge in range(spoke_edges) for number in range(spokes)]
    paths = [
        (cores + edge, *([edge % cores] if stitched and number > 0 else []), (edge + number) % cores) for edge, number in ends
    ]
    for service in rows["service"]:
        add_wires(rows, "mesh", [(a, b) for a in range(cores) for b in range(a + 1, cores)], service=service["name"])
        add_wires(rows, "spoke", paths, [min(255, 10 * (number + 1)) for _, number in ends], service["name"])
    return rows
