"""A JSON Schema of scenarios (draft 7), for editors that know TOML, made of the keys that the tools know; and a test of a document
against it, over the keywords that it uses."""

from __future__ import annotations

import re

from .event_kinds import SHAPES
from .keys import MOST_ROWS, NEWEST, OFFER, TABLES, allowed

TYPE_CHECKING = False
if TYPE_CHECKING:
    from collections.abc import Callable, Iterator
    from typing import Any

    from .keys import Key

NAME = "[a-z0-9_]{1,32}"
OCTET = "(25[0-5]|2[0-4][0-9]|1[0-9][0-9]|[1-9]?[0-9])"
NUMBER = "(0|[1-9][0-9]*)"
# What stands behind the first word of an event, by its kind in event_words. A number's range is not looked at.
WORDS = {"octets": "([0-9a-fA-F]{2})+", "switch": "(on|off)", "file": "[^ ]+"}
# What each key says, for whoever points at it in an editor. A word that several tables have stands with its table.
ABOUT = {
    "version": "2, or 1, which is read as before",
    "events": "what happens, in order; stands before the first table",
    "edge": "a provider edge, or a switching point",
    "service": "one customer",
    "group": "a group of wires",
    "circuit": "a site of a service, at an edge",
    "wire": "a pseudowire of a service",
    "edge name": "the edge's name",
    "address": "its LDP identifier; of two edges the one with the larger address speaks first",
    "first_label": "its first label",
    "keepalive": "the hold time that it proposes, in ticks",
    "max_pdu": "the longest PDU that it proposes, in octets",
    "service name": "the service's name",
    "service mtu": "how many octets a frame may carry",
    "age": "the ticks until a station is forgotten",
    "group name": "the group's name, by which near and far have it",
    "number": "the Group ID that is told",
    "circuit name": "the circuit's name",
    "circuit edge": "the name of the edge that it hangs on",
    "circuit service": "the name of its service",
    "tag": "the VLAN ID of its frames; without it they come as they are",
    "wire name": "the pseudowire's name",
    "wire service": "the name of its service",
    "class": "mesh between two core edges, or spoke from a spoke edge, the first on the path, to a core edge",
    "path": "the names of the edges that it passes; those between the first and the last one are switching points",
    "pw_id": "the PW ID that both ends tell",
    "priority": "of several spokes the usable one with the least number is used",
    "near": "what the first edge of the path offers",
    "far": "what the last edge of the path offers; without it the same as near, and with it defaults for what it does not say",
    "mode": "raw or tagged",
    "control_word": "whether it wants a control word",
    "mtu": "the MTU that it tells; 0 is not told, and without it it is the service's",
    "vlan": "the VLAN ID that it requests",
    "vccv": "its control channels for pings: 1 with a control word, else 2, 4 or 6; 0 is not told",
    "status": "whether it tells statuses",
    "wire group": "the number of its group",
    "end group": "the name of its group",
    "description": "a text of at most 80 octets",
}


def about(table: Any, key: str) -> Any:
    """What a key of a table says."""
    plain = key.removeprefix("far_")
    said = ABOUT.get(f"{table} {plain}") or ABOUT[plain]
    return said if plain == key else f"{said}; of the last edge of the path, and as {plain} without it"


def value_of(key: Key) -> Any:
    """The schema of a key's value."""
    name = {"type": "string", "pattern": f"^{NAME}$"}
    path = {"type": "array", "items": name, "minItems": 2, "maxItems": 5, "uniqueItems": True}
    return {
        "name": name,
        "address": {"type": "string", "pattern": rf"^(?!0\.0\.0\.0$){OCTET}(\.{OCTET}){{3}}$"},
        "number": {"type": "integer", "minimum": key.least, "maximum": key.most},
        "text": {"type": "string", "maxLength": key.most},
        "flag": {"type": "boolean"},
        "path": path,
        "class": {"type": "string", "enum": ["mesh", "spoke"]},
        "mode": {"type": "string", "enum": ["raw", "tagged"]},
        "table": {"$ref": "#/definitions/end"},
    }[key.kind]


def property_of(table: Any, key: Key) -> Any:
    """The schema of a key: its value, what it says, and its default."""
    if key.kind == "table":
        return {"allOf": [value_of(key)], "description": about(table, key.name)}
    found: dict[str, Any] = {**value_of(key), "description": f"{about(table, key.name)}: {allowed(key)}"}
    return found if key.default is None else {**found, "default": key.default}


def row_of(table: Any, keys: Any) -> Any:
    """The schema of a row, or of an end."""
    found = {"type": "object", "properties": {key.name: property_of(table, key) for key in keys}, "additionalProperties": False}
    needed = [key.name for key in keys if key.needed]
    return {**found, "required": needed} if needed else found


def event_pattern() -> str:
    """What an event looks like."""
    rows = []
    for first, shape in SHAPES.items():
        rest = "".join(f" {NUMBER if isinstance(kind, tuple) else WORDS.get(kind, NAME)}" for kind in shape)
        rows.append(f"{first}({rest})?" if first == "tick" else first + rest)
    return f"^({'|'.join(rows)})$"


def array(name: str, items: Any) -> dict[Any, Any]:
    """The schema of an array of tables."""
    return {"type": "array", "maxItems": MOST_ROWS[name], "items": items, "description": ABOUT[name]}


def schema() -> dict[Any, Any]:
    """The whole schema. An editor shows and completes the keys of version 2; what a version refuses stands in a case of its own."""
    tables = {name: array(name, row_of(name, keys)) for name, keys in TABLES[NEWEST].items()}
    del tables["wire"]["items"]["additionalProperties"]
    shared = [key.name for key in TABLES[NEWEST]["wire"]]
    newer = {"properties": dict.fromkeys(shared, True), "additionalProperties": False}
    older = row_of("wire", TABLES[1]["wire"])
    older = {**newer, "properties": {name: rule if name not in shared else True for name, rule in older["properties"].items()}}
    return {
        "$schema": "http://json-schema.org/draft-07/schema#",
        "title": "A scenario of vplsnet",
        "description": "docs/FORMATS.md has the rules; tools/check-scenario finds also what no schema does, such as a name of no row",
        "type": "object",
        "properties": {
            "version": {"enum": [NEWEST, 1], "description": ABOUT["version"]},
            "events": array("events", {"type": "string", "pattern": event_pattern()}),
            **tables,
        },
        "required": ["version"],
        "additionalProperties": False,
        "if": {"properties": {"version": {"const": 1}}, "required": ["version"]},
        "then": {"properties": {"group": False, "wire": {"items": older}}},
        "else": {"properties": {"wire": {"items": newer}}},
        "definitions": {"end": row_of("end", OFFER)},
    }


def is_of(kind: str, value: Any) -> Any:
    """Whether a value is of a type of JSON."""
    kinds = {"object": dict, "array": list, "string": str, "integer": int, "boolean": bool}
    return isinstance(value, kinds[kind]) and (kind != "integer" or not isinstance(value, bool))


def faults(rule: Any, value: Any, whole: Any, path: tuple[Any, ...] = ()) -> Iterator[Any]:
    """The paths at which a value is not as its schema wants it, over the keywords that stand above; `whole` is the schema of all."""
    if rule is False:
        yield path
    if isinstance(rule, bool):
        return
    tests = {
        "type": lambda it: is_of(it, value),
        "enum": lambda it: value in it,
        "const": lambda it: value == it,
        "pattern": lambda it: not isinstance(value, str) or re.search(it.removesuffix("$") + r"\Z", value),
        "maxLength": lambda it: not isinstance(value, str) or len(value) <= it,
        "minimum": lambda it: not is_of("integer", value) or value >= it,
        "maximum": lambda it: not is_of("integer", value) or value <= it,
        "minItems": lambda it: not isinstance(value, list) or len(value) >= it,
        "maxItems": lambda it: not isinstance(value, list) or len(value) <= it,
        "uniqueItems": lambda it: not isinstance(value, list) or len(value) == len({repr(one) for one in value}),
        "required": lambda it: not isinstance(value, dict) or all(key in value for key in it),
    }
    for word in tests:
        test: Callable[[Any], Any] = tests[word]
        if word in rule and not test(rule[word]):
            yield path
    yield from faults_inside(rule, value, whole, path)
    for part in rule.get("allOf", []) + ([named(rule["$ref"], whole)] if "$ref" in rule else []):
        yield from faults(part, value, whole, path)
    if "if" in rule:
        case = "else" if any(faults(rule["if"], value, whole)) else "then"
        yield from faults(rule[case], value, whole, path)


def faults_inside(rule: Any, value: Any, whole: Any, path: tuple[Any, ...]) -> Iterator[Any]:
    """The same of what stands in a value."""
    if isinstance(value, list) and "items" in rule:
        for number, one in enumerate(value):
            yield from faults(rule["items"], one, whole, (*path, number))
    if isinstance(value, dict):
        known = rule.get("properties", {})
        for key, one in value.items():
            yield from faults(known.get(key, rule.get("additionalProperties", True)), one, whole, (*path, key))


def named(name: str, whole: Any) -> Any:
    """A part of the schema by its name, such as #/definitions/end."""
    for key in name.split("/")[1:]:
        whole = whole[key]
    return whole
