"""The faults of a scenario, in the order in which the program looks for them (docs/FORMATS.md), with what would be right."""

from __future__ import annotations

import re
from typing import NamedTuple

from .keys import ENDS, MOST_PORTS, MOST_ROWS, NEWEST, OFFER, TABLES, allowed, arrays
from .plan import is_address

TYPE_CHECKING = False
if TYPE_CHECKING:
    from collections.abc import Callable, Iterable, Iterator
    from typing import Any

    from .keys import Key
    from .plan import Wire

NAME = re.compile(r"[a-z0-9_]{1,32}")


class Finding(NamedTuple):
    """A fault: the program's words for it, its path in the document, how far within a text it stands, None where it is of the
    key itself, and what is right. A warning has no words of the program."""

    fault: str
    path: tuple[Any, ...]
    within: int | None
    text: str


def place(table: str, row: Any, key: str) -> str:
    """A place as the program writes it: rows count from 1, and a key is cut at 32 octets."""
    octets = str(key).encode()[:32]
    return f"{table} {row} {''.join(chr(octet) if 0x21 <= octet <= 0x7E else '?' for octet in octets)}"


def is_number(value: Any) -> bool:
    """Whether a value is an integer."""
    return isinstance(value, int) and not isinstance(value, bool)


def has_kind(key: Key, value: Any) -> bool:
    """Whether a value is of a key's kind, whatever its range."""
    if key.kind == "number":
        return is_number(value)
    if key.kind == "flag":
        return isinstance(value, bool)
    if key.kind == "path":
        return isinstance(value, list) and all(isinstance(one, str) for one in value)
    if key.kind == "table":
        return isinstance(value, dict)
    return isinstance(value, str)


def is_in_range(key: Key, value: Any) -> bool:
    """Whether a value of the right kind is one that the key takes."""
    tests = {
        "name": lambda: NAME.fullmatch(value),
        "address": lambda: is_address(value),
        "number": lambda: key.least <= value <= key.most,
        "text": lambda: len(value.encode()) <= key.most,
        "flag": lambda: True,
        "path": lambda: all(NAME.fullmatch(one) for one in value),
        "class": lambda: value in ("mesh", "spoke"),
        "mode": lambda: value in ("raw", "tagged"),
        "table": lambda: True,
    }
    test: Callable[[], Any] = tests[key.kind]
    return bool(test())


def wide_numbers(value: Any, path: tuple[Any, ...] = ()) -> Iterator[Any]:
    """Numbers that need more than 64 bits, which the program's reader of TOML refuses and Python's takes."""
    if is_number(value) and not -(2**63) <= value < 2**63:
        yield Finding("NotToml", path, 0, "a number of TOML has at most 64 bits")
    for key, one in value.items() if isinstance(value, dict) else enumerate(value) if isinstance(value, list) else ():
        yield from wide_numbers(one, (*path, key))


def top_faults(document: Any) -> Iterator[Any]:
    """The faults of the top of the document."""
    if "version" not in document:
        yield Finding("Missing top 0 version", (), 0, f"the first line is version = {NEWEST}")
        return
    version = document["version"]
    if not is_number(version):
        yield Finding("WrongKind top 0 version", ("version",), 0, f"version is the number {NEWEST}, or 1")
        return
    if version not in TABLES:
        yield Finding("Version", ("version",), 0, f"version is {NEWEST}, or 1")
        return
    tables = arrays(version)
    for table in tables:
        rows, kind = document.get(table, []), str if table == "events" else dict
        if not isinstance(rows, list) or not all(isinstance(row, kind) for row in rows):
            right = "an array of texts" if table == "events" else f"rows, each under its own [[{table}]], with two brackets"
            yield Finding(f"WrongKind top 0 {table}", (table,), 0, f"{table} is {right}")
    for key in unknown(document, ["version", *tables]):
        text = f"{key!r} is no key here; there are version, {', '.join(tables)}"
        if key in arrays(NEWEST):
            text = f"{key} is a table of version {NEWEST}, and this scenario is of version {version}"
        yield Finding(f"UnknownKey {place('top', 0, key)}", (key,), None, text)
    for table in tables:
        most = MOST_ROWS[table]
        if isinstance(document.get(table), list) and len(document[table]) > most:
            yield Finding(f"TooMany {table} {most}", (table,), 0, f"at most {most} rows of {table}, and not {len(document[table])}")


def unknown(row: Any, known: Any) -> list[Any]:
    """The keys of a row that no table has, the least in byte order first."""
    return sorted((key for key in row if key not in known), key=str.encode)


def row_faults(document: Any) -> Iterator[Any]:
    """The faults of rows by themselves."""
    for table, keys in TABLES[document["version"]].items():
        for number, row in enumerate(document.get(table, [])):
            yield from faults_of_row(document["version"], table, number, row, keys, (table, number))
            for end in ENDS if table == "wire" and document["version"] == NEWEST else ():
                if isinstance(row.get(end), dict):
                    yield from faults_of_row(document["version"], end, number, row[end], OFFER, (table, number, end))


def faults_of_row(version: int, table: str, number: int, row: Any, keys: Any, path: tuple[Any, ...]) -> Iterator[Any]:
    """The faults of one row, or of one end of a wire, key by key. `path` is where it stands."""
    for key in keys:
        at = place(table, number + 1, key.name)
        if key.name not in row:
            if key.needed:
                yield Finding(f"Missing {at}", path, 0, f"this {table} has no {key.name}: {allowed(key)}")
        elif not has_kind(key, row[key.name]):
            yield Finding(f"WrongKind {at}", (*path, key.name), 0, f"{key.name} is {allowed(key)}")
        elif not is_in_range(key, row[key.name]):
            text = f"{key.name} is {allowed(key)}, and not {row[key.name]!r}"
            yield Finding(f"Plan OutOfRange {at}", (*path, key.name), 0, text)
    names = [key.name for key in keys]
    for key in unknown(row, names):
        yield Finding(f"UnknownKey {place(table, number + 1, key)}", (*path, key), None, unknown_text(version, table, key, names))


def unknown_text(version: int, table: str, key: str, names: Any) -> str:
    """What an unknown key was meant to be."""
    plain = key.removeprefix("far_")
    if table == "wire" and version == NEWEST and plain in [one.name for one in OFFER]:
        end = "near" if plain == key else "far"
        return f"what an end offers stands in a table of its own: {end} = {{ {plain} = .. }}"
    if table == "wire" and key in ENDS:
        return f"{key} is a table of version {NEWEST}; in version {version} its keys stand in the wire, those of far with the prefix far_"
    if table not in ENDS and key in ("version", *arrays(version)):
        return f"{key} stands behind a [[{table}]] and belongs to it so: move it above the first table"
    return f"{key!r} is no key of {table}; these are: {', '.join(names)}"


def references(document: Any) -> Iterator[Any]:
    """Names that no row has."""
    names = {table: {row["name"] for row in document.get(table, [])} for table in ("edge", "service", "group")}
    for number, row in enumerate(document.get("circuit", [])):
        yield from missing(names["edge"], "edge", [row["edge"]], "circuit", number, ("circuit", number, "edge"))
        yield from missing(names["service"], "service", [row["service"]], "circuit", number, ("circuit", number, "service"))
    for number, row in enumerate(document.get("wire", [])):
        yield from missing(names["service"], "service", [row["service"]], "wire", number, ("wire", number, "service"))
        yield from missing(names["edge"], "edge", row["path"], "wire", number, ("wire", number, "path"))
        for end in ENDS:
            if "group" in row.get(end, ()):
                yield from missing(names["group"], "group", [row[end]["group"]], end, number, ("wire", number, end, "group"))


def missing(known: Any, kind: str, used: Any, table: str, number: int, path: tuple[Any, ...]) -> Iterator[Any]:
    """The first of the names that a key uses which no row of this kind has."""
    for name in used:
        if name not in known:
            text = f"there is no {kind} {name!r}; there are: {', '.join(sorted(known)[:20]) or 'none'}"
            yield Finding(f"Plan UnknownName {place(table, number + 1, path[-1])}", path, 0, text)
            return


def name_faults(document: Any) -> Iterator[Any]:
    """Names and addresses that stood before, and paths by themselves. Groups have names of their own."""
    yield from repeated(document, ["group"], "among the groups")
    yield from repeated(document, ["edge", "service", "circuit", "wire"], "in all tables together")
    yield from repeated_addresses(document)
    yield from path_faults(enumerate(document.get("wire", [])))


def plan_faults(document: Any) -> Iterator[Any]:
    """The faults of the plan as a whole, whose paths have two edges at least."""
    wires = list(enumerate(document.get("wire", [])))
    yield from pair_faults(wires)
    yield from clashes(wires)
    yield from port_faults(document)


def plan_fault(kind: str, table: str, number: int, key: str, text: Any) -> Any:
    """A fault of the plan at a row."""
    return Finding(f"Plan {kind} {place(table, number + 1, key)}", (table, number, key), 0, text)


def repeated(document: Any, tables: Any, among: Any) -> Iterator[Any]:
    """Names that stood before in these tables."""
    seen: dict[str, tuple[str, int]] = {}
    for table in tables:
        for number, row in enumerate(document.get(table, [])):
            if row["name"] in seen:
                first, before = seen[row["name"]]
                text = f"{row['name']!r} is the name of {first} {before + 1} already; a name stands once {among}"
                yield plan_fault("RepeatedName", table, number, "name", text)
            seen.setdefault(row["name"], (table, number))


def repeated_addresses(document: Any) -> Iterator[Any]:
    """Addresses that stood before."""
    addresses: dict[str, str] = {}
    for number, row in enumerate(document.get("edge", [])):
        if row["address"] in addresses:
            text = f"{row['address']} is the address of edge {addresses[row['address']]!r} already"
            yield plan_fault("RepeatedName", "edge", number, "address", text)
        addresses.setdefault(row["address"], row["name"])


def path_faults(wires: Iterable[tuple[int, dict[str, Any]]]) -> Iterator[Any]:
    """Paths that are too short or too long, or name an edge twice."""
    for number, row in wires:
        if not 2 <= len(row["path"]) <= 5:
            yield plan_fault("PathTooLong", "wire", number, "path", f"a path has 2 to 5 edges, and not {len(row['path'])}")
        elif len(set(row["path"])) < len(row["path"]):
            yield plan_fault("PathRepeats", "wire", number, "path", "a path names each of its edges once")


def pair_faults(wires: Iterable[tuple[int, dict[str, Any]]]) -> Iterator[Any]:
    """Two wires over one segment with one PW ID, and two mesh wires of a service between the same edges."""
    numbers: dict[Any, Any] = {}
    meshes: dict[Any, Any] = {}
    for number, row in wires:
        segments = [(frozenset(pair), row["pw_id"]) for pair in zip(row["path"], row["path"][1:])]
        stood = [numbers[segment] for segment in segments if segment in numbers]
        if stood:
            text = f"wire {stood[0]!r} has PW ID {row['pw_id']} between the same two edges; take another one"
            yield plan_fault("RepeatedPwId", "wire", number, "pw_id", text)
        numbers.update({segment: row["name"] for segment in segments if segment not in numbers})
    for number, row in wires:
        key = (row["service"], frozenset((row["path"][0], row["path"][-1])))
        if row["class"] == "mesh" and key in meshes:
            text = f"wire {meshes[key]!r} joins these two edges in service {row['service']!r} already"
            yield plan_fault("TwoMeshWires", "wire", number, "path", text)
        elif row["class"] == "mesh":
            meshes[key] = row["name"]


def clashes(wires: Iterable[tuple[int, dict[str, Any]]]) -> Iterator[Any]:
    """Spokes that start at an edge which ends a spoke or a mesh wire of the service."""
    starts: dict[Any, Any] = {}
    ends: dict[Any, Any] = {}
    for number, row in wires:
        service, (first, last) = row["service"], (row["path"][0], row["path"][-1])
        own_starts = [first] if row["class"] == "spoke" else []
        own_ends = [last] if row["class"] == "spoke" else [first, last]
        stood = [(edge, ends.get((service, edge))) for edge in own_starts]
        stood += [(edge, starts.get((service, edge))) for edge in own_ends]
        for edge, before in stood:
            if before is not None:
                text = (
                    f"at edge {edge!r} a spoke would start, and wire {before!r} has an end of the core: a spoke's path begins at its"
                    f" spoke edge, which has no mesh wire of the service, and ends at the core edge"
                )
                yield plan_fault("SpokeInMesh", "wire", number, "path", text)
                break
        starts.update({(service, edge): row["name"] for edge in own_starts})
        ends.update({(service, edge): row["name"] for edge in own_ends})


def port_faults(document: Any) -> Iterator[Any]:
    """Services with too many ports at one edge."""
    counts: dict[tuple[str, str], int] = {}
    for row in document.get("circuit", []):
        counts[row["service"], row["edge"]] = counts.get((row["service"], row["edge"]), 0) + 1
    for row in document.get("wire", []):
        for edge in (row["path"][0], row["path"][-1]):
            counts[row["service"], edge] = counts.get((row["service"], edge), 0) + 1
    for number, row in enumerate(document.get("service", [])):
        for edge in (edge for (service, edge), count in counts.items() if service == row["name"] and count > MOST_PORTS):
            text = f"at most {MOST_PORTS} circuits and wires of a service at one edge ({edge})"
            yield plan_fault("OutOfRange", "service", number, "name", text)
            break
