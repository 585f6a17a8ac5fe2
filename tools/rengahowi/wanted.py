"""The file beside a scenario that says what is wanted of `tools/what-if`: its times, its own cases, and what is expected."""

from __future__ import annotations

import tomllib

from .command import Fault, text_of
from .clock import Times, microseconds

TYPE_CHECKING = False
if TYPE_CHECKING:
    import pathlib
    from collections.abc import Mapping
    from typing import Any

    from .plan import Plan

# The tables that such a file may have; other keys are those of expectations of all cases.
TABLES = ("time", "link", "case", "expect")


def read_wanted(path: str | pathlib.Path) -> dict[str, Any]:
    """What a file says."""
    try:
        return tomllib.loads(text_of(path))
    except (tomllib.TOMLDecodeError, RecursionError) as fault:
        raise Fault(f"{path} is no TOML: {fault}") from None


def rows_of(path: str | pathlib.Path, found: dict[str, Any], table: str, keys: Mapping[str, Any]) -> list[dict[str, Any]]:
    """The rows of an array of tables, with these keys alone, each of which is of its kind."""
    rows = found.get(table, [])
    if not isinstance(rows, list) or not all(isinstance(row, dict) for row in rows):
        raise Fault(f"{path}: each row of {table} stands under its own [[{table}]], with two brackets")
    for number, row in enumerate(rows, 1):
        for key, value in row.items():
            if key not in keys:
                raise Fault(f"{path}: {table} {number} has no key {key!r}; there are {', '.join(keys)}")
            if not isinstance(value, keys[key]) or isinstance(value, bool) and keys[key] is not bool:
                raise Fault(f"{path}: {table} {number}: {key} is {told_kind(keys[key])}")
            if isinstance(value, list) and not all(isinstance(one, str) for one in value):
                raise Fault(f"{path}: {table} {number}: {key} is {told_kind(list)}")
    return rows


def told_kind(kind: type | tuple[type, ...]) -> str:
    """A kind of value, in words."""
    kinds = {bool: "true or false", int: "a number", str: "a text in quotes", list: "an array of texts in quotes"}
    return " or ".join(kinds[one] for one in (kind if isinstance(kind, tuple) else (kind,)))


def read_times(path: str | pathlib.Path, plan: Plan) -> Times:
    """The times of a file: of its table `time`, and of the links that have one of their own."""
    found = read_wanted(path)
    (row,) = rows_of(path, {"time": [found.get("time", {})]}, "time", {"tick": str, "one_way": str})
    if len(row) < 2:
        raise Fault(f"{path} has no [time] with tick and one_way, such as tick = \"1s\" and one_way = \"10ms\"")
    links = {}
    pairs = {frozenset(pair) for pair in plan.pairs()}
    for number, link in enumerate(rows_of(path, found, "link", {"edges": list, "one_way": str}), 1):
        pair = frozenset(link.get("edges", []))
        if pair not in pairs or "one_way" not in link:
            raise Fault(f"{path}: link {number} has the edges of two neighbours and one_way, such as edges = [\"a\", \"b\"] and one_way = \"35ms\"")
        links[pair] = microseconds(link["one_way"], f"{path}, link {number}")
    return Times(microseconds(row["tick"], f"{path}, tick"), microseconds(row["one_way"], f"{path}, one_way"), links)


def times_of(words: Any, plan: Plan) -> Times | None:
    """The times that the words of a call tell; None where they tell none."""
    if words.time is not None:
        if words.tick is not None or words.one_way is not None:
            raise Fault("--time FILE has both times, and --tick and --one-way stand without it")
        return read_times(words.time, plan)
    if words.tick is None and words.one_way is None:
        return None
    if words.tick is None or words.one_way is None:
        raise Fault("--tick and --one-way go together, such as --tick 1s --one-way 10ms")
    return Times(microseconds(words.tick, "--tick"), microseconds(words.one_way, "--one-way"))
