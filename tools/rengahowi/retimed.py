"""A scenario with other timers and sizes: its text as it stands, but for some numbers of edges and services."""

from __future__ import annotations

from .command import Fault
from .keys import EDGE, SERVICE
from .places import Places

TYPE_CHECKING = False
if TYPE_CHECKING:
    from collections.abc import Iterable

    from .keys import Key
    from .plan import Plan

# The tables whose numbers may be set, and their keys.
NUMBERS: dict[str, dict[str, Key]] = {
    table: {key.name: key for key in keys if key.kind == "number"} for table, keys in (("edge", EDGE), ("service", SERVICE))
}


def numbers_of(word: str) -> tuple[str, list[int]]:
    """The key of a word such as `keepalive=9` or `a.keepalive=3,9`, and its numbers."""
    key, sign, text = word.partition("=")
    if not sign or not all(one.isascii() and one.isdigit() and len(one) < 10 for one in text.split(",")):
        raise Fault(f"{word!r} is no KEY=NUMBER, such as keepalive=9")
    return key, [int(one) for one in text.split(",")]


def with_number(text: str, plan: Plan, word: str, number: int) -> str:
    """The text with a number in the place of another one: `keepalive` is that of all edges, `a.keepalive` that of the edge a."""
    name, _, key = word.rpartition(".")
    table = next((table for table, keys in NUMBERS.items() if key in keys), None)
    if table is None:
        raise Fault(f"{word!r}: there is no number {key!r}; there are {', '.join(key for keys in NUMBERS.values() for key in keys)}")
    rows = list(plan.edges if table == "edge" else plan.services)
    if name and name not in rows:
        raise Fault(f"{word!r}: the scenario has no {table} {name!r}")
    least, most = NUMBERS[table][key].least, NUMBERS[table][key].most
    if not least <= number <= most:
        raise Fault(f"{word}={number}: {key} is a number from {least} to {most}")
    return changed(text, table, [place for place, row in enumerate(rows) if name in ("", row)], key, number)


def changed(text: str, table: str, rows: Iterable[int], key: str, number: int) -> str:
    """The text with this number in these rows."""
    places = Places(text)
    text, edits = places.text, []
    for row in rows:
        path = (table, row, key)
        start = places.found[table, row]
        if path in places.found:
            edits.append((places.found[path], places.ends[path], str(number)))
        elif text[start] == "{":
            edits.append((start + 1, start + 1, f" {key} = {number},"))
        else:
            line = text.find("\n", start)
            end = len(text) if line < 0 else line
            edits.append((end, end, f"\n{key} = {number}"))
    for start, end, new in sorted(edits, reverse=True):
        text = text[:start] + new + text[end:]
    return text
