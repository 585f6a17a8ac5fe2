"""What a scenario of version 1 is in version 2: the ends of its wires, its groups, and its text, with comments and layout."""

from __future__ import annotations

import re
import tomllib

from .checking import Finding
from .command import Fault
from .keys import NEWEST, PLAIN_OFFER, WIRE
from .places import Places
from .plan import Plan
from .writing import value

TYPE_CHECKING = False
if TYPE_CHECKING:
    from collections.abc import Iterator
    from typing import Any

REST = re.compile(r"[ \t]*(#[^\r\n]*)?(?:\r?\n|\Z)")


def group_names(document: dict[str, Any]) -> Any:
    """The names that `migrate` gives to the numbers of groups, in the order of their first use."""
    names = {}
    for row in document.get("wire", []):
        for offer in ends_of(row, None).values():
            if "group" in offer:
                names[offer["group"]] = f"g{offer['group']}"
    return names


def ends_of(row: dict[str, Any], names: Any) -> dict[Any, Any]:
    """The tables of both ends of a wire of version 1, without keys that it does not tell; a group has its name, or its number where no
    names are given. There is no `far` where it would be as `near`, and no `near` that is empty."""
    near = {key.name: row[key.name] for key in PLAIN_OFFER if key.name in row}
    far = {key.name: row.get(f"far_{key.name}", near.get(key.name)) for key in PLAIN_OFFER}
    offers = {"near": near, "far": {name: it for name, it in far.items() if it is not None}}
    for offer in offers.values():
        if offer.get("group") == 0:
            del offer["group"]
        elif "group" in offer and names is not None:
            offer["group"] = names[offer["group"]]
    return {end: offer for end, offer in offers.items() if (offer != offers["near"] if end == "far" else offer)}


def notes(document: dict[str, Any]) -> Iterator[Any]:
    """Where a scenario of version 1 has something that stands otherwise in version 2."""
    if document["version"] == NEWEST:
        return
    text = f"version 1 is read as before; `bin/vplsnet migrate` and `tools/to-version-2` write version {NEWEST}, the latter with comments"
    yield Finding("", ("version",), 0, text)
    names = group_names(document)
    for number, row in enumerate(document.get("wire", [])):
        first = next((key for key in row if key not in [one.name for one in WIRE]), None)
        said = ", ".join(f"{end} = {value(offer)}" for end, offer in ends_of(row, names).items())
        if first:
            text = f"what wire {row['name']!r} offers is, in version {NEWEST}, {said or 'what is offered where nothing is said'}"
            yield Finding("", ("wire", number, first), None, text)


def content(document: dict[str, Any]) -> tuple[Any, ...]:
    """What a scenario says, whatever its version."""
    plan = Plan(document)
    return plan.edges, plan.services, plan.circuits, plan.wires, plan.events


class Newer:
    """Writes a text of version 1 anew, line by line."""

    def __init__(self, text: str) -> None:
        self.document, self.places = tomllib.loads(text), Places(text)
        self.changes: list[Any] = []
        self.end = "\r\n" if "\r\n" in text else "\n"

    def text(self) -> Any:
        """The text of version 2; a fault where the rows stand in another way than a key a line."""
        self.put_version()
        names = group_names(self.document)
        for number, row in enumerate(self.document.get("wire", [])):
            self.put_ends(number, row, names)
        if names:
            self.put_groups(names)
        text = self.places.text
        for start, stop, new in sorted(self.changes, reverse=True):
            text = text[:start] + new + text[stop:]
        try:
            same = content(tomllib.loads(text)) == content(self.document)
        except (tomllib.TOMLDecodeError, KeyError):
            same = False
        if not same:
            raise Fault("its rows are not a key a line, each under its header; bin/vplsnet migrate writes it anew")
        return text

    def put_version(self) -> None:
        """The number of the version."""
        start = self.places.found["version",]
        self.changes.append((start, start + 1, str(NEWEST)))

    def put_ends(self, number: int, row: dict[str, Any], names: Any) -> None:
        """The ends of a wire, where the last of their keys stood. What was said behind a key stands above them."""
        keys = [key for key in row if key not in [one.name for one in WIRE]]
        if not keys:
            return
        spans = sorted(self.line_of(("wire", number, key)) + (key,) for key in keys)
        said = [f"# {key}: {comment.lstrip('# ')}" for _, _, comment, key in spans if comment]
        lines = said + [f"{end} = {value(offer)}" for end, offer in ends_of(row, names).items()]
        for start, stop, _, _ in spans[:-1]:
            self.changes.append((start, stop, ""))
        self.changes.append((*spans[-1][:2], "".join(f"{line}{self.end}" for line in lines)))

    def line_of(self, path: tuple[Any, ...]) -> tuple[Any, ...]:
        """Where the line of a statement begins and ends, and its comment."""
        start = self.places.text.rfind("\n", 0, self.places.key_places[path]) + 1
        rest = REST.match(self.places.text, self.places.ends[path])
        if rest is None or self.places.text[start : self.places.key_places[path]].strip():
            raise Fault("a key of a wire does not stand on a line of its own; bin/vplsnet migrate writes it anew")
        return start, rest.end(), rest[1] or ""

    def put_groups(self, names: Any) -> None:
        """The rows of groups, above the first wire and what is said of it."""
        at = self.places.found["wire", 0]
        while (line := self.places.text[self.places.text.rfind("\n", 0, at - 1) + 1 : at]).startswith("#"):
            at -= len(line)
        lines = [line for number, name in names.items() for line in ("[[group]]", f"name = {value(name)}", f"number = {number}", "")]
        rows = "".join(f"{line}{self.end}" for line in lines)
        self.changes.append((at, at, rows))
