"""What no contract can speak of: a struct with a `Model` is seen as its `view`, under its `invariant`, so a field that neither of them
names may hold anything. This reads the sources as text, and knows no more of them than that a brace which opens is closed."""

from __future__ import annotations

import re

TYPE_CHECKING = False
if TYPE_CHECKING:
    from collections.abc import Iterator
    from typing import Any

COMMENT = re.compile(r"//.*")
MODEL = re.compile(r"\bimpl(?:<[^{]*?>)?\s+Model\s+for\s+(\w+)[^{]*\{")
FIELD = re.compile(r"^\s*(?:pub(?:\([^)]*\))?\s+)?(\w+):", re.MULTILINE)
SEEN = re.compile(r"\bghost\s+(?:view|invariant)\s*=\s*\{")


def closed(text: str, start: int) -> Any:
    """The text from a place behind an open brace to the one that closes it."""
    depth = 1
    for place in range(start, len(text)):
        depth += {"{": 1, "}": -1}.get(text[place], 0)
        if depth == 0:
            return text[start:place]
    return text[start:]


def fields_of(text: str, name: str) -> Any:
    """The fields of a struct, ghost fields apart; none where it has no braces or stands in another file."""
    found = re.search(rf"\bstruct\s+{name}\b[^;{{(]*\{{", text)
    return FIELD.findall(closed(text, found.end())) if found else []


def unseen(text: str) -> Iterator[Any]:
    """The structs with a `Model` in a source, each with its fields that neither its `view` nor its `invariant` names."""
    text = COMMENT.sub("", text)
    for model in MODEL.finditer(text):
        body = closed(text, model.end())
        seen = " ".join(closed(body, found.end()) for found in SEEN.finditer(body))
        name = model.group(1)
        yield name, [field for field in fields_of(text, name) if not re.search(rf"\.{field}\b", seen)]
