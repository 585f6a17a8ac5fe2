"""The words of events, as the program reads them, and what may stand at each place."""

from __future__ import annotations

import re

from .checking import Finding
from .event_kinds import SHAPES
from .keys import MOST_PLAYS

TYPE_CHECKING = False
if TYPE_CHECKING:
    from collections.abc import Iterator
    from typing import Any

NUMBER = re.compile(r"0|[1-9][0-9]*")


class EventWords:
    """Reads events over the names of a document."""

    def __init__(self, document: dict[str, Any]) -> None:
        self.names = {table: [row["name"] for row in document.get(table, [])] for table in ("edge", "circuit", "wire")}
        self.known = {table: set(names) for table, names in self.names.items()}

    def faults(self, events: list[str]) -> Iterator[Any]:
        """The faults of all events, the first bad word of each."""
        plays = 0
        for number, text in enumerate(events):
            words = text.split(" ")
            plays += words[0] == "play"
            bad = (1, f"at most {MOST_PLAYS} events play a capture") if words[0] == "play" and plays > MOST_PLAYS else self.bad_word(words)
            if bad is not None:
                at = sum(len(word) + 1 for word in words[: bad[0] - 1])
                said = f"{text[:60]!r}, word {bad[0]}: {bad[1]}"
                yield Finding(f"BadWord {number + 1} {bad[0]}", ("events", number), 1 + min(at, len(text)), said)

    def bad_word(self, words: list[str]) -> tuple[Any, ...] | None:
        """The first bad word of an event, and what is right; None where all are right."""
        if words[0] not in SHAPES:
            return 1, f"an event begins with one of {', '.join(SHAPES)}; words are parted by one blank"
        shape = SHAPES[words[0]]
        if words == ["tick"]:
            return None
        for place, kind in enumerate(shape, 2):
            if place > len(words) or not self.is_right(kind, words[place - 1]):
                return place, self.right(kind)
        if len(words) > len(shape) + 1:
            return len(shape) + 2, f"{words[0]} has {len(shape)} words behind it, and no more"
        return None

    def is_right(self, kind: Any, word: str) -> bool:
        """Whether a word may stand where one of this kind is wanted."""
        if isinstance(kind, tuple):
            return bool(NUMBER.fullmatch(word)) and kind[0] <= int(word) <= kind[1]
        if kind == "octets":
            return len(word) % 2 == 0 and 1 <= len(word) // 2 <= 9216 and bool(re.fullmatch(r"[0-9a-fA-F]*", word))
        if kind == "switch":
            return word in ("on", "off")
        return word in self.known[kind] if kind in self.known else bool(word)

    def right(self, kind: Any) -> str:
        """What has to stand there, in words."""
        if isinstance(kind, tuple):
            return f"a number from {kind[0]} to {kind[1]}, without leading zeros"
        if kind in self.names:
            return f"the name of {'an' if kind == 'edge' else 'a'} {kind}; there are: {', '.join(self.names[kind][:20]) or 'none'}"
        return {"octets": "1 to 9,216 octets, two hexadecimal digits each", "switch": "on or off", "file": "the name of a capture"}[kind]
