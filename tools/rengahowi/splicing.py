"""A scenario with other events: its text as it stands, but for the array of its events."""

from __future__ import annotations

from .places import Places
from .writing import value


class Spliced:
    """The text of a scenario around its events."""

    def __init__(self, text: str) -> None:
        places = Places(text)
        text = places.text
        self.front, self.back = "", text
        path = ("events",)
        if path in places.found:
            places.at = places.found[path]
            places.value(path)
            self.front, self.back = text[: places.found[path]], text[places.at :]

    def with_events(self, events: list[str]) -> str:
        """The text with these events in the place of its own."""
        array = "[\n" + "".join(f"  {value(event)},\n" for event in events) + "]"
        return self.front + array + self.back if self.front else f"events = {array}\n{self.back}"
