"""A scenario up to some event of its run: by the events of its report, of which each stands by itself, so that it may end within a
`settle`, a `flow` or a `play` too."""

from __future__ import annotations

import pathlib
import tempfile

from .called import called
from .command import Fault, text_of
from .plan import plan_of
from .plan_rows import rows_of_plan
from .writing import scenario

TYPE_CHECKING = False
if TYPE_CHECKING:
    from typing import Any


class AtEvent:
    """A scenario behind an event of its run: the plan, the events up to this one, and the lines of their report."""

    def __init__(self, path: str, word: str) -> None:
        self.plan = plan_of(text_of(path), path)
        self.rows: dict[str, Any] = {table: rows for table, rows in rows_of_plan(self.plan).items() if rows}
        lines = called("replay", path).decode().splitlines()[1:-1]
        places = [place for place, line in enumerate(lines) if line.startswith("> ")]
        self.number = self.number_of(path, word, [lines[place][2:] for place in places])
        end = places[self.number] if self.number < len(places) else len(lines)
        self.lines = lines[:end]
        self.events = [lines[place][2:] for place in places[: self.number]]

    def number_of(self, path: str, word: str, texts: list[str]) -> int:
        """The number of the event that somebody means: by its number in the report, by its words, or as the end."""
        if word == "end":
            return len(texts)
        if word.isascii() and word.isdigit() and int(word) <= len(texts):
            return int(word)
        if word in texts:
            return texts.index(word) + 1
        raise Fault(f"{path} has no event {word!r}: an event is its number in the report, 0 to {len(texts)}, its words there, or 'end'")

    def said(self) -> str:
        """Which event it is, in words."""
        return f"event {self.number} ({self.events[-1]})" if self.events else "no event"

    def ticks(self) -> int:
        """How many ticks there were by then."""
        return self.events.count("tick")

    def called(self, word: str, more: list[str]) -> list[str]:
        """The lines of what the program makes of these events and more behind them."""
        with tempfile.TemporaryDirectory() as folder:
            path = pathlib.Path(folder, "at.toml")
            path.write_text(scenario(self.rows, [*self.events, *more]), encoding="utf-8")
            return called(word, path).decode().splitlines()

    def tables(self) -> list[str]:
        """The lines of `tables`."""
        return self.called("tables", [])

    def behind(self, more: list[str]) -> list[str]:
        """The lines of the report of more events, behind those of this one."""
        lines = self.called("replay", more)[1:-1]
        if lines[: len(self.lines)] != self.lines:
            raise Fault("the events of the report do not make this report again")
        return lines[len(self.lines) :]
