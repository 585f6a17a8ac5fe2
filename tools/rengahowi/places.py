"""Where keys and elements stand in a TOML text that tomllib accepts: it tells values, and no places."""

from __future__ import annotations

import re

TYPE_CHECKING = False
if TYPE_CHECKING:
    from typing import Any

    Path = tuple[Any, ...]

BLANK = re.compile(r"(?:[ \t\r\n]|#[^\n]*)*")
SPACE = re.compile(r"[ \t]*")
BARE = re.compile(r"[^,\]}#\r\n]*")
KEY = re.compile(r"""\s*([A-Za-z0-9_-]+|"(?:[^"\\]|\\.)*"|'[^']*')[ \t]*""")
STRING = re.compile(r'"""(?:[^\\]|\\.)*?"""|' + r"'''.*?'''" + r'|"(?:[^"\\\n]|\\.)*"' + r"|'[^'\n]*'", re.DOTALL)


class Places:
    """The place of each value, by its path: a key or an element's number at each step, such as ('edge', 0, 'name')."""

    def __init__(self, text: str) -> None:
        self.text, self.at = text.removeprefix("\ufeff"), 0
        self.found: dict[Path, int] = {}
        self.key_places: dict[Path, int] = {}
        self.ends: dict[Path, int] = {}
        base: Path = ()
        counts: dict[Path, int] = {}
        while self.skip(BLANK) < len(self.text):
            if self.text[self.at] == "[":
                base = self.header(counts)
            else:
                self.statement(base)

    def skip(self, pattern: Any) -> Any:
        """Goes on over what a pattern takes, and answers where it is then."""
        self.at = self.taken(pattern).end()
        return self.at

    def taken(self, pattern: Any) -> Any:
        """What a pattern takes here, which the text has as TOML has it."""
        return pattern.match(self.text, self.at)

    def header(self, counts: Any) -> Any:
        """The path of a table's header. A part of it that is an array of tables means the last row there is."""
        start = self.at
        many = self.text.startswith("[[", self.at)
        self.at += 1 + many
        keys = self.keys()
        self.at += 1 + many
        path: Path = ()
        for place, key in enumerate(keys):
            path += (key,)
            self.stands(path, start)
            if many and place == len(keys) - 1:
                counts[path] = counts.get(path, 0) + 1
            if path in counts:
                path += (counts[path] - 1,)
                self.stands(path, start)
        return path

    def stands(self, path: tuple[Any, ...], place: Any) -> None:
        """A part of a header or of a key stands where it is named first."""
        self.found.setdefault(path, place)
        self.key_places.setdefault(path, place)

    def keys(self) -> Any:
        """The keys of a header or a statement, parted by dots."""
        found = []
        while True:
            match = self.taken(KEY)
            self.at = match.end()
            found.append(match[1].strip("\"'"))
            if self.text[self.at] != ".":
                return found
            self.at += 1

    def statement(self, base: tuple[Any, ...]) -> None:
        """A key with its value. Of a key with dots, each part has the place of the whole."""
        start = self.taken(BLANK).end()
        path = base
        for key in self.keys():
            path += (key,)
            self.stands(path, start)
        self.at += 1
        self.skip(SPACE)
        self.value(path)
        self.ends[path] = self.at

    def value(self, path: tuple[Any, ...]) -> None:
        """A value, and all in it."""
        self.found[path] = self.at
        first = self.text[self.at]
        if first == "[":
            self.inside("]", lambda number: self.value((*path, number)))
        elif first == "{":
            self.inside("}", lambda number: self.statement(path))
        else:
            self.skip(STRING if first in "\"'" else BARE)

    def inside(self, end: Any, read: Any) -> None:
        """What stands in brackets, parted by commas."""
        self.at, number = self.at + 1, 0
        while self.text[self.skip(BLANK)] != end:
            read(number)
            number += 1
            if self.text[self.skip(BLANK)] == ",":
                self.at += 1
        self.at += 1

    def line_and_column(self, path: tuple[Any, ...], within: Any = 0) -> tuple[Any, ...]:
        """Where a value stands, from 1; of a path that has none, where the next part of it does that has one. `within` is how
        many characters behind the first one, and None for the key itself."""
        while path and path not in self.found:
            path = path[:-1]
        at = self.key_places.get(path, 0) if within is None else self.found.get(path, 0)
        if within is not None and STRING.match(self.text, at) and not self.text.startswith(('"""', "'''"), at):
            at += within
        return self.text.count("\n", 0, at) + 1, at - self.text.rfind("\n", 0, at)
