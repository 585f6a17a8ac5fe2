"""What a tool finds in its input and goes on with: each kind once for each file, with its first place, how often it came, and a cure."""

from __future__ import annotations

TYPE_CHECKING = False
if TYPE_CHECKING:
    from collections.abc import Iterator


class Finding:
    """One kind of thing in one file: where it came first, how often, and what helps."""

    __slots__ = ("file", "place", "text", "cure", "count")

    def __init__(self, file: str, place: int, text: str, cure: str) -> None:
        self.file, self.place, self.text, self.cure, self.count = file, place, text, cure, 0

    def line(self) -> str:
        """The finding in one line."""
        where = f"{self.file}, packet {self.place}" if self.place else self.file
        more = f" (and {self.count - 1} more)" if self.count > 1 else ""
        return f"{where}{more}: {self.text}" + (f"; {self.cure}" if self.cure else "")


class Findings:
    """All findings, in the order in which they came."""

    def __init__(self) -> None:
        self.found: dict[tuple[str, str], Finding] = {}

    def tell(self, kind: str, file: str, place: int, text: str, cure: str = "") -> None:
        """Something is found at a packet of a file, counted from 1; 0 for the file as a whole."""
        key = kind, file
        if key not in self.found:
            self.found[key] = Finding(file, place, text, cure)
        self.found[key].count += 1

    def lines(self) -> Iterator[str]:
        """A line for each finding."""
        return (finding.line() for finding in self.found.values())
