"""The rows of `tools/check` as tests of `unittest`: a part is a `TestCase`, and each of its rows a test with a name, which runs by itself.

A row makes comparisons (`compare`), each of which says in a line what differs; the test fails where one of them does.
"""

from __future__ import annotations

import pathlib
import re
import tempfile
import traceback
import unittest
from collections import Counter

from .trying import missing

TYPE_CHECKING = False
if TYPE_CHECKING:
    from collections.abc import Callable, Iterable, Iterator, Mapping
    from types import TracebackType
    from typing import Any, TypeVar

    Row = Callable[[pathlib.Path], Iterable[bool]]
    Entry = TypeVar("Entry")
    Fault = tuple[type[BaseException], BaseException, TracebackType] | tuple[None, None, None]


class Part:
    """A part of the checks: what it tries, in words, and its rows by their names. A row is called with an empty folder."""

    def __init__(self, about: str, rows: Mapping[str, Row]) -> None:
        self.about, self.rows = " ".join(about.split()), dict(rows)


def one_row(row: Callable[[pathlib.Path, set[str]], Iterable[bool]]) -> Part:
    """A part that is one row, with the words of its function. The function is told which external programs are missing."""
    return Part(row.__doc__ or "", {"": lambda folder: row(folder, missing())})


def table(entries: Iterable[Entry], name: Callable[[Entry], Any], row: Callable[[pathlib.Path, Entry], Iterable[bool]]) -> dict[str, Row]:
    """A row for each entry of a table. It has the words of the entry as its name, and a number where an earlier one has the same."""
    rows: dict[str, Row] = {}
    times: Counter[str] = Counter()
    for entry in entries:
        words = re.sub(r"[^a-z0-9]+", "-", str(name(entry)).lower()).strip("-")[:60].strip("-") or "empty"
        times[words] += 1
        rows[words if times[words] == 1 else f"{words}-{times[words]}"] = lambda folder, entry=entry: row(folder, entry)  # type: ignore[misc]
    return rows


class Compared(unittest.TestCase):
    """A row, as a test. It keeps how its comparisons came out."""

    row: Row
    label: str

    def setUp(self) -> None:
        self.agreed: list[bool] = []

    def runTest(self) -> None:
        """Makes the comparisons of the row in a folder of its own."""
        with tempfile.TemporaryDirectory() as folder:
            for agrees in self.row(pathlib.Path(folder)):
                self.agreed.append(bool(agrees))
        if not all(self.agreed):
            self.fail(f"{self.agreed.count(False)} of {len(self.agreed)} comparisons differ")

    def id(self) -> str:
        """The name by which the row is called alone."""
        return self.label


def label(part: str, row: str) -> str:
    """The name of a row: its part's, and its own where the part has several."""
    return f"{part}.{row}" if row else part


def tests_of(parts: Mapping[str, Part], wanted: Iterable[str]) -> Iterator[Compared]:
    """The tests that are wanted, each a part or a row of one, in the order of the parts; all where none is named."""
    names = set(wanted)
    for name, part in parts.items():
        for row, makes in part.rows.items():
            if not names or names & {name, label(name, row)}:
                test = Compared()
                test.row, test.label = makes, label(name, row)
                yield test


class Told(unittest.TestResult):
    """What came of the tests: a line for each that fails, as it ends, and how many comparisons there were."""

    def __init__(self) -> None:
        super().__init__()
        self.agreed: list[bool] = []

    def stopTest(self, test: Any) -> None:
        """Counts the comparisons of a row."""
        super().stopTest(test)
        self.agreed += test.agreed

    def addFailure(self, test: unittest.TestCase, err: Fault) -> None:
        """Says in which row comparisons differ, behind their lines."""
        super().addFailure(test, err)
        print(f"{test.id()}: {err[1]}", flush=True)

    def addError(self, test: unittest.TestCase, err: Fault) -> None:
        """Says which row ended by an exception, and where."""
        super().addError(test, err)
        print("".join(traceback.format_exception(*err)), end="")
        print(f"{test.id()}: ended by {err[1]!r}", flush=True)
