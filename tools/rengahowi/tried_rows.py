"""The checks of `tools/check` itself: rows by their names, those that fail, and those that end by an exception."""

from __future__ import annotations

import contextlib
import io
import unittest

from .rows import Part, Told, label, table, tests_of
from .trying import TOP, compare, run

TYPE_CHECKING = False
if TYPE_CHECKING:
    import pathlib
    from collections.abc import Iterator
    from typing import Any


def fails(_folder: pathlib.Path) -> Iterator[bool]:
    """A row of which one comparison fails."""
    yield compare("one", 1, 1)
    yield compare("two", 2, 3)


def ends(_folder: pathlib.Path) -> Iterator[bool]:
    """A row that ends by an exception behind a comparison."""
    yield compare("one", 1, 1)
    raise ValueError("no such row")


TRIED = {
    "a": Part("Numbers.", table([1, 2, 1], str, lambda _folder, number: [compare("number", number, number)])),
    "b": Part("Faults.", {"fails": fails, "ends": ends}),
}


def told_of(*wanted: str) -> tuple[Told, list[str]]:
    """What came of some rows, and the lines that were printed."""
    told, lines = Told(), io.StringIO()
    with contextlib.redirect_stdout(lines):
        unittest.TestSuite(tests_of(TRIED, wanted)).run(told)
    return told, lines.getvalue().splitlines()


def by_name(_folder: pathlib.Path) -> Iterator[Any]:
    """Parts and rows are run by their names, each once, in the order of the parts."""
    for wanted, right in [((), ["a.1", "a.2", "a.1-2", "b.fails", "b.ends"]), (("a",), ["a.1", "a.2", "a.1-2"]), (("b.ends", "a.2"), ["a.2", "b.ends"]), (("a.2", "a"), ["a.1", "a.2", "a.1-2"])]:
        yield compare(f"rows of {wanted}", [test.label for test in tests_of(TRIED, wanted)], right)
    yield compare("names of rows", (label("a", "2"), label("a", "")), ("a.2", "a"))


def faults(_folder: pathlib.Path) -> Iterator[Any]:
    """A row that fails or ends by an exception is told by its name, and the others go on."""
    told, lines = told_of()
    seen = told.testsRun, told.wasSuccessful(), len(told.failures), len(told.errors), (sum(told.agreed), len(told.agreed))
    yield compare("rows that fail", seen, (5, False, 1, 1, (5, 6)))
    yield compare("rows that fail, told", [line for line in lines if line.startswith(("two:", "b."))], ["two: got 2, and not 3", "b.fails: 1 of 2 comparisons differ", "b.ends: ended by ValueError('no such row')"])
    yield compare("rows that agree", (told_of("a")[0].wasSuccessful(), told_of("a")[1]), (True, []))


def words(_folder: pathlib.Path) -> Iterator[Any]:
    """Words of `tools/check` that name nothing, and the names that it lists."""
    check = TOP / "tools" / "check"
    for word, right in (("nothing", "no part 'nothing'"), ("rows.nothing", "no row 'nothing' of rows")):
        done = run([check, word], TOP, text=True)
        yield compare(f"check {word}", (done.returncode, done.stdout, right in done.stderr, done.stderr.count("\n")), (2, "", True, 1))
    names = run([check, "--list"], TOP, text=True).stdout.splitlines()
    yield compare("check --list", ("rows.words" in names, "aged" in names, len(set(names)) == len(names)), (True, True, True))


rows = Part("Rows are run by their names; one that fails, or ends by an exception, is told by its name.", {"by-name": by_name, "faults": faults, "words": words})
