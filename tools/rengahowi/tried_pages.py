"""The checks of what pages and sources name: sections of standards, files, headings, commands and definitions."""

from __future__ import annotations

import re

from .crate_heads import PAGE, with_table
from .rows import Part, table
from .trying import TOP, compare

TYPE_CHECKING = False
if TYPE_CHECKING:
    import pathlib
    from collections.abc import Iterable, Iterator
    from typing import Any

# The sections that pages and sources name, of each RFC. One that is no section of its RFC stands here for nobody: who names another one reads
# the RFC, and adds it.
SECTIONS = {
    "791": "3.1",
    "1071": "1",
    "3032": "2.1 2.4 2.4.1 2.4.2",
    "4385": "5",
    "4446": "3.2 3.3 3.5",
    "4447": "5.4.2",
    "4448": "4 4.3 4.4 4.6",
    "4762": "4 4.1 4.2 4.4 6.2 7.1 9.1 10 10.1 10.2 10.2.1",
    "5036": "2.2.2 2.4.2 2.5 2.5.2 2.5.3 2.5.4 2.5.5 2.5.6 2.6.3 3 3.1 3.3 3.4 3.4.1 3.4.1.1 3.4.2.1 3.4.3 3.4.4 3.4.5 3.4.6 3.5 3.5.1 3.5.1.1"
    " 3.5.1.2 3.5.1.2.1 3.5.1.2.2 3.5.1.2.3 3.5.1.2.4 3.5.2 3.5.3 3.5.4 3.5.5 3.5.6 3.5.7 3.5.8 3.5.9 3.5.10 3.5.11 3.7 3.9",
    "5085": "3 4 5 5.1 5.1.1 5.1.2 5.1.3 5.2.1 5.3.1 7",
    "6073": "4 7 7.4 7.4.1 7.6 10",
    "6870": "4 5 5.2",
    "8077": "6 6.1 6.3 6.3.1 6.3.2 6.3.3 6.4 6.5 7",
}
# The words behind `bin/vplsnet`.
COMMANDS = {"replay", "tables", "capture", "decode", "migrate", "discover", "switchover", "audit", "rehearse"}

LEADER = re.compile(r"\n[ \t]*(?://[/!]?|--|#)?[ \t]*")
NAMED = re.compile(r"RFC (\d+) sections? (\d+(?:\.\d+)*(?:(?:, and |, | and | to | or )\d+(?:\.\d+)+|(?: and | to )\d+(?![.\d]*\d* (?:octets|ticks)))*)")
LINK = re.compile(r"\]\((?!https?:)([^)\s]*)\)")
HEADING = re.compile(r"^#+ +(.*?) *$", re.MULTILINE)
FILE = re.compile(r"(?<![\w./-])((?:bin|bench|docs|examples|tools|crates)/[\w./+-]*\w)")
COMMAND = re.compile(r"bin/vplsnet ([a-z]+)\b")
QUOTED = re.compile(r"`([^`\n]+)`")
# A definition or a call: words joined by `_`, or a name of two capitals and small letters between.
NAME = re.compile(r"(?<![\w/.-])(?:[a-z][a-z0-9]*(?:_[a-z0-9]+)+|[A-Z][a-z]+(?:[A-Z][a-z]*)+)(?![\w/.-])")
WORD = re.compile(r"[A-Za-z_][A-Za-z0-9_]*")
LAW = re.compile(r"^pub fn (\w+)", re.MULTILINE)


def pages() -> list[pathlib.Path]:
    """The pages of the repository."""
    return [TOP / "README.md", TOP / "CONTRIBUTING.md", *sorted(TOP.glob("docs/*.md")), *sorted(TOP.glob("examples/*.md"))]


def sources() -> list[pathlib.Path]:
    """The sources of the crates."""
    return sorted([*TOP.glob("crates/*/src/**/*.rt"), *TOP.glob("crates/*/specs/**/*.antt"), *TOP.glob("crates/*/proofs/**/*.antt")])


def sections(text: str) -> Iterator[str]:
    """The sections of RFCs that a text names, and that the table lacks."""
    for rfc, named in NAMED.findall(LEADER.sub(" ", text)):
        for section in re.findall(r"\d+(?:\.\d+)*", named):
            if section not in SECTIONS.get(rfc, "").split():
                yield f"RFC {rfc} section {section}"


def headings(page: pathlib.Path) -> set[str]:
    """What a link to a heading of a page says behind its #."""
    found = HEADING.findall(page.read_text(encoding="utf-8"))
    return {re.sub(r"[^\w\- ]", "", heading.lower()).replace(" ", "-") for heading in found}


def links(page: pathlib.Path, text: str) -> Iterator[str]:
    """The links of a page that lead nowhere."""
    for link in LINK.findall(text):
        name, _, anchor = link.partition("#")
        target = page.parent / name if name else page
        if not target.exists() or (anchor and anchor not in headings(target)):
            yield link


def files(text: str) -> Iterator[str]:
    """The files of the repository that a text names, and that are not there."""
    for name in FILE.findall(text):
        if "NAME" not in name and not any(TOP.glob(name)):
            yield name


def commands(text: str) -> Iterator[str]:
    """What stands behind `bin/vplsnet` in a text and is no command."""
    return (word for word in COMMAND.findall(text) if word not in COMMANDS)


def names(text: str, known: set[str]) -> Iterator[str]:
    """The definitions and calls that a text names, and that no source has."""
    for quoted in QUOTED.findall(text):
        yield from (name for name in NAME.findall(quoted) if name not in known)


def known_names(paths: Iterable[pathlib.Path]) -> set[str]:
    """The words of all sources, and the names of crates."""
    known = {path.name for path in TOP.glob("crates/*")}
    for path in paths:
        known.update(WORD.findall(path.read_text(encoding="utf-8")))
    return known


def laws() -> set[str]:
    """The laws of all crates: the functions that do nothing, by their names."""
    return {name for path in TOP.glob("crates/*/src/laws.rt") for name in LAW.findall(path.read_text(encoding="utf-8"))}


def told_in(paths: Iterable[pathlib.Path]) -> dict[pathlib.Path, str]:
    """The texts of pages and sources."""
    return {path: path.read_text(encoding="utf-8") for path in paths}


def standards(_folder: pathlib.Path) -> Iterator[Any]:
    """The sections of standards that pages and sources name."""
    told = told_in([*pages(), *sources()])
    found = [f"{path.relative_to(TOP)}: {section}" for path, text in told.items() for section in sections(text)]
    yield compare("sections of RFCs", found, [])


def page(_folder: pathlib.Path, path: pathlib.Path) -> Iterator[Any]:
    """The links, files and commands that a page names."""
    text = path.read_text(encoding="utf-8")
    at = path.relative_to(TOP)
    yield compare(f"{at}: links", list(links(path, text)), [])
    yield compare(f"{at}: files", list(files(text)), [])
    yield compare(f"{at}: commands", list(commands(text)), [])


def theorems(_folder: pathlib.Path) -> Iterator[Any]:
    """The definitions, calls and laws of THEOREMS."""
    text = (TOP / "docs" / "THEOREMS.md").read_text(encoding="utf-8")
    yield compare("definitions and calls of THEOREMS", sorted(set(names(text, known_names(sources())))), [])
    yield compare("laws that THEOREMS lacks", sorted(laws() - set(WORD.findall(text))), [])


def crates(_folder: pathlib.Path) -> Iterator[Any]:
    """The table of crates is the one that is made."""
    text = PAGE.read_text(encoding="utf-8")
    yield compare("crates of ARCHITECTURE: tools/make-crate-table", with_table(text) == text, True)


def nothing(_folder: pathlib.Path) -> Iterator[Any]:
    """What names nothing is found."""
    bad = "RFC 5036\n/// sections 3.5.7 and 3.99, [here](THEOREMS.md#no-heading), `bin/vplsnet play`, `docs/NOTHING.md`, `is_never_there`"
    seen = [*sections(bad), *links(TOP / "docs" / "TOUR.md", bad), *files(bad), *commands(bad), *names(bad, known_names(sources()))]
    wanted = ["RFC 5036 section 3.99", "THEOREMS.md#no-heading", "docs/NOTHING.md", "play", "is_never_there"]
    yield compare("what names nothing is found", seen, wanted)


named = Part(
    "What pages and docstrings name is there: sections of RFCs, files, headings, commands, definitions.",
    {"standards": standards, **table(pages(), lambda path: path.relative_to(TOP), page), "theorems": theorems, "crates": crates, "nothing": nothing},
)
