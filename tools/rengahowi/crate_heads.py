"""The table of the crates in docs/ARCHITECTURE.md, made of crates.txt and of the words at each crate's head."""

from __future__ import annotations

import re
from collections import Counter

from .trying import TOP

TYPE_CHECKING = False
if TYPE_CHECKING:
    import pathlib
    from collections.abc import Iterator

PAGE = TOP / "docs" / "ARCHITECTURE.md"
FROM = "<!-- made by tools/make-crate-table: its words stand at the head of each crate -->\n"
TO = "<!-- end of the crates -->\n"
# What the head of each crate of laws says of its files is said once, above the table.
RUNS_NOTHING = re.compile(r" ?This crate runs nothing: .*?as (?:its|a) contract\.", re.DOTALL)
# The sections of standards stand at the head itself, and so does what comes behind its first sentence.
STANDARDS = re.compile(r" \(RFC [^)]*\)")
FIRST = re.compile(r".*?\.(?= [A-Z`]|$)", re.DOTALL)


def crates() -> Iterator[tuple[str, str]]:
    """The crates as crates.txt lists them, each behind the heading of its group."""
    group = ""
    for line in (TOP / "crates.txt").read_text(encoding="utf-8").splitlines():
        if line.startswith("#"):
            group = line[1:].strip()
        elif ":" in line:
            yield group, line.partition(":")[0]


def main_file(crate: str) -> pathlib.Path:
    """The file with the head of a crate."""
    source = TOP / "crates" / crate / "src"
    return source / "lib.rt" if (source / "lib.rt").exists() else source / "main.rt"


def head(crate: str) -> str:
    """The first sentence of the words at the head of a crate, without the sections of standards."""
    words = []
    for line in main_file(crate).read_text(encoding="utf-8").splitlines():
        if not line.startswith("//! "):
            break
        words.append(line[4:])
    paragraph = STANDARDS.sub("", RUNS_NOTHING.sub("", " ".join(words)))
    first = FIRST.match(paragraph)
    return first[0] if first else paragraph


def subject(sentence: str) -> str:
    """What stands before the colon of a sentence, where that are words enough."""
    before = sentence.partition(": ")[0]
    return sentence if before == sentence or len(before.split()) < 4 else before + "."


def table() -> str:
    """The rows of all crates, a heading of each group before them. Two crates of one subject have their sentences whole."""
    rows, last = ["| Crate | What it is |", "|---|---|"], None
    heads = {crate: head(crate) for _, crate in crates()}
    times = Counter(subject(words) for words in heads.values())
    for group, crate in crates():
        if group != last:
            rows.append(f"| | **{group}** |")
            last = group
        short = subject(heads[crate])
        rows.append(f"| `{crate}` | {short if times[short] == 1 else heads[crate]} |")
    return "\n".join(rows) + "\n"


def with_table(page: str) -> str:
    """The page with the table of today in its place."""
    before, _, rest = page.partition(FROM)
    _, _, behind = rest.partition(TO)
    return f"{before}{FROM}\n{table()}\n{TO}{behind}"
