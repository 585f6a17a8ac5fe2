"""What was expected of the cases, as pipelines read it: a file of JUnit, and annotations of GitHub."""

from __future__ import annotations

import re
from xml.sax.saxutils import quoteattr

TYPE_CHECKING = False
if TYPE_CHECKING:
    import pathlib

    from .expectations import Judged

# What a text of XML 1.0 cannot have.
BAD = re.compile("[^\t\n\r -\ud7ff\ue000-\ufffd\U00010000-\U0010ffff]")


def attribute(text: str) -> str:
    """A text as the value of an attribute of XML, with its quotes."""
    return quoteattr(BAD.sub("?", text))


def junit(scenario: str, rows: list[Judged]) -> str:
    """A file of JUnit: a test for each case and expectation."""
    failures = sum(bool(row.faults) for row in rows)
    head = f'name={attribute(scenario)} tests="{len(rows)}" failures="{failures}" errors="0"'
    lines = ['<?xml version="1.0" encoding="UTF-8"?>', "<testsuites>", f"<testsuite {head}>"]
    for row in rows:
        test = f"<testcase classname={attribute(f'{scenario}.{row.expectation.name}')} name={attribute(row.case)}"
        if row.faults:
            lines += [f"{test}>", f"<failure message={attribute('; '.join(row.faults))}/>", "</testcase>"]
        else:
            lines.append(f"{test}/>")
    return "\n".join([*lines, "</testsuite>", "</testsuites>", ""])


def annotation(path: str | pathlib.Path, row: Judged) -> str:
    """A line by which GitHub shows what is otherwise at the expectation."""
    text = "; ".join(row.faults)
    for sign in "%\r\n":
        text = text.replace(sign, f"%{ord(sign):02X}")
    title = f"{row.expectation.name}, {row.case}"
    place = {"file": str(path), "line": str(row.expectation.line), "title": title}
    for key, value in place.items():
        for sign in "%\r\n:,":
            value = value.replace(sign, f"%{ord(sign):02X}")
        place[key] = value
    return f"::error {','.join(f'{key}={value}' for key, value in place.items())}::{text}"
