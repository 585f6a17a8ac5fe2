"""What the edges of a lab said of their pseudowires and ports over time: FRR's `show l2vpn atom vc json` in files with a time each, and
logs of lines `time edge wire state` and `time circuit on` or `off`."""

from __future__ import annotations

import decimal
import json
import os
import re

from .capture_reading import SECOND
from .command import Fault, text_of

TYPE_CHECKING = False
if TYPE_CHECKING:
    from typing import Any

    from .lab_file import Lab, Table

# What an end is called in a report; what else a log says of one that does not forward is written as the second one.
STATES = ("up", "NoLocal", "NoRemote", "CBit", "Kind", "Mtu", "LocalFault", "RemoteFault", "Standby")
DOWN = "NoRemote"
TIME_IN_NAME = re.compile(r"(\d{9,10}(?:\.\d+)?)[^/]*$")

# A time, the kind wire or circuit, the names, and the state.
Told = tuple[int, tuple[str, ...], str]


def tables_of(lab: Lab) -> list[Told]:
    """What was told, in the order of the times: of an end of a wire by its edge and name, of a circuit by its name."""
    told: list[Told] = []
    asked: dict[tuple[str, str], list[tuple[int, str]]] = {}
    for table in lab.tables:
        text = text_of(table.path)
        if text.lstrip()[:1] == "{":
            for end, time, state in asked_of(lab, table, text):
                asked.setdefault(end, []).append((time, state))
        else:
            told += lines_of(lab, table, text)
    for end, rows in asked.items():
        told += [(time, end, state) for time, state in changes_of(sorted(rows))]
    return sorted(told, key=lambda one: one[0])


def changes_of(rows: list[tuple[int, str]]) -> list[tuple[int, str]]:
    """What an end is taken for by what it said when it was asked: up between two times at which it was so, else down."""
    found, last = [], ""
    for (time, state), (_, after) in zip(rows, [*rows[1:], rows[-1]]):
        state = state if state == "up" == after or state != "up" else DOWN
        if state != last:
            found.append((time, state))
        last = state
    return found


def asked_of(lab: Lab, table: Table, text: str) -> list[tuple[tuple[str, str], int, str]]:
    """What FRR said when it was asked: for each end of the plan at this edge, the time and the state."""
    found = TIME_IN_NAME.search(os.path.basename(table.path))
    if table.time is None and found is None:
        raise Fault(f"{table.name}: no time says when FRR was asked; give the row of [[table]] the key time, or the file a name such as a-1796116571.json")
    if not table.edge:
        raise Fault(f"{table.name}: the row of [[table]] needs the key edge")
    time = (nanoseconds_of(found[1]) if found and table.time is None else table.time or 0) + table.skew
    try:
        rows = [row for row in json.loads(text).values() if isinstance(row, dict)]
    except json.JSONDecodeError as fault:
        raise Fault(f"{table.name}: no JSON as `show l2vpn atom vc json` writes it: {fault}") from None
    said = {(row.get("peerId"), row.get("vcId")): row.get("status") for row in rows}
    address = {edge: row["address"] for edge, row in lab.plan.edges.items()}
    ends = [(wire, far) for wire in lab.plan.wires.values() for near, far in (wire.ends(), wire.ends()[::-1]) if near == table.edge]
    return [((table.edge, wire.name), time, state_of(said.get((address[far], wire.pw_id), "none"))) for wire, far in ends]


def state_of(word: Any) -> str:
    """A state as a report has it."""
    return str(word) if word in STATES else "up" if str(word).lower() == "up" else DOWN


def nanoseconds_of(text: str) -> int:
    """A time in seconds, as a text, in nanoseconds."""
    return int(decimal.Decimal(text) * SECOND)


def lines_of(lab: Lab, table: Table, text: str) -> list[Told]:
    """What a log says."""
    told: list[Told] = []
    for number, line in enumerate(text.splitlines(), 1):
        words = line.split()
        if not words or words[0].startswith("#"):
            continue
        try:
            time = nanoseconds_of(words[0]) + table.skew
            if len(words) == 4 and words[1] in lab.plan.wires[words[2]].ends():
                told.append((time, (words[1], words[2]), state_of(words[3])))
            elif len(words) == 3 and words[1] in lab.plan.circuits and words[2] in ("on", "off"):
                told.append((time, (words[1],), words[2]))
            else:
                raise ValueError
        except (ValueError, KeyError, ArithmeticError):
            raise Fault(f"{table.name}, line {number}: {line!r} is neither `time edge wire state` nor `time circuit on` or `off`, of names of the plan") from None
    return told
