"""The failures that somebody defines: the rows `case` of a file, each with what fails together, and what mends it."""

from __future__ import annotations

from .command import Fault
from .event_words import EventWords
from .failures import Case
from .silence import SILENT, check, mending_of
from .wanted import read_wanted, rows_of

TYPE_CHECKING = False
if TYPE_CHECKING:
    import pathlib
    from collections.abc import Iterable, Iterator

    from .network import Network
    from .plan import Plan

# The events that may bring a failure about, or mend it: all others are those of the frames and deliveries around it.
SWITCHES = ("lose", "connect", "restart", "wire", "circuit", "status", "priority")


def own_cases(path: str | pathlib.Path, plan: Plan, network: Network) -> list[Case]:
    """The cases of a file."""
    found: list[Case] = []
    for number, row in enumerate(rows_of(path, read_wanted(path), "case", {"name": str, "failure": list, "mending": list}), 1):
        where = f"{path}: case {number}"
        if not row.get("name") or not row.get("failure"):
            raise Fault(f"{where} has no name or no failure, such as name = \"duct 7\" and failure = [\"lose a b\", \"silent c d\"]")
        if row["name"] in [case.name for case in found]:
            raise Fault(f"{where}: {row['name']!r} is the name of an earlier one")
        for text in row["failure"]:
            check_word(plan, where, text, SILENT)
        for text in row.get("mending", []):
            check_word(plan, where, text, "")
        mending = row["mending"] if "mending" in row else list(mended(plan, network, row["failure"]))
        found.append(Case(row["name"], "own", tuple(row["failure"]), tuple(mending)))
    if not found:
        raise Fault(f"{path} has no rows [[case]]")
    return found


def check_word(plan: Plan, where: str, text: str, more: str) -> None:
    """Refuses what is neither an event that switches something nor something silent."""
    first = text.split(" ", 1)[0]
    if first == more:
        check(plan, text)
        return
    if first not in SWITCHES:
        raise Fault(f"{where}: {text!r} begins with none of {', '.join([*SWITCHES, *([more] if more else [])])}")
    tables: dict[str, Iterable[str]] = {"edge": plan.edges, "circuit": plan.circuits, "wire": plan.wires}
    rows = {table: [{"name": name} for name in names] for table, names in tables.items()}
    bad = EventWords(rows).bad_word(text.split(" "))
    if bad is not None:
        raise Fault(f"{where}: {text!r}, word {bad[0]}: {bad[1]}")


def mended(plan: Plan, network: Network, failure: list[str]) -> Iterator[str]:
    """The events that undo a failure: each once, restarts first, and connections last."""
    found = [event for text in failure for event in undone(plan, network, text)]
    order = {"restart": 0, "connect": 2}
    yield from dict.fromkeys(sorted(found, key=lambda event: order.get(event.split(" ", 1)[0], 1)))


def undone(plan: Plan, network: Network, text: str) -> Iterator[str]:
    """The events that undo an event, or what is silent."""
    kind, *words = text.split(" ")
    up = [pair for pair in plan.pairs() if network.is_up(*pair)]
    if kind == SILENT:
        yield from mending_of(plan, text, up)
    elif kind == "lose":
        yield from (f"connect {a} {b}" for a, b in up if {a, b} == set(words))
    elif kind == "restart":
        yield from (f"connect {a} {b}" for a, b in up if words[0] in (a, b))
    elif kind in ("wire", "circuit"):
        yield " ".join([kind, *words[:-1], "on" if words[-1] == "off" else "off"])
    elif kind == "status":
        yield f"status {words[0]} {words[1]} {network.switches.bits_of(words[0], words[1])}"
    elif kind == "priority":
        yield f"priority {words[0]} {words[1]} {network.switches.priority_of(plan.wires[words[1]])}"
