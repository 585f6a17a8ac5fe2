"""What is expected of the cases, from a TOML file, by service and site, and all that is otherwise."""

from __future__ import annotations

import fnmatch
from typing import NamedTuple

from .clock import microseconds
from .command import Fault, text_of
from .durations import is_return, is_split, span, weight
from .places import Places
from .summary_text import counted
from .wanted import TABLES, read_wanted, rows_of
from .what_if_sites import pairs_of
from .what_if_text import some

TYPE_CHECKING = False
if TYPE_CHECKING:
    import pathlib
    from collections.abc import Callable, Iterator
    from typing import Any

WORDS = (str, list)
# What is expected, and which cases, services and sites it is about. Above the tables of a file stands what is expected of all.
KINDS: dict[str, type] = {"split": bool, "rounds": int, "ticks": int, "within": str, "twice": bool, "back": bool, "never": bool, "calm": bool}
ABOUT: dict[str, Any] = {"name": str, "case": WORDS, "except": WORDS, "service": WORDS, "site": WORDS, "may_lose": WORDS}
FRAMES = {"twice": "a frame arrives twice", "back": "a frame comes back where it entered", "never": "a frame never arrives"}
# The values that expect something: the others would want a fault.
RIGHT = {"split": False, "twice": False, "back": False, "never": False, "calm": True}


class Expectation(NamedTuple):
    """Some things that are expected together: their name, the line at which they stand, and their keys."""

    name: str
    line: int
    keys: dict[str, Any]

    def is_about(self, key: str, name: str) -> bool:
        """Whether it is about a case, a service or a site with this name."""
        return key not in self.keys or matches(self.keys[key], name)

    def is_for(self, row: dict[str, Any]) -> bool:
        """Whether it is about a case."""
        return self.is_about("case", row["case"]) and not ("except" in self.keys and matches(self.keys["except"], row["case"]))


class Judged(NamedTuple):
    """What became of an expectation in a case: what is otherwise, and nothing where it is met."""

    case: str
    expectation: Expectation
    faults: list[str]


def matches(patterns: str | list[str], name: str) -> bool:
    """Whether a name is one of some patterns."""
    return any(fnmatch.fnmatchcase(name, pattern) for pattern in ([patterns] if isinstance(patterns, str) else patterns))


def read_expectations(path: str | pathlib.Path) -> list[Expectation]:
    """The expectations of a file."""
    found, places = read_wanted(path), Places(text_of(path))
    top = {key: value for key, value in found.items() if key not in TABLES}
    kinds = {**KINDS, **ABOUT}
    for key in top:
        if key not in KINDS and key != "except":
            raise Fault(f"{path}: {key!r} is no expectation; there are {', '.join([*KINDS, 'except'])}, and tables {', '.join(TABLES)}")
    rows_of(path, {"expectation": [top]}, "expectation", kinds)
    rows = [Expectation("all", places.line_and_column((next(iter(top)),))[0], top)] if top else []
    for number, row in enumerate(rows_of(path, found, "expect", kinds)):
        rows.append(Expectation(row.get("name", f"expect {number + 1}"), places.line_and_column(("expect", number))[0], row))
    for one in rows:
        check_values(path, one)
    return rows


def check_values(path: str | pathlib.Path, one: Expectation) -> None:
    """Refuses values that expect nothing, and a row without an expectation."""
    for key, right in RIGHT.items():
        if one.keys.get(key, right) is not right:
            raise Fault(f"{path}, line {one.line}: {key} = {str(right).lower()} expects something, and the other value nothing")
    for key in ("rounds", "ticks"):
        if one.keys.get(key, 0) < 0:
            raise Fault(f"{path}, line {one.line}: {key} is a number of {key}, 0 or more")
    if "within" in one.keys:
        microseconds(one.keys["within"], f"{path}, line {one.line}, within")
    if not KINDS.keys() & one.keys.keys():
        raise Fault(f"{path}, line {one.line}: {one.name} expects nothing; there are {', '.join(KINDS)}")


def judged(expected: list[Expectation], found: dict[str, Any]) -> Iterator[Judged]:
    """Each case with each expectation that is about it."""
    if not found["time"] and any("within" in one.keys for one in expected):
        raise Fault("within wants times: --tick and --one-way, or --time")
    service_of = {site: service for service, sites in found["services"].items() for site in sites}
    for row in found["cases"]:
        for one in expected:
            if one.is_for(row):
                yield Judged(row["case"], one, list(faults_of(one, row, service_of)))


def faults_of(one: Expectation, row: dict[str, Any], service_of: dict[str, str]) -> Iterator[str]:
    """What a case does that is not expected."""
    keys = one.keys
    sites = {site for site, service in service_of.items() if one.is_about("service", service) and one.is_about("site", site)}
    losses = list(losses_of(one, row, sites))
    for key, is_late in LATE.items():
        late = [loss for loss in losses if key in keys and is_late(loss[0], keys[key])]
        if late:
            value = f'"{keys[key]}"' if key == "within" else str(keys[key]).lower()
            yield f"{told(late, row)}, and {key} = {value}"
    for key, text in FRAMES.items():
        counts = {site: number for phase in row[key].values() for site, number in phase.items() if site in sites and not may_lose(one, site, key)}
        orders = row.get("orders", {}).get(key, 0) if "site" not in keys and "service" not in keys else 0
        if key in keys and (counts or orders):
            where = f" at {some(counts)}" if counts else f" in {counted(orders, 'order')}"
            yield f"{text}{where}, and {key} = false"
    if "calm" in keys and not row["calm"]:
        yield "a service is not calm again, and calm = true"


def told(late: list[tuple[dict[str, Any], str, list[str]]], row: dict[str, Any]) -> str:
    """The longest of some losses, and how many more sites have one."""
    first, site, others = max(late, key=lambda loss: weight(loss[0]))
    more = len({name for _, name, _ in late} - {site})
    return f"{site} loses {some(others)} {how_long(first, row)}" + (f" ({counted(more, 'more site')} too)" if more else "")


def may_lose(one: Expectation, site: str, key: str) -> bool:
    """Whether frames may be missing at a site."""
    return key == "never" and "may_lose" in one.keys and matches(one.keys["may_lose"], site)


def losses_of(one: Expectation, row: dict[str, Any], sites: set[str]) -> Iterator[tuple[dict[str, Any], str, list[str]]]:
    """The losses of a case that an expectation is about: a site, and those that it loses, without those that may be lost."""
    allowed = one.keys.get("may_lose", [])
    for loss in row["lost"]:
        for site, lost in pairs_of(loss).items():
            others = [] if matches(allowed, site) else [other for other in lost if not matches(allowed, other)]
            if site in sites and others:
                yield loss, site, others


def stays_apart(loss: dict[str, Any], _: bool) -> bool:
    """Whether sites are apart as long as the failure stands."""
    return is_split(loss)


def too_many_rounds(loss: dict[str, Any], most: int) -> bool:
    """Whether sites do not find each other in so many rounds, behind the failure, its mending, or the tick in which it is found out."""
    return loss["to"] is None or loss["rounds"] > most


def too_many_ticks(loss: dict[str, Any], most: int) -> bool:
    """Whether sites are apart for more ticks, or until it is mended."""
    return loss["to"] is None or is_split(loss) or loss["ticks"] > most


def too_long(loss: dict[str, Any], most: str) -> bool:
    """Whether sites are apart for longer, or until it is mended."""
    return loss["to"] is None or is_split(loss) or round(loss["seconds"] * 1_000_000) > microseconds(most, "within")


LATE: dict[str, Callable[[dict[str, Any], Any], bool]] = {"split": stays_apart, "rounds": too_many_rounds, "ticks": too_many_ticks, "within": too_long}


def how_long(loss: dict[str, Any], row: dict[str, Any]) -> str:
    """For how long, in words."""
    if loss["to"] is None:
        return "for good"
    if is_split(loss):
        behind = span(loss).removeprefix("mended + ") if "seconds" in loss else counted(loss["rounds"], "round")
        return f"until it is mended, and for {behind} behind that"
    behind = " behind the mending" if is_return(row, loss) else ""
    return f"for {span(loss)}{behind}" if "seconds" in loss or loss["ticks"] else f"for {counted(loss['rounds'], 'round')}{behind}"
