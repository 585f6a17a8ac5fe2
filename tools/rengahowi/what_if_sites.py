"""The cases of a plan by its sites: for how long each of them loses another one at most."""

from __future__ import annotations

from collections import Counter

from .durations import is_return, is_split, parts, span, weight
from .what_if_text import some, table

TYPE_CHECKING = False
if TYPE_CHECKING:
    from typing import Any


class Site:
    """What a site loses in all cases: the longest loss that ends while the failure stands, the case, and whom it loses then; and the
    cases in which it stays apart until it is mended, or for good, or goes with its own edge."""

    def __init__(self) -> None:
        self.longest: tuple[dict[str, Any], str, list[str]] | None = None
        self.split: list[str] = []
        self.with_edge: list[str] = []

    def take(self, one: dict[str, Any], case: str, others: list[str]) -> None:
        """A loss of a case."""
        if is_split(one) or one["to"] is None:
            self.split += [case] if case not in self.split else []
        elif self.longest is None or weight(one) > weight(self.longest[0]):
            self.longest = one, case, others


def sites_of(found: dict[str, Any]) -> dict[str, dict[str, Site]]:
    """Each site of each service."""
    sites = {service: {name: Site() for name in names} for service, names in found["services"].items()}
    service_of = {name: service for service, names in sites.items() for name in names}
    for row in found["cases"]:
        for name in row["gone"]:
            sites[service_of[name]][name].with_edge.append(row["case"])
        for one in row["lost"]:
            if not is_return(row, one):
                for name, others in pairs_of(one).items():
                    sites[one["service"]][name].take(one, row["case"], others)
    return sites


def pairs_of(one: dict[str, Any]) -> dict[str, list[str]]:
    """Each site of a loss, with those that it lost."""
    found: dict[str, list[str]] = {}
    for part in one["sites"]:
        for a in part["sites"]:
            for b in part["lost"]:
                found.setdefault(a, []).append(b)
                found.setdefault(b, []).append(a)
    return found


def text_of_sites(found: dict[str, Any]) -> str:
    """A line a site."""
    has_time = bool(found.get("time"))
    rows: list[tuple[str, ...]] = [("service", "site", "longest", *(["detection", "signalling"] if has_time else []), "case", "loses", "split in", "with its edge in")]
    for service, sites in sites_of(found).items():
        for name, site in sites.items():
            length = ["-"] * (5 if has_time else 3)
            if site.longest is not None:
                one, case, others = site.longest
                length = [span(one), *(parts(one) if has_time else ()), case, some(others)]
            rows.append((service, name, *length, counted(site.split), counted(site.with_edge)))
    return "\n".join(table(rows)) + "\n"


def counted(cases: list[str]) -> str:
    """The first of some cases, and how many there are."""
    return "-" if not cases else cases[0] + (f" and {len(cases) - 1} more" if len(cases) > 1 else "")


def row_of_sweep(word: str, found: dict[str, Any]) -> tuple[str, ...]:
    """What all cases come to with one number: the longest loss that ends while the failure stands, in which cases sites stay apart,
    and how many frames never come while it stands."""
    ended = [(one, row["case"]) for row in found["cases"] for one in row["lost"] if not is_split(one) and one["to"] is not None and not is_return(row, one)]
    one, case = max(ended, key=lambda pair: weight(pair[0]), default=(None, "-"))
    split = sum(any(is_split(one) for one in row["lost"]) for row in found["cases"])
    never: Counter[str] = Counter()
    for row in found["cases"]:
        for phase, sites in row["never"].items():
            never[phase] += sum(sites.values())
    frames = ", ".join(f"{count} {phase}" for phase, count in never.items() if count)
    times = () if not found.get("time") else ("-", "-") if one is None else parts(one)
    return word, span(one) if one is not None else "-", *times, case, f"{split} of {len(found['cases'])}", frames or "-"


def text_of_sweep(rows: list[tuple[str, ...]], has_time: bool) -> str:
    """A line a number."""
    heads = ("", "longest", *(["detection", "signalling"] if has_time else []), "case", "split in", "never")
    return "\n".join(table([heads, *rows])) + "\n"
