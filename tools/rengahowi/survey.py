"""What a survey tells: for each failure of a network, alone and together with others, which sites lose and find each other once all has
settled, whatever the order in which messages came."""

from __future__ import annotations

import pathlib
import subprocess
import tempfile
from itertools import product
from typing import NamedTuple

from . import program
from .command import Fault

TYPE_CHECKING = False
if TYPE_CHECKING:
    from collections.abc import Iterable, Iterator

    from .plan import Plan

# A pair of sites.
Pair = frozenset[str]
# The words of lines that belong to the line before.
RELATIONS = ("cut", "lost", "found")


class Relation(NamedTuple):
    """Sites of a service that lost others, or found them, or are apart from them. Those of `cut` have none of those left that they reached
    at other edges, and name no others."""

    word: str
    service: str
    sites: tuple[str, ...]
    others: tuple[str, ...]


class Told(NamedTuple):
    """A case that is told: its failures as events, how many pairs of sites lose and find each other, and which."""

    failures: tuple[str, ...]
    lost: int
    found: int
    relations: tuple[Relation, ...]


class Survey:
    """The text of a survey, read."""

    def __init__(self, plan: Plan, text: str) -> None:
        self.plan, self.off = plan, set[str]()
        self.ground: list[Relation] = []
        self.no_label: list[str] = []
        self.worst: tuple[str, ...] = ()
        self.counts: dict[str, int] = {}
        rows: list[tuple[tuple[str, ...], int, int, list[Relation]]] = []
        for line in text.splitlines():
            word, *more = line.split(" ")
            if word == "off":
                self.off.update(more[1:])
            elif word == "no_label":
                self.no_label += more
            elif word == "case":
                rows.append((tuple(line.split(" ", 3)[3].split(" + ")), int(more[0]), int(more[1]), []))
            elif word == "worst":
                self.worst = tuple(line.split(" ", 2)[2].split(" + "))
            elif word == "end":
                self.counts = {key: int(count) for key, _, count in (part.partition("=") for part in more)}
            elif word in RELATIONS or word == "apart":
                (rows[-1][3] if rows else self.ground).append(relation_of(word, more))
        if not self.counts:
            raise Fault("the text of the survey has no end")
        self.cases = {frozenset(row[0]): Told(*row[:3], tuple(row[3])) for row in rows}
        # The pairs of each service at two edges that reach each other where nothing fails.
        self.joined = {name: set(self.pairs_in(self.sites_of(name))) for name in plan.services}
        for name in plan.services:
            self.joined[name] -= self.pairs_of([one for one in self.ground if one.service == name])

    def sites_of(self, service: str) -> list[str]:
        """The circuits of a service that are on."""
        return [name for name in self.plan.circuits_of(service) if name not in self.off]

    def edge_of(self, site: str) -> str:
        """The edge of a site."""
        return str(self.plan.circuits[site]["edge"])

    def pairs_in(self, sites: Iterable[str]) -> Iterator[Pair]:
        """Each two of some sites that are at two edges."""
        names = list(sites)
        for place, a in enumerate(names):
            for b in names[place + 1 :]:
                if self.edge_of(a) != self.edge_of(b):
                    yield frozenset((a, b))

    def pairs_of(self, relations: Iterable[Relation]) -> set[Pair]:
        """The pairs of sites of some relations."""
        found: set[Pair] = set()
        for one in relations:
            if one.word == "cut":
                sites = set(one.sites)
                found |= {pair for pair in self.joined[one.service] if not sites.isdisjoint(pair)}
            else:
                found |= {frozenset(pair) for pair in product(one.sites, one.others)}
        return found

    def lost(self, told: Told) -> set[Pair]:
        """The pairs of sites that lose each other in a case."""
        return self.pairs_of(one for one in told.relations if one.word != "found")

    def found(self, told: Told) -> set[Pair]:
        """The pairs of sites that find each other in a case."""
        return self.pairs_of(one for one in told.relations if one.word == "found")

    def apart(self) -> set[Pair]:
        """The pairs of sites at two edges that do not reach each other where nothing fails."""
        return {pair for name in self.plan.services for pair in self.pairs_in(self.sites_of(name)) if pair not in self.joined[name]}


def relation_of(word: str, more: list[str]) -> Relation:
    """A line of sites."""
    service, *names = more
    place = names.index(":") if ":" in names else len(names)
    return Relation(word, service, tuple(names[:place]), tuple(names[place + 1 :]))


def text_of_survey(text: str, most: int) -> str:
    """What the survey of a scenario tells of cases of at most so many failures."""
    with tempfile.TemporaryDirectory(prefix="survey-") as folder:
        path = pathlib.Path(folder, "scenario.toml")
        path.write_text(text, encoding="utf-8")
        words = [program.path(program.SURVEY), str(path), str(most)]
        done = subprocess.run(words, stdin=subprocess.DEVNULL, capture_output=True, check=False)
    if done.returncode != 0:
        raise Fault(f"the survey: {done.stderr.decode(errors='replace').strip() or f'its program ended with status {done.returncode}'}")
    return done.stdout.decode()
