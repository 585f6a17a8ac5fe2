"""What goes silent: an edge that dies without a word, or a link that carries nothing any more, in both directions or in one of them."""

from __future__ import annotations

from .command import Fault

TYPE_CHECKING = False
if TYPE_CHECKING:
    from collections.abc import Iterable, Iterator

    from .plan import Plan

    Way = tuple[str, str]

# The first word of a failure that is no event of a scenario.
SILENT = "silent"


class Silence:
    """The edges that are dead, and the ways from an edge to a neighbour on which nothing arrives: all of a dead edge are among them."""

    def __init__(self, plan: Plan, words: Iterable[str]) -> None:
        self.edges: set[str] = set()
        self.ways: set[Way] = set()
        pairs = plan.pairs()
        for text in words:
            edge, *more = text.split(" ")[1:]
            if not more:
                self.edges.add(edge)
                self.ways.update(way for pair in pairs if edge in pair for way in (pair, pair[::-1]))
            else:
                self.ways.add((edge, more[-1]))
                self.ways.update({(more[-1], edge)} if len(more) == 1 else ())

    def __bool__(self) -> bool:
        """Whether something is silent."""
        return bool(self.ways or self.edges)


def is_silent(text: str) -> bool:
    """Whether a failure is something that goes silent, and no event."""
    return text.split(" ", 1)[0] == SILENT


def check(plan: Plan, text: str) -> None:
    """Refuses words of something silent that are none: `silent E`, `silent E P` and `silent E to P` are right."""
    edge, *more = text.split(" ")[1:] or [""]
    if edge not in plan.edges or len(more) not in (0, 1, 2) or len(more) == 2 and more[0] != "to":
        raise Fault(f"{text!r} is none of 'silent E', 'silent E P' and 'silent E to P'; the edges are {', '.join(list(plan.edges)[:20])}")
    if more and not any({edge, more[-1]} == set(pair) for pair in plan.pairs()):
        raise Fault(f"{text!r}: no wire has {edge!r} and {more[-1]!r} next to each other on its path")


def mending_of(plan: Plan, text: str, stands: Iterable[Way]) -> Iterator[str]:
    """The events by which something silent is mended: a dead edge begins anew, and the sessions over what was silent come back, those
    of these pairs."""
    silence = Silence(plan, [text])
    for edge in silence.edges:
        yield f"restart {edge}"
    for a, b in stands:
        if (a, b) in silence.ways or (b, a) in silence.ways:
            yield f"connect {a} {b}"
