"""The checks of by how many deliveries signalling comes to rest: random plans and runs of every kind."""

from __future__ import annotations

import pathlib
import random
from typing import NamedTuple

from . import writing
from .event_kinds import ALL, MOST
from .keys import NEWEST
from .plan import Plan, read_plan
from .report import read_report
from .rows import Part, table
from .settle_bound import LINES, Bound, Stretches, settles
from .trying import PROGRAM, compare, run, tool

TYPE_CHECKING = False
if TYPE_CHECKING:
    from collections.abc import Iterator
    from typing import Any

# How many random runs are made of each row, and how many events each has.
RUNS, EVENTS = 8, 40
# Pieces of what is on its way: one octet, less than a message, and all.
PIECES = (1, 7, 17, 18, 36, 54, ALL, ALL, ALL)
# Statuses, of which most set no failure bits (RFC 4446 section 3.5).
STATUSES = (0, 0, 1, 2, 31)


def random_rows(chance: random.Random) -> dict[str, list[dict[str, Any]]]:
    """The rows of a small plan: core edges in mesh, or spoke edges with up to three spokes, some over a switching point; ends that take no
    statuses, and edges that say a KeepAlive after few ticks."""
    services, cores = chance.choice((1, 1, 2)), chance.randint(2, 4)
    rows = writing.mesh(cores, 1, services)
    if chance.random() < 0.7:
        spokes, is_stitched = chance.randint(1, min(3, cores)), chance.random() < 0.4
        rows = writing.hierarchy(cores, chance.randint(1, 2), 1, spokes, services, stitched=is_stitched)
    for wire in rows["wire"]:
        for end in ("near", "far"):
            if chance.random() < 0.3:
                wire[end] = {"status": chance.random() < 0.3}
    for edge in rows["edge"]:
        if chance.random() < 0.3:
            edge["keepalive"] = chance.choice((3, 6))
    return rows


def random_event(chance: random.Random, plan: Plan) -> str:
    """One event: of sessions, wires, statuses and priorities, a tick, or a delivery of a piece."""
    a, b = chance.choice([way for pair in plan.pairs() for way in (pair, pair[::-1])])
    wire = chance.choice(list(plan.wires.values()))
    edge = chance.choice(wire.path)
    kinds = {
        "connect": f"connect {a} {b}",
        "lose": f"lose {a} {b}",
        "restart": f"restart {a}",
        "wire": f"wire {edge} {wire.name} {chance.choice(('on', 'off'))}",
        "status": f"status {chance.choice(wire.ends())} {wire.name} {chance.choice(STATUSES)}",
        "tick": "tick",
        "deliver": f"deliver {a} {b} {chance.choice(PIECES)}",
        "settle": f"settle {chance.choice((1, 2, 5, MOST))}",
    }
    if wire.kind == "spoke":
        kinds["priority"] = f"priority {wire.path[0]} {wire.name} {chance.randint(0, 255)}"
    weights = {"deliver": 6, "settle": 4, "wire": 2, "status": 2}
    return kinds[chance.choices(list(kinds), [weights.get(kind, 1) for kind in kinds])[0]]


class Found(NamedTuple):
    """What was found in runs: how many deliveries of all that was on its way, those that did not lower the bound, stretches that came to rest,
    and what the bound was of the need, in each of them."""

    deliveries: int
    not_lower: list[str]
    ratios: list[float]


def followed(plan: Plan, path: pathlib.Path) -> Found:
    """What a report tells of the bound before and behind each delivery."""
    stretches, count, wrong = Stretches(plan, read_report(path, plan)), 0, list[str]()
    last: int | None = None
    first = need = 0
    ratios: list[float] = []
    for number, delivers in stretches.followed():
        bound = stretches.bound.of(stretches.network)
        if last is not None:
            count, need = count + 1, need + 1
            wrong += [f"event {number - 1}: {last} to {bound}"] if bound >= last else []
            if stretches.is_at_rest():
                ratios.append(first / need)
        if delivers and last is None:
            first, need = bound, 0
        last = bound if delivers else None
    return Found(count, wrong, ratios)


def one_run(folder: pathlib.Path, seed: str) -> Found:
    """A random run."""
    chance = random.Random(seed)
    rows, path, report = random_rows(chance), folder / "run.toml", folder / "run.txt"
    plan = Plan({"version": NEWEST, **rows})
    begin = writing.connected(rows) if chance.random() < 0.7 else []
    events = [*begin, *(random_event(chance, plan) for _ in range(EVENTS)), f"settle {MOST}"]
    path.write_text(writing.scenario(rows, events), encoding="utf-8")
    report.write_bytes(run([PROGRAM, "replay", path], folder).stdout)
    return followed(read_plan(path), report)


def falls(folder: pathlib.Path, number: int) -> Iterator[bool]:
    """Each delivery of all that is on its way takes away of the bound, so that as many as it says are enough."""
    found = [one_run(folder, f"{number} {place}") for place in range(RUNS)]
    yield compare(f"runs {number}, deliveries that do not lower the bound", [row.not_lower for row in found], [[]] * RUNS)
    yield compare(f"runs {number}, deliveries", sum(row.deliveries for row in found) > RUNS, True)


def made(folder: pathlib.Path, entry: tuple[tuple[Any, ...], int, int, int | None]) -> Iterator[bool]:
    """The number of deliveries that a plan of make-plan needs at most, by hand, and so many `settle`; what `check-scenario` says is the same; and
    how many a run needs, where that was counted by hand too."""
    words, bound, lines, need = entry
    path = folder / "made.toml"
    path.write_text(tool("make-plan", *words)[1], encoding="utf-8")
    text = path.read_text(encoding="utf-8")
    head = f"# Once all are connected signalling comes to rest within {bound} deliveries, by proof"
    yield compare(f"make-plan {words}, rest", text.startswith(f"{head}." if lines < LINES else f"{head};"), True)
    yield compare(f"make-plan {words}, settle", text.count(f'  "settle {MOST}",\n'), lines)
    yield compare(f"check-scenario {words}, rest", f"comes to rest within {bound} deliveries then, by proof" in tool("check-scenario", path)[1], True)
    if need is not None:
        yield compare(f"make-plan {words}, deliveries", run([PROGRAM, "replay", path], folder).stdout.count(b"\n> deliver "), need)


def counted(_folder: pathlib.Path) -> Iterator[bool]:
    """How many lines of `settle` are written, and how many deliveries what comes of events takes at most in a mesh of three edges at rest, by hand:
    each lost end is found out by one delivery; and an edge that mends tells two statuses at most, and withdraws two labels, each of which is
    worth itself, its release, the mapping that this allows, and one back."""
    lines = [len(settles(bound)) for bound in (0, 1, MOST, MOST + 1, 28_318, 10**9)]
    yield compare("lines of settle", lines, [1, 1, 1, 2, 3, LINES])
    bound = Bound(Plan({"version": NEWEST, **writing.mesh(3, 1)}))
    events = ("lose e0 e1", "restart e0", "connect e0 e1", f"wire e0 {next(iter(bound.plan.wires))} off", "circuit c0 off", "tick")
    yield compare("deliveries behind an event", [bound.behind([event], {}) for event in events], [1 + 1, 2, MESH, 2 * (1 + (1 + 2 + 1)), 0, MOST])


# Two neighbours say an Initialization, their sessions are worth 6 and 4, and each maps the wire between them. A mapping to a spoke edge is
# worth more, and so is its session: a status and a withdrawal of addresses on each of its spokes. Such a withdrawal is worth itself, one to each
# spoke edge of the core edge that hears it, and to the other core edge one with those to its spoke edges: 6 where two hang on each of two core
# edges, and 4 where one hangs on both.
MESH = 1 + 6 + 4 + 1 + 1
SPOKE, TRIANGLE = (1 + 6 + 4 + (1 + moves) + (1 + moves) for moves in (1 + 6, 2 * (1 + 4)))
MADE: list[tuple[tuple[Any, ...], int, int, int | None]] = [
    (("mesh", 3), 3 * MESH, 1, 3 * 4),
    (("mesh", 45), 990 * MESH, 2, None),
    (("hierarchy", 2, 4), MESH + 4 * SPOKE, 1, None),
    (("hierarchy", 2, 1, "--spokes", 2), MESH + 2 * TRIANGLE, 1, 14),
]
rests = Part(
    "Signalling comes to rest within so many deliveries: by hand, and in random runs of every kind.",
    {
        "counted": counted,
        **table(MADE, lambda entry: " ".join(map(str, entry[0])), made),
        **table(list(range(3)), lambda number: f"runs-{number}", falls),
    },
)
