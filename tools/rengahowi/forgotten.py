"""What a planner forgets in a scenario that the program accepts."""

from __future__ import annotations

from .checking import Finding
from .sound import text_of, why_not_sound

# A session takes so many deliveries at least until a wire over it is up at both ends.
DELIVERIES = 4

TYPE_CHECKING = False
if TYPE_CHECKING:
    from collections.abc import Iterator
    from typing import Any

    from .network import Network
    from .plan import Plan

# So many reasons why a service is not sound are told.
MOST = 10


def warnings(plan: Plan, connected: Network) -> Iterator[Any]:
    """All warnings on a plan and its events. The network is that of the plan, with each two neighbours connected."""
    for service in plan.services:
        yield from unsound(plan, connected, service)
    yield from never_connected(plan)
    yield from expiring(plan)
    yield from ending_early(plan)
    yield from from_groups(plan)


def unsound(plan: Plan, connected: Network, service: str) -> Iterator[Any]:
    """What keeps a service from being sound, also where all is connected: it is never calm, and sites never hear each other."""
    rows = why_not_sound(connected, service)
    number = list(plan.services).index(service)
    for row in rows[:MOST]:
        text = f"service {service!r} is never sound: {text_of(row)}, so sites never hear each other"
        yield Finding("", ("service", number), 0, text)
    if len(rows) > MOST:
        yield Finding("", ("service", number), 0, f"service {service!r} is never sound for {len(rows) - MOST} more reasons")
    yield from turned_spokes(plan, service, {edge for row in rows if not row["wires"] for edge in row.get("core_edges", [])})


def turned_spokes(plan: Plan, service: str, lonely: Any) -> Iterator[Any]:
    """A spoke whose path begins at what looks like the core edge: where it ends there is no mesh wire to the rest."""
    mesh_ends = {edge for wire in plan.wires_of(service) if wire.kind == "mesh" for edge in wire.ends()}
    for number, wire in enumerate(plan.wires.values()):
        first, last = wire.ends()
        if wire.service == service and wire.kind == "spoke" and last in lonely - mesh_ends:
            turned = ", ".join(f'"{edge}"' for edge in wire.path[::-1])
            text = f"spoke {wire.name!r} makes {first!r} the spoke edge and {last!r} the core edge; if it is otherwise, path = [{turned}]"
            yield Finding("", ("wire", number, "path"), 0, text)


def never_connected(plan: Plan) -> Iterator[Any]:
    """Neighbours that no event connects: their session never comes up, and no wire between them carries frames."""
    words = [text.split(" ") for text in plan.events]
    connected = {frozenset(row[1:3]) for row in words if row[0] == "connect"}
    for pair in plan.pairs():
        if frozenset(pair) not in connected:
            number = next(n for n, wire in enumerate(plan.wires.values()) if frozenset(pair) in map(frozenset, wire.segments()))
            text = f"edges {pair[0]!r} and {pair[1]!r} are joined by a wire and never connected: put an event 'connect {pair[0]} {pair[1]}'"
            yield Finding("", ("wire", number, "path"), 0, text)


def expiring(plan: Plan) -> Iterator[Any]:
    """Ticks in a row, with nothing delivered between them, that are as many as a hold time: its session expires."""
    holds = {pair: min(plan.edges[edge]["keepalive"] for edge in pair) for pair in plan.pairs()}
    ticks, told = 0, False
    for number, text in enumerate(plan.events):
        words = text.split(" ")
        if words[0] in ("deliver", "settle", "connect"):
            ticks, told = 0, False
        elif words[0] == "tick":
            ticks += int(words[1]) if len(words) > 1 else 1
            short = [pair for pair, hold in holds.items() if ticks >= hold]
            if short and not told:
                told, pair = True, short[0]
                text = (
                    f"{ticks} ticks without a delivery, and the session of {pair[0]!r} and {pair[1]!r} expires after {holds[pair]}:"
                    f" tick less at a time, with a 'settle' in between, or give both a larger keepalive"
                )
                yield Finding("", ("events", number), 0, text)


def ending_early(plan: Plan) -> Iterator[Any]:
    """A `settle N` that ends before the sessions can have come up that were connected before it: each takes four deliveries at least,
    two Initializations, the KeepAlives, and the mappings of the end that is up last."""
    pairs = {frozenset(pair) for pair in plan.pairs()}
    wanted = 0
    last: tuple[int, int, int] | None = None
    for number, text in enumerate([*plan.events, "end"]):
        kind, *words = text.split(" ")
        if kind == "connect":
            wanted += DELIVERIES if frozenset(words) in pairs else 0
        elif kind in ("settle", "deliver"):
            count = int(words[0]) if kind == "settle" else 1
            last = (number, count, wanted) if kind == "settle" and count < wanted else last
            wanted = max(0, wanted - count)
        elif kind != "tick":
            if wanted and last is not None:
                place, count, before = last
                text = f"{count} deliveries, and the sessions that were connected by then take {before} at least to come up with their wires: settle more"
                yield Finding("", ("events", place), 0, text)
            wanted, last = 0, None


def from_groups(plan: Plan) -> Iterator[Any]:
    """Frames whose source is a group, which no bridge learns."""
    for number, text in enumerate(plan.events):
        kind, *words = text.split(" ")
        if kind == "frame" and len(words[1]) >= 24 and int(words[1][12:14], 16) % 2:
            said = f"its source {words[1][12:24].lower()} is a group address (the first octet is odd), so no bridge learns where its station is"
            yield Finding("", ("events", number), 0, said)
