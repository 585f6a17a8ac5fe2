"""The summary of a run, as plain lists and texts, ready for JSON."""

from __future__ import annotations

from .network import UP
from .settle_bound import longest_rest
from .sound import is_sound, used_wires, why_not_sound, without_label

TYPE_CHECKING = False
if TYPE_CHECKING:
    from collections.abc import Iterable, Iterator
    from typing import Any

    from .frames import Frame, Moment, Run
    from .network import Network
    from .pings import Ping
    from .plan import Plan, Wire
    from .report import Report

# Over so many segments at most a flooded frame of a quiet service serves each site that it reaches.
MOST_SEGMENTS = 12


def sum_up(plan: Plan, run: Run, first: int = 1) -> dict[Any, Any]:
    """All of it; of losses, frames, pings, idle events and drops those from an event on, by its number."""
    used = {wire.name for service in plan.services for wire in used_wires(run.network, service)}
    return {
        "events": run.count,
        "from": first,
        "ending": run.report.ending,
        "discovery": discovery(run, first),
        "sessions": [session_row(run, *pair) for pair in plan.pairs()],
        "wires": [{**wire_row(run, wire), "used": wire.name in used} for wire in plan.wires.values()],
        "services": [service_row(plan, run, service, first) for service in plan.services],
        "frames": [frame_row(frame) for frame in run.frames.values() if frame.event.number >= first],
        "pings": [ping_row(run, ping) for ping in run.pings.all if ping.event.number >= first],
        "idle": [{"event": event.number, "words": event.text, "line": event.line} for event in run.idle if event.number >= first],
        "drops": drop_rows(run, first),
        "rest": rest_row(plan, run.report),
        "under_way": under_way(run.network),
    }


def discovery(run: Run, first: int) -> dict[str, Any]:
    """What a script told of Hellos from an event on: how many were said, which connections were barred, and which adjacencies came up
    and ended, each with its line and the event that it stands behind (0 before the first one)."""
    rows: dict[str, Any] = {"hellos": 0, "barred": [], "adjacencies": []}
    for number, line, (kind, *words) in run.notes:
        place: dict[str, Any] = {"event": number, "line": line}
        if number < first and first > 1:
            continue
        if kind == "hello":
            rows["hellos"] += 1
        elif kind == "barred":
            rows["barred"].append({"edges": words, **place})
        else:
            rows["adjacencies"].append({"edge": words[0], "peer": words[1], "state": words[2], **place})
    return rows


def rest_row(plan: Plan, report: Report) -> dict[str, int] | None:
    """The longest stretch of deliveries that came to rest, and by how many at most it does so; None of a report without one."""
    found = longest_rest(plan, report)
    return None if found is None else {"from": found.first, "to": found.last, "deliveries": found.deliveries, "bound": found.bound}


def event_from(report: Report, words: Any) -> int | None:
    """The number of the event that somebody means by its number or its words; None where there is none."""
    texts = [line[2:] for line in report.lines if line.startswith("> ")]
    if words.isascii() and words.isdigit() and 1 <= int(words) <= len(texts):
        return int(words)
    return texts.index(words) + 1 if words in texts else None


def session_row(run: Run, a: str, b: str) -> dict[Any, Any]:
    """A session, as both ends see it."""
    sessions = run.network.sessions
    return {"edges": [a, b], "states": [sessions[a, b], sessions[b, a]], "was_up": frozenset((a, b)) in run.ever_up}


def wire_row(run: Run, wire: Wire) -> dict[str, Any]:
    """A wire, with what each terminal edge says of it; with both MTUs where these differ."""
    states = [run.network.ends[edge, wire.name] for edge in wire.ends()]
    row: dict[str, Any] = {"wire": wire.name, "service": wire.service, "class": wire.kind, "path": list(wire.path), "states": states}
    row["carries"], row["was_up"] = run.network.carries(wire), wire.name in run.ever_carried
    row["stands_by"], row["sound"] = stands_by(run.network, wire), is_sound(run.network, wire)
    if "Mtu" in states:
        row["mtu"] = [wire.near["mtu"], wire.far["mtu"]]
    return row


def stands_by(network: Network, wire: Wire) -> bool:
    """Whether a spoke is one that could be used, and is not since another one is."""
    states = {network.ends[edge, wire.name] for edge in wire.ends()}
    return wire.kind == "spoke" and "Standby" in states and states <= {"Standby", UP} and network.has_sessions(wire)


def service_row(plan: Plan, run: Run, service: str, first: int) -> dict[Any, Any]:
    """A service: its sites; whether it is quiet, calm and sound at the end, and why not; which sites lost each other when, which never
    had each other, and the spoke edges of which not all spokes can be used at the end."""
    network, sites = run.network, run.network.sites(service)
    edges = [edge for edge in plan.edges if edge in {plan.circuits[site]["edge"] for site in sites}]
    pairs = {frozenset((a, b)) for place, a in enumerate(edges) for b in edges[place + 1 :]} - run.ever_joined[service]
    why_not = why_not_sound(network, service)
    return {
        "service": service,
        "sites": list(sites),
        "calm": network.is_calm(service),
        "sound": not why_not,
        "why_not_sound": why_not,
        "unsettled": [list(pair) for pair in network.unsettled(service)],
        "no_label": without_label(network, service),
        "lost": list(lost_rows(plan, run, service, first)),
        "never": parted(plan, sites, pairs),
        "redundancy": [row for row in spokes_left(plan, network, service) if row["usable"] < row["spokes"]],
    }


def lost_rows(plan: Plan, run: Run, service: str, first: int) -> Iterator[dict[str, Any]]:
    """Which sites of a service lost each other from an event on: those that were on when they did."""
    spans: dict[Any, Any] = {}
    for pair, span in run.spans[service]:
        if span.start.number >= first:
            times = (span.start, span.end, span.deliveries)
            spans.setdefault(times, (span.sites, []))[1].append(pair)
    for (start, end, deliveries), (sites, pairs) in sorted(spans.items(), key=in_order):
        found = parted(plan, sites, pairs)
        if found:
            yield {"from": told(start), "to": told(end), "deliveries": deliveries, "sites": found}


def in_order(row: tuple[Any, Any]) -> tuple[Any, ...]:
    """By the event that begins a span, and then by the one that ends it, those that none ends last."""
    start, end, _ = row[0]
    return start.number, end is None, end.number if end else 0


def spokes_left(plan: Plan, network: Network, service: str) -> Iterator[Any]:
    """How many spokes each spoke edge of several ones has, and how many of them could be used."""
    spokes = [wire for wire in plan.wires_of(service) if wire.kind == "spoke"]
    for edge in plan.edges:
        own = [wire for wire in spokes if wire.path[0] == edge]
        if len(own) > 1:
            usable = sum(network.carries(wire) or stands_by(network, wire) for wire in own)
            yield {"edge": edge, "spokes": len(own), "usable": usable}


def told(event: Moment | None) -> dict[Any, Any] | None:
    """An event by its number and its words; None where there is none."""
    return None if event is None else {"event": event.number, "words": event.text}


def parted(plan: Plan, sites: Iterable[str], pairs: Any) -> list[dict[str, Any]]:
    """Of these sites those of edges that lost each other: lists of sites, each with those that they lost. The edge that lost most
    comes first."""
    at: dict[str, list[str]] = {}
    for site in sites:
        at.setdefault(plan.circuits[site]["edge"], []).append(site)
    pairs = [pair for pair in pairs if all(edge in at for edge in pair)]
    rows = []
    while pairs:
        counts = count(edge for pair in pairs for edge in pair)
        edge = max((name for name in plan.edges if name in counts), key=counts.__getitem__)
        lost = [other for other in plan.edges if other != edge and frozenset((edge, other)) in pairs]
        rows.append({"sites": at[edge], "lost": [site for other in lost for site in at[other]]})
        pairs = [pair for pair in pairs if edge not in pair]
    return rows


def count(found: Iterable[Any]) -> dict[Any, int]:
    """How often each thing is there."""
    counts: dict[Any, int] = {}
    for one in found:
        counts[one] = counts.get(one, 0) + 1
    return counts


def frame_row(frame: Frame) -> dict[Any, Any]:
    """What became of a frame."""
    flooded, missed, twice, hops = frame.is_flooded(), frame.missed(), frame.twice(), int(frame.hops)
    why_not = frame.why_not_promised()
    return {
        "frame": frame.origin,
        "event": frame.event.number,
        "circuit": frame.circuit,
        "service": frame.service,
        "to": frame.to,
        "flooded": flooded,
        "calm": frame.calm,
        "quiet": not frame.unsettled,
        "promised": not why_not,
        "why_not_promised": why_not,
        "reached": None if why_not else list(frame.reached),
        "kept": None if why_not else frame.is_as_reached() and hops <= MOST_SEGMENTS,
        "served": dict(frame.left),
        "missed": missed if flooded else [],
        "twice": twice,
        "segments": hops,
        "dropped": dropped(frame),
        "lost": frame.lost,
        "aged": frame.aged,
        "repeated": frame.repeated,
        "under_way": sorted(map(int, frame.under_way)),
        "nowhere": not frame.left and not frame.under_way,
    }


def dropped(frame: Frame | Ping) -> list[Any]:
    """Where copies of a frame, or packets of a ping, were dropped, and why."""
    return [{"event": event.number, "edge": edge, "cause": cause} for event, edge, cause in frame.dropped]


def ping_row(run: Run, ping: Ping) -> dict[Any, Any]:
    """What became of a ping."""
    return {
        "event": ping.event.number,
        "edge": ping.edge,
        "wire": ping.wire,
        "idle": ping.event.is_idle,
        "answers": ping.answers,
        "dropped": dropped(ping),
        "lost": ping.lost,
        "aged": ping.aged,
        "under_way": run.pings.under_way(ping),
    }


def drop_rows(run: Run, first: int) -> list[Any]:
    """How often frames were dropped, by cause and edge."""
    counts = count((cause, edge) for number, edge, cause in run.drops if number >= first)
    return [{"cause": cause, "edge": edge, "count": times} for (cause, edge), times in sorted(counts.items())]


def under_way(network: Network) -> dict[Any, Any]:
    """Octets and packets that are on their way at the end."""
    octets = [{"from": a, "to": b, "octets": pipe.octets()} for (a, b), pipe in network.pipes.items() if pipe.octets()]
    packets = [
        {"packet": number, "from": words[0], "to": words[1], "wire": words[2], "frame": int(words[4])}
        for number, words in sorted((int(number), words) for number, words in network.packets.items())
    ]
    return {"octets": octets, "packets": packets}
