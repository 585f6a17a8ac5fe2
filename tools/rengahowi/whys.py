"""Why a frame came to a site never, twice or back, in words: by the way that it would have gone before the failure."""

from __future__ import annotations

from .probing import BROADCAST

TYPE_CHECKING = False
if TYPE_CHECKING:
    from typing import Any

    from .network import Network

    Hop = tuple[str, str]


def way_of(network: Network, service: str, start: str, end: str) -> list[Hop]:
    """The neighbours that a flooded frame passes from an edge to another one, by the wires that carry frames; none where none lead
    there."""
    wires = [wire for wire in network.plan.wires_of(service) if wire.name in network.carrying]
    ways: list[tuple[str, Any, list[Hop]]] = [(start, None, [])]
    seen = {start}
    for edge, came, hops in ways:
        if edge == end:
            return hops
        for wire in wires:
            if edge not in wire.ends() or wire is came or came is not None and came.kind == wire.kind == "mesh":
                continue
            segments = wire.segments() if edge == wire.path[0] else [pair[::-1] for pair in reversed(wire.segments())]
            far = segments[-1][1]
            if far not in seen:
                seen.add(far)
                ways.append((far, wire, [*hops, *segments]))
    return []


class Course:
    """What the lines of one frame tell of its packets."""

    def __init__(self, lines: list[str]) -> None:
        self.sent: dict[str, list[str]] = {}
        self.arrived: set[str] = set()
        self.lost: set[str] = set()
        self.dropped: dict[str, str] = {}
        self.left: dict[str, list[str]] = {}
        self.is_broadcast = bool(lines) and lines[0].split(" ")[-1].startswith(BROADCAST)
        by = ""
        for line in lines:
            kind, *words = line.split(" ")
            if kind == ">":
                by = words[1] if words[0] == "arrive" else ""
                (self.arrived if words[0] == "arrive" else self.lost if words[0] == "drop" else set()).add(words[1])
            elif kind == "sent":
                self.sent[words[0]] = words[1:4]
            elif kind == "dropped":
                self.dropped[words[0]] = words[2]
            elif kind == "left":
                self.left.setdefault(words[0], []).append(self.sent[by][2] if by in self.sent else "")

    def why_never(self, hops: list[Hop], site: str) -> str:
        """Why it never came to a site, to which these hops led before the failure."""
        for a, b in hops:
            packets = [number for number, (edge, peer, _) in self.sent.items() if (edge, peer) == (a, b)]
            if not packets:
                others = ", ".join(dict.fromkeys(peer for edge, peer, _ in self.sent.values() if edge == a))
                more = ("" if self.is_broadcast else ", or had learned another way") + (f", and sent it to {others} alone" if others else "")
                return f"{a} had no wire towards {b} that carried frames{more}"
            if self.lost.issuperset(packets):
                return f"what {a} sent to {b} was lost: nothing came from {a} to {b}"
            if b in self.dropped:
                return f"{b} dropped it: {self.dropped[b]}"
        return f"the edge of {site} sent it another way" if hops else "no wires that carried frames led there before either"

    def why_again(self, site: str) -> str:
        """By which wires it came more than once, or came back."""
        return "it came by " + " and by ".join(wire or "its own edge" for wire in self.left.get(site, []))


def why(network: Network, lines: list[str], kind: str, circuit: str, site: str) -> tuple[str, list[str]]:
    """The words, and the columns of a ladder that show it: the circuits and the edges between them."""
    plan = network.plan
    start, end = plan.circuits[circuit]["edge"], plan.circuits[site]["edge"]
    hops = way_of(network, plan.circuits[circuit]["service"], start, end)
    course = Course(lines)
    words = course.why_never(hops, site) if kind == "never" else course.why_again(site)
    edges = dict.fromkeys([start, *(edge for hop in hops for edge in hop), end])
    if kind != "never":
        edges.update(dict.fromkeys(edge for row in course.sent.values() for edge in row[:2]))
    return words, list(dict.fromkeys([circuit, *edges, site]))
