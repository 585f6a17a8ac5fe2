"""The stations that bridges have learned where a frame no longer finds them, though a flooded one would: how long until they are
forgotten by their age."""

from __future__ import annotations

from typing import NamedTuple

TYPE_CHECKING = False
if TYPE_CHECKING:
    from collections.abc import Collection, Iterable
    from typing import Any

    from .plan import Plan

# A frame passes fewer edges than this.
MOST_EDGES = 64


class Learned(NamedTuple):
    """A station that an edge has learned: behind which circuit or wire, and at which tick."""

    port: str
    tick: int


class Tables:
    """What `tables` tells of the bridges: by edge, service and address."""

    def __init__(self, text: str) -> None:
        self.learned: dict[tuple[str, str, str], Learned] = {}
        edge = ""
        for line in text.splitlines():
            kind, *words = line.split(" ")
            if kind == "edge":
                edge = words[0]
            elif kind == "mac":
                service, address, port, tick = words
                self.learned[edge, service, address] = Learned(port, int(tick))

    def way(self, plan: Plan, edge: str, service: str, address: str) -> Iterable[tuple[str, str]]:
        """The edges that a frame to a station passes by what they have learned, each with the port that it leaves by; the last one
        has learned nothing, and floods, where its port is empty."""
        for _ in range(MOST_EDGES):
            port = self.learned[edge, service, address].port if (edge, service, address) in self.learned else ""
            yield edge, port
            if port not in plan.wires:
                return
            first, last = plan.wires[port].ends()
            edge = last if edge == first else first


def astray(plan: Plan, tables: Tables, edge: str, site: str, address: str, carrying: Collection[str]) -> str | None:
    """The edge at which a frame to a site's station goes astray by what is learned, over wires that carry frames; None where it
    finds the station, or is flooded."""
    service, came = plan.circuits[site]["service"], ""
    for at, port in tables.way(plan, edge, service, address):
        if port not in plan.wires:
            return None if port in ("", site) else at
        is_back = port == came or came in plan.wires and plan.wires[came].kind == plan.wires[port].kind == "mesh"
        if port not in carrying or is_back:
            return at
        came = port
    return edge


def stale(plan: Plan, tables: Tables, stations: dict[str, str], joined: dict[str, set[frozenset[str]]], carrying: Collection[str]) -> list[dict[str, Any]]:
    """Each edge and site between which wires carry frames, where what is learned leads another way: at which edge, and the tick at
    which that one forgets it by its age."""
    found: list[dict[str, Any]] = []
    for site, address in stations.items():
        row = plan.circuits[site]
        for edge in plan.edges:
            if edge == row["edge"] or frozenset((edge, row["edge"])) in joined[row["service"]]:
                at = astray(plan, tables, edge, site, address, carrying)
                if at is not None:
                    tick = tables.learned[at, row["service"], address].tick + plan.services[row["service"]]["age"]
                    found.append({"edge": edge, "site": site, "at": at, "tick": tick})
    return found
