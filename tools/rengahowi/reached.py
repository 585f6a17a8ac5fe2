"""Whom a flooded frame reaches in a service that is quiet, be it calm or not: the edges to which wires that carry frames lead, over a
spoke, a mesh wire and a spoke at most (RFC 4762 sections 4.4 and 10)."""

from __future__ import annotations

TYPE_CHECKING = False
if TYPE_CHECKING:
    from collections.abc import Iterable, Sequence
    from typing import Any

    from .network import Network, ShapeOfService
    from .plan import Plan, Wire


class Reach:
    """Which edges of a service reach each other by these wires, which carry frames."""

    def __init__(self, shape: ShapeOfService, carrying: Iterable[Wire]) -> None:
        self.spoke_edges, self.meshed = shape.spoke_edges, set()
        self.home: dict[str, str] = {}
        for wire in carrying:
            a, b = wire.ends()
            if wire.kind == "mesh":
                self.meshed.add(frozenset((a, b)))
            else:
                self.home.setdefault(a, b)

    def core_of(self, edge: str) -> str | None:
        """The core edge that an edge has: a spoke edge the one to which its spoke leads, if one carries frames, and another one itself."""
        return self.home.get(edge) if edge in self.spoke_edges else edge

    def reaches(self, a: str, b: str) -> bool:
        """Whether a frame of the one edge comes to the other one. It is so of both, or of neither."""
        if a == b:
            return True
        near, far = self.core_of(a), self.core_of(b)
        return near is not None and far is not None and (near == far or frozenset((near, far)) in self.meshed)


def reach_of(network: Network, service: str) -> Reach:
    """Which edges reach each other in a quiet service, by what both terminal edges last told of each wire."""
    key = "reach", service
    if key not in network.looked:
        network.looked[key] = Reach(network.shape.of[service], network.up_wires(service))
    found: Reach = network.looked[key]
    return found


def reached(plan: Plan, reach: Reach, sites: Sequence[str], circuit: str) -> list[str]:
    """The sites that a frame reaches which enters at a circuit, of these sites of its service."""
    edge = plan.circuits[circuit]["edge"]
    return [site for site in sites if site != circuit and reach.reaches(edge, plan.circuits[site]["edge"])]


def apart(plan: Plan, reach: Reach, sites: Sequence[str]) -> list[dict[str, Any]]:
    """Of a service the edges whose sites do not reach each other site: a row an edge, with its sites and those that they reach."""
    at: dict[str, list[str]] = {}
    for site in sites:
        at.setdefault(plan.circuits[site]["edge"], []).append(site)
    rows = []
    for edge in at:
        far = [other for other in at if other != edge and reach.reaches(edge, other)]
        if len(far) < len(at) - 1:
            rows.append({"sites": at[edge], "reached": [site for other in far for site in at[other]]})
    return rows
