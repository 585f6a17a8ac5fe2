"""When a wire and a service are sound: by the plan, by what is switched, and by which connections stand. What was signalled is not looked
at. Once nothing is on its way, the wires that carry frames are those that are sound and used, and the calm services the sound ones."""

from __future__ import annotations

TYPE_CHECKING = False
if TYPE_CHECKING:
    from collections.abc import Iterator
    from typing import Any

    from .network import Network
    from .plan import Wire

# What the offers of both ends have to say alike (RFC 8077 sections 6.1, 6.4 and 7), in words.
ALIKE = {"mtu": "MTU", "control_word": "control word", "mode": "mode"}


def differing(wire: Wire) -> Iterator[tuple[str, Any, Any]]:
    """The keys of which the offers of both ends differ, each with what stands there; an MTU that is not told differs from none."""
    for key in ALIKE:
        near, far = wire.near[key], wire.far[key]
        if near != far and not (key == "mtu" and 0 in (near, far)):
            yield key, near, far


def faults_of(network: Network, wire: Wire) -> Iterator[str]:
    """Why a wire is not sound; nothing where it is."""
    switches = network.switches
    for edge in wire.path:
        if switches.is_off(edge, wire.name):
            yield f"it is off at {edge}"
    for a, b in wire.segments():
        if not network.is_connected(a, b):
            yield f"{a} and {b} are not connected"
    for edge in wire.ends():
        if switches.bits_of(edge, wire.name):
            yield f"it has failure bits {switches.bits_of(edge, wire.name)} at {edge}"
    for key, near, far in differing(wire):
        yield f"its {ALIKE[key]} is {said(near)} at {wire.path[0]} and {said(far)} at {wire.path[-1]}"


def said(value: Any) -> str:
    """A value of an offer, as a scenario writes it."""
    return str(value).lower() if isinstance(value, bool) else str(value)


def is_sound(network: Network, wire: Wire) -> bool:
    """Whether a wire is sound."""
    return next(faults_of(network, wire), None) is None


def used_wires(network: Network, service: str) -> list[Wire]:
    """The wires of a service that are sound and used: each sound mesh wire, and of the sound spokes of each spoke edge the first one with
    the least priority number (RFC 6870). Once nothing is on its way these carry frames, and no others."""
    chosen: dict[str, Wire] = {}
    wires = [wire for wire in network.shape.of[service].wires if is_sound(network, wire)]
    for wire in wires:
        if wire.kind == "spoke":
            best = chosen.setdefault(wire.path[0], wire)
            if network.switches.priority_of(wire) < network.switches.priority_of(best):
                chosen[wire.path[0]] = wire
    return [wire for wire in wires if wire.kind == "mesh" or chosen[wire.path[0]] is wire]


def without_label(network: Network, service: str) -> list[str]:
    """The wires of a quiet service that are sound and used and carry no frames: an edge of their path has no label left for them. None of
    a service in which something is on its way, and none by a report that leaves LDP out."""
    if network.unsettled(service) or not network.tells_sessions(service):
        return []
    up = network.up_wires(service)
    return [wire.name for wire in used_wires(network, service) if wire not in up]


def why_not_sound(network: Network, service: str) -> list[dict[str, Any]]:
    """Why a service is not sound: each two core edges without a sound mesh wire, and each spoke edge without a sound spoke, with the wires
    that they have and why each of these is not; an empty list where it is."""
    shape = network.shape.of[service]
    mesh = {frozenset(wire.ends()): wire for wire in shape.wires if wire.kind == "mesh"}
    rows: list[dict[str, Any]] = []
    for pair in shape.core_pairs:
        wire = mesh.get(frozenset(pair))
        if wire is None or not is_sound(network, wire):
            rows.append({"core_edges": list(pair), "wires": [] if wire is None else [row_of(network, wire)]})
    for edge in (edge for edge in network.plan.edges if edge in shape.spoke_edges):
        spokes = [wire for wire in shape.wires if wire.kind == "spoke" and wire.path[0] == edge]
        if not any(is_sound(network, wire) for wire in spokes):
            rows.append({"spoke_edge": edge, "wires": [row_of(network, wire) for wire in spokes]})
    return rows


def row_of(network: Network, wire: Wire) -> dict[str, Any]:
    """A wire that is not sound, and why."""
    return {"wire": wire.name, "why": list(faults_of(network, wire))}


def text_of(row: dict[str, Any]) -> str:
    """A row of why a service is not sound, in words."""
    if "spoke_edge" in row:
        head = f"{row['spoke_edge']} has no sound spoke"
    else:
        head = f"{' and '.join(row['core_edges'])} have no {'sound ' if row['wires'] else ''}mesh wire"
    wires = "; ".join(f"{wire['wire']}: {', '.join(wire['why'])}" for wire in row["wires"])
    return f"{head} ({wires})" if wires else head


def all_connected(network: Network) -> Network:
    """A network to which nothing has happened yet, with each two neighbours connected."""
    for a, b in network.shape.pairs:
        network.apply("connect", (a, b))
    return network
