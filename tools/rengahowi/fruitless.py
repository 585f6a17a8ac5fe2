"""What comes to nothing in a scenario that the program accepts: ends that will not agree, events that never apply, frames that are
dropped where they enter, captures that cannot be played."""

from __future__ import annotations

import pathlib

from .checking import Finding
from .sound import differing, said

TYPE_CHECKING = False
if TYPE_CHECKING:
    from collections.abc import Iterator
    from typing import Any

    from .plan import Plan

# How an end says of the other one that the two do not tell alike what they have to.
CAUSES = {"mtu": "Mtu", "control_word": "CBit", "mode": "Kind"}
HEADER, TAG = 14, 4
CLASSIC = {b"\xd4\xc3\xb2\xa1", b"\xa1\xb2\xc3\xd4", b"\x4d\x3c\xb2\xa1", b"\xa1\xb2\x3c\x4d"}
PCAPNG = b"\x0a\x0d\x0d\x0a"


def fruitless(plan: Plan) -> Iterator[Any]:
    """All of it."""
    for number, wire in enumerate(plan.wires.values()):
        yield from ends_apart(plan, number, wire)
    yield from equal_priorities(plan)
    yield from events_in_vain(plan)


def offer_path(plan: Plan, number: int, key: Any) -> tuple[Any, ...]:
    """Where the far end's offer of a key stands."""
    return ("wire", number, "far", key) if plan.version != 1 else ("wire", number, f"far_{key}")


def ends_apart(plan: Plan, number: int, wire: Any) -> Iterator[Any]:
    """Ends of a wire that will not agree."""
    (a, b), (near, far) = wire.ends(), (wire.near, wire.far)
    for key, here, there in differing(wire):
        text = f"wire {wire.name!r} never comes up ({CAUSES[key]}): its {key} is {said(here)} at {a!r} and {said(there)} at {b!r}"
        yield Finding("", offer_path(plan, number, key), 0, text)
    common = near["vccv"] & far["vccv"] & (7 if near["control_word"] and far["control_word"] else 6)
    if (near["vccv"] or far["vccv"]) and not common:
        text = f"wire {wire.name!r} has no control channel: its vccv is {near['vccv']} at {a!r} and {far['vccv']} at {b!r}"
        text += ", and 1 wants a control word at both ends" if near["vccv"] & far["vccv"] else ""
        yield Finding("", offer_path(plan, number, "vccv"), 0, text)
    if near["mode"] == far["mode"] == "raw" and (near["vlan"] is not None or far["vlan"] is not None):
        text = f"wire {wire.name!r} requests a VLAN ID, and is raw at both ends: in mode 'tagged' alone its frames have one"
        yield Finding("", offer_path(plan, number, "vlan"), 0, text)


def equal_priorities(plan: Plan) -> Iterator[Any]:
    """Spokes of one edge of which neither is preferred."""
    seen: dict[Any, str] = {}
    for number, wire in enumerate(plan.wires.values()):
        if wire.kind == "spoke":
            first = seen.setdefault((wire.service, wire.path[0], wire.priority), wire.name)
            if first != wire.name:
                text = f"spokes {first!r} and {wire.name!r} of {wire.path[0]!r} have one priority, {wire.priority}: the plan's order decides"
                yield Finding("", ("wire", number, "priority"), 0, text)


def events_in_vain(plan: Plan) -> Iterator[Any]:
    """Events that never apply, and frames and captures of which nothing comes."""
    segments = {frozenset(pair) for pair in plan.pairs()}
    has_packets = False
    for number, text in enumerate(plan.events):
        words = text.split(" ")
        why = None
        if words[0] == "connect" and frozenset(words[1:3]) not in segments:
            why = f"no wire has {words[1]!r} and {words[2]!r} next to each other on its path"
        elif words[0] in ("wire", "status", "priority", "ping"):
            why = why_not_there(plan.wires[words[2]], words[0], words[1])
        elif words[0] in ("arrive", "drop", "again", "flow") and not has_packets:
            why = "no packet is under way: no frame and no ping came before"
        elif words[0] == "frame":
            why = why_dropped(plan, words[1], words[2])
        elif words[0] == "play":
            why = why_not_played(words[2])
        has_packets = has_packets or words[0] in ("frame", "ping", "play")
        if why is not None:
            yield Finding("", ("events", number), 0, f"{text[:60]!r}: {why}")


def why_not_there(wire: Any, kind: str, edge: str) -> str | None:
    """Why an event of a wire never applies at an edge; None where it may."""
    if kind == "wire":
        return None if edge in wire.path else f"wire {wire.name!r} does not pass {edge!r}"
    if kind == "priority":
        right = wire.kind == "spoke" and wire.path[0] == edge
        return None if right else f"{wire.name!r} is no spoke that starts at {edge!r}, so it has no priority there"
    return None if edge in wire.ends() else f"{edge!r} is no terminal edge of {wire.name!r}"


def why_dropped(plan: Plan, circuit: str, octets: str) -> Any:
    """Why a frame is dropped where it enters; None where it is not."""
    row, size = plan.circuits[circuit], len(octets) // 2
    if size < HEADER:
        return f"it has {size} octets, and a header has {HEADER}: it is dropped (Short)"
    if row["tag"] is None:
        return None
    if octets[24:28] != "8100":
        return f"circuit {circuit!r} takes frames with a tag alone: it is dropped (NoTag)"
    if size < HEADER + TAG:
        return f"it has {size} octets, and a header with a tag has {HEADER + TAG}: it is dropped (Short)"
    vlan = int(octets[28:32], 16) % 4096
    return None if vlan == row["tag"] else f"its VLAN ID is {vlan}, and that of circuit {circuit!r} {row['tag']}: it is dropped (WrongTag)"


def why_not_played(name: str) -> Any:
    """Why a capture cannot be played, as far as its front tells; None where it can."""
    try:
        with pathlib.Path(name).open("rb") as file:
            front = file.read(4)
    except OSError as fault:
        return f"{name} cannot be read from this folder ({fault.strerror})"
    if front == PCAPNG:
        return f"{name} is in the format pcapng, and the program takes the classic one: editcap -F pcap {name} NEW"
    return None if front in CLASSIC else f"{name} is no capture in the classic format"
