"""What events switch: circuits and wires on or off, failure bits, and priorities of spokes; and whether such an event applies."""

from __future__ import annotations

TYPE_CHECKING = False
if TYPE_CHECKING:
    from collections.abc import Sequence
    from typing import Any

    from .plan import Plan, Wire


class Switches:
    """How all of it stands. A restart changes none of it."""

    def __init__(self, plan: Plan) -> None:
        self.plan = plan
        self.on: dict[str, bool] = dict.fromkeys(plan.circuits, True)
        # Wires that are off at an edge; failure bits of an end that has some; priorities of spokes that are not those of the plan.
        self.off: set[tuple[str, str]] = set()
        self.bits: dict[tuple[str, str], int] = {}
        self.priorities: dict[str, int] = {}

    def copy(self) -> Switches:
        """The same switches, which others may turn."""
        made = Switches(self.plan)
        made.on, made.off, made.bits, made.priorities = self.on.copy(), self.off.copy(), self.bits.copy(), self.priorities.copy()
        return made

    def is_off(self, edge: str, wire: str) -> bool:
        """Whether a wire is off at an edge."""
        return (edge, wire) in self.off

    def bits_of(self, edge: str, wire: str) -> int:
        """The failure bits that are set for a wire at a terminal edge (RFC 4446 section 3.5)."""
        return self.bits.get((edge, wire), 0)

    def priority_of(self, wire: Wire) -> int:
        """The number by which a spoke edge chooses a spoke, the least one first (RFC 6870)."""
        return self.priorities.get(wire.name, wire.priority)

    def applies(self, kind: str, words: Sequence[Any]) -> bool | None:
        """Whether an event of these kinds changes something; None of another kind."""
        if kind == "circuit":
            return bool(self.on[words[0]] != (words[1] == "on"))
        if kind not in ("wire", "status", "priority"):
            return None
        edge, wire, value = words[0], self.plan.wires[words[1]], words[2]
        if kind == "wire":
            return edge in wire.path and self.is_off(edge, wire.name) != (value == "off")
        if kind == "status":
            return edge in wire.ends() and self.bits_of(edge, wire.name) != int(value)
        return wire.kind == "spoke" and edge == wire.path[0] and self.priority_of(wire) != int(value)

    def turn(self, kind: str, words: Sequence[Any]) -> None:
        """An event of these kinds that applies."""
        if kind == "circuit":
            self.on[words[0]] = words[1] == "on"
        elif kind == "wire":
            (self.off.add if words[2] == "off" else self.off.discard)((words[0], words[1]))
        elif kind == "status":
            self.bits[words[0], words[1]] = int(words[2])
        elif kind == "priority":
            self.priorities[words[1]] = int(words[2])
