"""The label by which a packet of a pseudowire goes (RFC 3032)."""

from __future__ import annotations

TYPE_CHECKING = False
if TYPE_CHECKING:
    from typing import Any

# A label in front of it that no pseudowire has (RFC 5085 section 5.1.2).
ROUTER_ALERT = 1


def label_of(octets: str) -> int:
    """The label of a packet, of its octets in hexadecimal: the one behind a router alert, where that comes first."""
    front = label_at(octets, 0)
    return label_at(octets, 8) if front == ROUTER_ALERT else front


def label_at(octets: str, place: Any) -> int:
    """The label of the stack entry at a digit; 0 where no digit is."""
    return int(octets[place : place + 5] or "0", 16)
