"""What the two ends of a pseudowire offer so that it will not come up."""

from __future__ import annotations

from .parts import Said, Told

TYPE_CHECKING = False
if TYPE_CHECKING:
    from collections.abc import Sequence

    from .spokes import End

# What has to agree (RFC 8077 sections 6.1 and 6.4), and how each value is told.
MODES = {"raw": "raw (Ethernet, 5)", "tagged": "tagged (Ethernet tagged, 4)"}


def words(key: str, value: object) -> str:
    """A value as a planner says it."""
    return {"mode": f"PW type {MODES.get(str(value))}", "control_word": f"{'a' if value else 'no'} control word", "mtu": f"MTU {value}"}[key]


def differ(key: str, one: object, other: object) -> bool:
    """Whether two values do not go together. An MTU of 0 is one that is not told."""
    return one != other and not (key == "mtu" and 0 in (one, other))


def tell_differences(told: list[Told], ends: Sequence[End], offers: Sequence[dict[str, Said]]) -> None:
    """Tells what differs, with the lines of both."""
    if any(end.guessed for end in ends):
        return
    near, far = ends
    for key in ("mode", "mtu", "control_word"):
        here, there = offers[0][key], offers[1][key]
        if differ(key, here.value, there.value):
            text = f"{words(key, here.value)}, and {words(key, there.value)} at {far.router.path}, line {there.line}: "
            text += f"pseudowire {near.wire.name} will not come up"
            told.append(Told(near.router.path, here.line, "differs", text, far.router.path, there.line))
