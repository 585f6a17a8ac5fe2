"""For how long sites lose each other: in rounds, in ticks and rounds, or in seconds."""

from __future__ import annotations

TYPE_CHECKING = False
if TYPE_CHECKING:
    from typing import Any


def is_return(row: dict[str, Any], one: dict[str, Any]) -> bool:
    """Whether a loss is that of a dead edge's own sites, once it has begun anew."""
    start = one["from"]
    return bool(row.get("gone")) and start["stage"] == "mended" and start["round"] == 0


def is_split(one: dict[str, Any]) -> bool:
    """Whether sites are apart as long as the failure stands."""
    return one["from"]["stage"] == "failed" and (one["to"] is None or one["to"]["stage"] == "mended")


def weight(one: dict[str, Any]) -> tuple[bool, bool, float, int, int]:
    """What is longer than what: for good, until it is mended, then by time, ticks and rounds."""
    return one["to"] is None, is_split(one), *size(one)


def size(one: dict[str, Any]) -> tuple[float, int, int]:
    """The same of losses that all end in one way: by time, ticks and rounds."""
    return one.get("seconds") or 0, one["ticks"] or 0, one["rounds"] or 0


def seconds(number: float) -> str:
    """Seconds, such as 180.03 s."""
    return f"{number:.6f}".rstrip("0").rstrip(".") + " s"


def span(one: dict[str, Any], back: bool = False) -> str:
    """For how long: ticks and rounds, or seconds; those behind the mending, where it takes that."""
    if one["to"] is None:
        return "for good"
    front = "mended + " if is_split(one) or back else ""
    if "seconds" in one:
        return front + seconds(one["seconds"])
    if one["ticks"]:
        return f"{one['ticks']} ticks" + (f" + {one['rounds']}" if one["rounds"] else "")
    return front + (str(one["rounds"]) if front else str(one["rounds"] or "<1"))


def parts(one: dict[str, Any]) -> tuple[str, str]:
    """Of a time, the part that it takes to find out, and the part that is told."""
    if one["to"] is None or "seconds" not in one:
        return "-", "-"
    return seconds(one["detection"]) if one["from"]["stage"] == one["to"]["stage"] == "failed" else "-", seconds(one["signalling"])


def longest(row: dict[str, Any]) -> dict[str, Any] | None:
    """The longest loss of a case, those of dead edges' own sites apart where there is another one; None where there is none."""
    found = [one for one in row["lost"] if not is_return(row, one)] or row["lost"]
    return max(found, key=weight) if found else None


def of_row(row: dict[str, Any]) -> str:
    """For how long in a case: the longest while the failure stands, and the longest behind its mending."""
    if any(one["to"] is None for one in row["lost"]):
        return "for good"
    ends = [one for one in row["lost"] if is_split(one) or is_return(row, one)]
    alone = [one for one in row["lost"] if one not in ends]
    found = [span(max(alone, key=weight))] if alone else []
    if ends:
        found.append(span(max(ends, key=size), True))
    return ", ".join(found) or "-"
