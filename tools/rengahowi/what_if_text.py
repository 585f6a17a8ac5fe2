"""The cases of a plan as a table."""

from __future__ import annotations

from .durations import is_return, is_split, longest, of_row, parts, weight
from .summary_text import counted

TYPE_CHECKING = False
if TYPE_CHECKING:
    from typing import Any

# So many names of sites stand in a row.
MOST = 3


def text_of(found: dict[str, Any]) -> str:
    """The whole text."""
    rows = [heads(found["cases"], found.get("time")), *(columns(row, found) for row in found["cases"])]
    return "\n".join([*before(found), *table(rows), "", *endings(found)]) + "\n"


def table(rows: list[tuple[str, ...]]) -> list[str]:
    """Rows of words below each other."""
    wide = [max(len(row[place]) for row in rows) for place in range(len(rows[0]) - 1)]
    return ["  ".join([*(word.ljust(size) for word, size in zip(row, wide)), row[-1]]).rstrip() for row in rows]


def heads(rows: list[dict[str, Any]], time: Any) -> tuple[str, ...]:
    """The heads of the columns that these cases have."""
    has_ticks = any(one["ticks"] for row in rows for one in row["lost"])
    length = ("time", "detection", "signalling") if time else ("ticks + rounds" if has_ticks else "rounds",)
    return "case", "who lost whom", *length, "once settled", "never", "twice", *(["back"] if has_back(rows) else []), *(["astray"] if has_stale(rows) else []), "calm"


def has_stale(rows: list[dict[str, Any]]) -> bool:
    """Whether something that was learned leads astray in some case."""
    return any(row["stale"] for row in rows)


def astray(row: dict[str, Any]) -> str:
    """How many edges send frames for a station astray when all is delivered, and until which tick by the age of what they learned."""
    rows = row["stale"]
    return f"{len(rows)} until tick {max(one['tick'] for one in rows)}" if rows else "-"


def has_back(rows: list[dict[str, Any]]) -> bool:
    """Whether some frame came back to where it entered."""
    return any(row["back"] or row.get("orders", {}).get("back") for row in rows)


def before(found: dict[str, Any]) -> list[Any]:
    """What stands before any failure, where that is not as it should be."""
    lines = [f"Before the failure service {name} is not calm" for name in found["services"] if name not in found["calm"]]
    for kind, text in (("never", "do not arrive at"), ("twice", "arrive twice at")):
        sites = found["before"][kind]
        if sites:
            lines.append(f"Before the failure {counted(sum(sites.values()), 'frame')} {text} {some(sites)}")
    return lines + [""] if lines else []


def columns(row: dict[str, Any], found: dict[str, Any]) -> tuple[str, ...]:
    """The columns of a case."""
    one = longest(row)
    length = (of_row(row), *(("-", "-") if one is None else parts(one))) if found.get("time") else (of_row(row),)
    back = [frames(row, "back")] if has_back(found["cases"]) else []
    back += [astray(row)] if has_stale(found["cases"]) else []
    return row["case"], lost(row), *length, settled(row), frames(row, "never"), frames(row, "twice"), *back, "yes" if row["calm"] else "NO"


def lost(row: dict[str, Any]) -> str:
    """Who lost whom, of those that lost each other for longest the first that lost most, how many more sites there are, and the sites
    that are lost with a dead edge."""
    rows = [one for one in row["lost"] if not is_return(row, one)]
    gone = f"{some(row['gone'])} with it" if row.get("gone") else ""
    if not rows:
        return gone or "-"
    most = max(map(weight, rows))
    first = max((part for one in rows if weight(one) == most for part in one["sites"]), key=lambda part: len(part["lost"]))
    sites = {site for one in rows for part in one["sites"] for site in part["sites"] + part["lost"]} - {*first["sites"], *first["lost"]}
    found = [f"{some(first['sites'])} lost {some(first['lost'])}", counted(len(sites), "more site") if sites else "", gone]
    return "; ".join(text for text in found if text)


def settled(row: dict[str, Any]) -> str:
    """Whom the settled failure reaches: the first of the sites that reach fewest, and how many more do not reach each other one."""
    parts = [part for one in row["settled"] for part in one["apart"]]
    if not parts:
        return "-" if row["as_settled"] else "- (no label)"
    first = min(parts, key=lambda part: len(part["reached"]))
    more = sum(len(part["sites"]) for part in parts) - len(first["sites"])
    text = f"{some(first['sites'])} reach{'es' if len(first['sites']) == 1 else ''} {some(first['reached']) or 'nobody'}"
    return text + (f"; {counted(more, 'more site')}" if more else "") + ("" if row["as_settled"] else " (no label)")


def frames(row: dict[str, Any], kind: str) -> str:
    """How many copies of frames never came, or came too often, phase by phase, and in how many orders they did."""
    found = [f"{sum(sites.values())} {phase}" for phase, sites in row[kind].items()]
    orders = row.get("orders")
    if orders and orders[kind]:
        found.append(f"in {orders[kind]} of {orders['tried']} orders")
    return ", ".join(found) or "-"


def endings(found: dict[str, Any]) -> Any:
    """How many cases there are of each ending."""
    rows = found["cases"]
    apart = [row for row in rows if stays_split(row)]
    some_time = [row for row in rows if row["lost"] and row not in apart]
    twice, back = ([row for row in rows if row[kind] or row.get("orders", {}).get(kind)] for kind in ("twice", "back"))
    again = f"A frame arrives twice in {counted(len(twice), 'case')}" + (f", back where it entered in {len(back)}" if back else "")
    lines = [
        f"{counted(len(rows), 'case')}: in {len(apart)} sites are split while the failure stands, in {len(some_time)} for some time",
        f"{again}; {counted(sum(not row['calm'] for row in rows), 'case')} not calm again",
    ]
    unlabelled = sum(not row["as_settled"] for row in rows)
    if unlabelled:
        lines.append(f"In {counted(unlabelled, 'case')} wires that are sound and used carry no frames once all is settled: an edge has no label left")
    if not all(row["whole"] for row in rows):
        lines.append("Of the cases that are not calm again, some had more to deliver than a scenario has room for")
    if found["left"]:
        lines.append(f"{counted(found['left'], 'case')} not tried")
    return lines


def stays_split(row: dict[str, Any]) -> bool:
    """Whether sites are apart as long as the failure stands."""
    return any(map(is_split, row["lost"]))


def some(sites: Any) -> str:
    """The first names of several."""
    names = list(sites)
    return ", ".join(names[:MOST]) + (f" and {len(names) - MOST} more" if len(names) > MOST else "")


def differing(found: dict[str, Any], other: Any) -> str:
    """The cases that end otherwise in another design, and those that only one of the two has."""
    both = {**found, "cases": found["cases"] + other["cases"]}
    here, there = ({row["case"]: columns(row, both)[1:] for row in one["cases"]} for one in (found, other))
    names_of = heads(both["cases"], found.get("time"))[1:]
    lines = []
    for name in [name for name in here if name in there and here[name] != there[name]]:
        lines.append(name)
        for of, row in ((found["scenario"], here[name]), (other["scenario"], there[name])):
            lines.append(f"  {of}: " + ", ".join(f"{head} {word}" for head, word in zip(names_of, row)))
    same = sum(here[name] == there.get(name) for name in here)
    lines.append(f"{counted(same, 'case')} alike, {counted(sum(name in there for name in here) - same, 'case')} not")
    for of, names, others in ((found["scenario"], here, there), (other["scenario"], there, here)):
        alone = [name for name in names if name not in others]
        if alone:
            lines.append(f"{counted(len(alone), 'case')} of {of} alone: {some(alone)}")
    return "\n".join(lines) + "\n"
