"""A summary as text. Long lists are cut; JSON has all of them."""

from __future__ import annotations

from .frames import some_pairs
from .sound import text_of as sound_text

TYPE_CHECKING = False
if TYPE_CHECKING:
    from collections.abc import Iterable
    from typing import Any

MOST = 25


def text_of(summary: dict[str, Any]) -> str:
    """The whole text."""
    parts = [
        [f"{summary['events']} events; {summary['ending']}" + (f"; from event {summary['from']} on" if summary["from"] > 1 else "")],
        discovery(summary["discovery"]),
        sessions(summary["sessions"]),
        wires(summary["wires"]),
        *(service(row) for row in summary["services"]),
        frames(summary["frames"]),
        pings(summary["pings"]),
        idle(summary["idle"]),
        drops(summary["drops"]),
        rest(summary["rest"]),
        under_way(summary["under_way"]),
    ]
    return "\n\n".join("\n".join(part) for part in parts if part) + "\n"


def cut(lines: Iterable[str]) -> list[Any]:
    """The first lines of a list, and how many more there are."""
    lines = list(lines)
    return lines[:MOST] + ([f"  .. and {len(lines) - MOST} more (--json has all)"] if len(lines) > MOST else [])


def discovery(found: Any) -> list[Any]:
    """How many Hellos were said, which connections were barred, and which adjacencies ended; nothing of a run without them."""
    ended = [row for row in found["adjacencies"] if row["state"] == "down"]
    if not (found["hellos"] or found["barred"] or ended):
        return []
    head = f"Discovery: {counted(found['hellos'], 'Hello')} said, {len(found['barred'])} connections barred, "
    lines = [(row["line"], f"  {'-'.join(row['edges'])} barred, behind event {row['event']}") for row in found["barred"]]
    lines += [(row["line"], f"  {row['edge']}'s adjacency with {row['peer']} ended, behind event {row['event']}") for row in ended]
    return [head + f"{counted(len(ended), 'adjacency', 'adjacencies')} ended", *cut(line for _, line in sorted(lines))]


def sessions(rows: list[dict[str, Any]]) -> list[Any]:
    """How many sessions are up, and each that is not."""
    if not rows:
        return []
    down = [row for row in rows if row["states"] != ["Operational"] * 2]
    lines = []
    for row in down:
        (a, b), (near, far) = row["edges"], row["states"]
        lines.append(f"  {a}-{b}: {a} says {near}, {b} says {far}{never(row)}")
    return [f"Sessions: {len(rows) - len(down)} of {len(rows)} are up at both ends", *cut(lines)]


def never(row: dict[str, Any]) -> str:
    """Whether it never came up."""
    return "" if row["was_up"] else "; never up"


def wires(rows: list[dict[str, Any]]) -> list[Any]:
    """How many wires carry frames, and why each other one does not."""
    if not rows:
        return []
    standing_by = sum(row["stands_by"] for row in rows)
    down = [row for row in rows if not row["carries"] and not row["stands_by"]]
    lines = []
    for row in down:
        ends = [f"{edge} says {state}" for edge, state in zip((row["path"][0], row["path"][-1]), row["states"])]
        mtu = f" (MTU {row['mtu'][0]} and {row['mtu'][1]})" if "mtu" in row else ""
        lines.append(f"  {row['wire']}, {row['class']} of {row['service']}: {', '.join(ends)}{mtu}{never(row)}")
    carrying = f"Wires: {len(rows) - len(down) - standing_by} of {len(rows)} carry frames"
    return [carrying + (f", {standing_by} stand by" if standing_by else ""), *cut(lines)]


def service(row: dict[str, Any]) -> list[Any]:
    """A service, how it stands, and which sites lost each other."""
    lines = []
    for lost in row["lost"]:
        until = f"event {lost['to']['event']} ({lost['to']['words']})" if lost["to"] else "the end"
        start = f"event {lost['from']['event']} ({lost['from']['words']})"
        lines.append(f"  from {start} to {until}, over {counted(lost['deliveries'], 'delivery', 'deliveries')}:")
        lines += [f"    {names(part['sites'])} lost {names(part['lost'])}" for part in lost["sites"]]
    head = f"Service {row['service']}: {counted(len(row['sites']), 'site')}, {standing(row)} at the end; "
    never = [f"  {names(part['sites'])} never had {names(part['lost'])}" for part in row["never"]]
    spokes = [f"  of the {left['spokes']} spokes of {left['edge']}, {left['usable'] or 'none'} can be used" for left in row["redundancy"]]
    why_not = [f"  not sound: {sound_text(why)}" for why in row["why_not_sound"]]
    why_not += [f"  sound and used, and not up, since an edge has no label left: {names(row['no_label'])}"] if row["no_label"] else []
    told = "sites that lost each other" if lines else "no sites lost each other"
    return [head + told, *cut(lines), *cut(never), *cut(why_not), *cut(spokes)]


def standing(row: dict[str, Any]) -> str:
    """Whether a service is calm and sound, and whether it can change still by what is on its way."""
    pairs = row["unsettled"]
    calm, sound = "calm" if row["calm"] else "not calm", "sound" if row["sound"] else "not sound"
    return f"{calm}, {sound}, {f'LDP on its way ({some_pairs(pairs)})' if pairs else 'nothing on its way'}"


def frames(rows: list[dict[str, Any]]) -> list[str]:
    """Each flooded frame, each other one that left twice, and those that ended nowhere."""
    if not rows:
        return []
    flooded = [row for row in rows if row["flooded"]]
    once = [row for row in flooded if not row["missed"] and not row["twice"]]
    lines = [f"Frames: {len(rows)} entered, {len(flooded)} flooded, {len(once)} of these once at each other site"]
    shown = [row for row in flooded if row not in once] + once
    lines += cut(flooded_line(row) for row in shown)
    twice = [row for row in rows if row["twice"] and not row["flooded"]]
    if twice:
        lines += ["Frames to a known station, which left twice", *cut(other_line(row) for row in twice)]
    nowhere = [row for row in rows if row["nowhere"]]
    if nowhere:
        lines += ["Frames that ended nowhere", *cut(nowhere_line(row) for row in nowhere)]
    return lines


def head(row: dict[str, Any]) -> str:
    """Which frame it is."""
    return f"  frame {row['frame']} (event {row['event']}, at {row['circuit']}, to {row['to']})"


def flooded_line(row: dict[str, Any]) -> str:
    """Whom a flooded frame served, and whether the promise speaks of it."""
    parts = [f"served {names(site for site, count in row['served'].items() if count == 1)}"]
    if row["missed"]:
        parts.append(f"NOT SERVED {names(row['missed'])}")
    if row["twice"]:
        parts.append(f"TWICE {names(row['twice'])}")
    return f"{head(row)}: {', '.join(parts)}; {promise(row)}"


def promise(row: dict[str, Any]) -> str:
    """What is promised of a flooded frame, and whether it was so."""
    if not row["promised"]:
        return f"not promised: {'; '.join(row['why_not_promised'])}"
    where = "each other site" if row["calm"] else names(row["reached"])
    return f"promised: at {where}" if row["kept"] else f"PROMISED: at {where}, and not so"


def other_line(row: dict[str, Any]) -> str:
    """Where a frame left twice that was not flooded."""
    return f"{head(row)}: TWICE {names(row['twice'])}"


def nowhere_line(row: dict[str, Any]) -> str:
    """Why a frame ended nowhere, as far as it is told."""
    return f"{head(row)}: {why_nowhere(row) or 'no port to go to'}"


def why_nowhere(row: dict[str, Any]) -> str:
    """Where what was sent was dropped, and which of its packets were lost, or were under way too long."""
    dropped = [f"dropped at {drop['edge']}: {drop['cause']}" for drop in row["dropped"]]
    lost = [f"packet {number} lost" for number in row["lost"]]
    return ", ".join(dropped + lost + [f"packet {number} aged" for number in row["aged"]])


def pings(rows: list[dict[str, Any]]) -> list[Any]:
    """How many pings were answered, and why each other one was not."""
    if not rows:
        return []
    unanswered = [row for row in rows if not row["answers"]]
    head_line = f"Pings: {len(rows) - len(unanswered)} of {len(rows)} were answered"
    return [head_line, *cut(f"  event {row['event']} (ping {row['edge']} {row['wire']}): {why_unanswered(row)}" for row in unanswered)]


def why_unanswered(row: dict[str, Any]) -> str:
    """Why a ping was not answered, as far as it is told."""
    if row["idle"]:
        return "idle"
    return why_nowhere(row) or "still under way"


def idle(rows: list[dict[str, Any]]) -> list[Any]:
    """The events that did not apply."""
    if not rows:
        return []
    return ["Idle events, which changed nothing", *cut(f"  event {row['event']} (line {row['line']} of the report): {row['words']}" for row in rows)]


def drops(rows: list[dict[str, Any]]) -> list[Any]:
    """Drops by cause."""
    return ["Drops", *cut(f"  {row['cause']} at {row['edge']}: {row['count']}" for row in rows)] if rows else []


def rest(found: dict[str, int] | None) -> list[str]:
    """The longest stretch of deliveries that came to rest, beside the number by which each one of that beginning does."""
    if found is None:
        return []
    text = f"Signalling came to rest within {counted(found['deliveries'], 'delivery', 'deliveries')} (events {found['from']} to {found['to']})"
    if found["deliveries"] > found["bound"]:
        return [f"{text}, and by proof it does within {found['bound']}: this is no report of a run over this plan"]
    return [f"{text}; by proof it does within {found['bound']}"]


def under_way(found: Any) -> list[Any]:
    """What is on its way at the end."""
    lines = [f"  {row['octets']} octets from {row['from']} to {row['to']}" for row in found["octets"]]
    for row in found["packets"]:
        of = f"frame {row['frame']}" if row["frame"] else "a ping"
        lines.append(f"  packet {row['packet']} of {of} from {row['from']} to {row['to']} on {row['wire']}")
    return ["Under way at the end", *cut(lines)] if lines else ["Nothing is under way at the end"]


def counted(number: int, one: Any, more: Any = None) -> str:
    """A number with its word."""
    return f"{number} {one if number == 1 else more or one + 's'}"


def names(found: Any) -> str:
    """Names in a row; nobody where there are none."""
    found = list(found)
    more = f" and {len(found) - MOST} more" if len(found) > MOST else ""
    return (", ".join(found[:MOST]) or "nobody") + more
