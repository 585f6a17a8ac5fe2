"""Why `audit` refuses a report: which lines break the rule, and how."""

from __future__ import annotations

import subprocess

from . import program
from .command import Fault, lines_of
from .report import read_report

TYPE_CHECKING = False
if TYPE_CHECKING:
    from typing import Any

    from .plan import Plan

# A header, and a tag behind its addresses.
ADDRESSES, TAG = 24, 8


def audited(scenario: str, report: str) -> tuple[int, str] | None:
    """What `audit` says of a report: the line and the rule, or None where it keeps all."""
    done = subprocess.run([program.path(), "audit", scenario, report], stdin=subprocess.DEVNULL, capture_output=True, check=False, text=True)
    if done.returncode == 0:
        return None
    words = done.stderr.strip().removeprefix("vplsnet: ").split(" ")
    if words[0] != "audit:" or len(words) != 3:
        raise Fault(done.stderr.strip().removeprefix("vplsnet: ") or f"audit ended with status {done.returncode}")
    return int(words[1]), words[2]


def why(plan: Plan, path: str, refused: tuple[int, str], rows: list[dict[str, Any]]) -> list[str]:
    """Lines that say why; `rows` are the frames of a summary, where the report could be read."""
    number, rule = refused
    lines = lines_of(path)
    text = lines[number - 1] if number <= len(lines) else ""
    words = text.split(" ")
    head = f"Refused: line {number}, {rule}: {text[:120]}{'..' if len(text) > 120 else ''}"
    if rule == "Isolated":
        return [head, *isolated(plan, lines[: number - 1], words)]
    if rule == "Split":
        return [head, f"  {words[2]} sends a copy of frame {words[6]} on the mesh wire {words[4]}, and it came by the mesh wire {words[5]}"]
    if rule == "Once":
        frame = next((row for row in rows if str(row["frame"]) == words[2]), None)
        return [head, *(once(frame) if frame is not None else [])]
    return [head, f"  {fault_of_form(path, plan)}"]


def isolated(plan: Plan, before: list[str], words: list[str]) -> list[str]:
    """Both frames: the one that entered under this number, and the one that leaves."""
    circuit, number, octets = words[1], words[2], words[4]
    found = [(place, line.split(" ")) for place, line in enumerate(before, 1) if line.startswith("in ") and line.split(" ")[2] == number]
    if not found:
        return [f"  frame {number} leaves at {circuit}, and none with this number entered before"]
    place, entered = found[-1]
    start = entered[1]
    services = [plan.circuits[name]["service"] for name in (start, circuit)]
    lines = [f"  frame {number} entered at {start} of service {services[0]} (line {place}), and leaves at {circuit} of service {services[1]}"]
    first, last = inner(plan, start, entered[3]), inner(plan, circuit, octets)
    if first != last:
        at = next((at for at in range(0, max(len(first), len(last)), 2) if first[at : at + 2] != last[at : at + 2]), 0)
        lines += [f"  without tags of circuits they differ at octet {at // 2}:", f"    entered {shown(first, at)}", f"    leaves  {shown(last, at)}"]
    return lines


def inner(plan: Plan, circuit: str, octets: str) -> str:
    """A frame without the tag of its circuit."""
    return octets[:ADDRESSES] + octets[ADDRESSES + TAG :] if plan.circuits[circuit]["tag"] is not None else octets


def shown(octets: str, at: int) -> str:
    """Octets around a place."""
    start = max(0, at - 16)
    return f"{'..' if start else ''}{octets[start : at + 34]}{'..' if len(octets) > at + 34 else ''}"


def once(row: dict[str, Any]) -> list[str]:
    """The sites of a frame that were not served once."""
    found = [f"  not served: {', '.join(row['missed'])}"] if row["missed"] else []
    found += [f"  twice, or where it entered: {', '.join(row['twice'])}"] if row["twice"] else []
    due = {*row["missed"], *(row["reached"] or [])}
    elsewhere = [site for site in row["served"] if row["reached"] is not None and site not in due and site not in row["twice"]]
    found += [f"  at no site that it is for: {', '.join(elsewhere)}"] if elsewhere else []
    found += [f"  over {row['segments']} segments"] if row["segments"] > 12 else []
    return found or ["  it left otherwise than once at each other site"]


def fault_of_form(path: str, plan: Plan) -> str:
    """What is wrong with the form of a report, as far as this tool reads it."""
    try:
        read_report(path, plan).events
    except Fault as fault:
        return str(fault).partition(": ")[2] or str(fault)
    return "a number, the order of the lines or a count is none that a report may have"
