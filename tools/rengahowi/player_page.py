"""The page on which a run is looked at event by event: its plan as JSON, and its steps and its report packed."""

from __future__ import annotations

from .colours import of_service
from .embedding import HERE, as_script, as_text, packed, with_scripts
from .frames import follow
from .layout import Layout
from .network import UNTOLD, network_of
from .program import decoded, with_note
from .steps import steps_of
from .summing import sum_up

TYPE_CHECKING = False
if TYPE_CHECKING:
    from typing import Any

    from .layout import Box
    from .plan import Plan
    from .report import Report

SAID = ("said ", "hello ")
SCRIPTS = ("unpacked.js", "player_map.js", "player_state.js", "player_course.js", "player_beside.js", "player.js")


def plan_rows(plan: Plan) -> dict[str, Any]:
    """What no event changes: edges, circuits and wires, and where they stand."""
    layout = Layout(plan)
    leads = {name: [[round(x), round(y)] for x, y in points] for name, points in layout.leads.items()}
    return {
        "edges": [{"name": name, "address": row["address"], **at(layout.edges[name])} for name, row in plan.edges.items()],
        "circuits": [
            {"name": name, "edge": row["edge"], "service": row["service"], "tag": row["tag"], **at(layout.circuits[name]), "lead": leads[name]}
            for name, row in plan.circuits.items()
        ],
        "wires": [
            {
                "name": wire.name,
                "service": wire.service,
                "kind": wire.kind,
                "path": wire.path,
                "lanes": layout.wires[wire.name],
                "pw_id": wire.pw_id,
                "priority": wire.priority,
            }
            for wire in plan.wires.values()
        ],
        "services": {name: of_service(plan, name) for name in plan.services},
        "pairs": [[a, b, lane] for (a, b), lane in layout.sessions.items()],
        "width": round(layout.width),
        "height": round(layout.height),
    }


def at(box: Box) -> dict[str, int]:
    """Where a box stands, and how wide it is."""
    return {"x": round(box.x), "y": round(box.y), "wide": round(box.width)}


def run_rows(plan: Plan, report: Report) -> dict[str, Any]:
    """A run: its steps, its lines, the names of its messages, and what became of the frames that some site got twice or never."""
    rows = sum_up(plan, follow(plan, report))["frames"]
    return {
        "steps": steps_of(plan, report).data(),
        "report": "\n".join(report.lines),
        "names": names_of(report.lines),
        "frames": {row["frame"]: verdict(row["twice"], row["missed"], row["nowhere"]) for row in rows if row["twice"] or row["missed"] or row["nowhere"]},
        "told": network_of(plan, report.rows).sessions_by != UNTOLD,
        "ending": report.ending,
    }


def verdict(twice: list[str], missed: list[str], is_nowhere: bool) -> dict[str, Any]:
    """What became of a frame: the sites that got it twice, those that never did, and whether it ended nowhere."""
    return {"twice": twice, "missed": missed, "nowhere": is_nowhere}


def names_of(lines: list[str]) -> list[str]:
    """What `decode` tells of each message that is said; nothing where there is no program yet."""
    said = [line.rpartition(" ")[2] for line in lines if line.startswith(SAID)]
    found = decoded(bytes.fromhex(octets) for octets in said)
    return [] if found is None else [" + ".join(names) for names in found]


def template() -> str:
    """The page without its title, its plan and its run."""
    return with_scripts(with_note((HERE / "player.html").read_text(encoding="utf-8")), *SCRIPTS)


def page_of_run(title: str, plan: Plan, run: dict[str, Any]) -> str:
    """The page, which is XML too: no text in it begins a tag or an entity."""
    made = template().replace("@TITLE@", as_text(title))
    return made.replace("@PLAN@", as_script(plan_rows(plan))).replace("@PACKED@", packed(run))
