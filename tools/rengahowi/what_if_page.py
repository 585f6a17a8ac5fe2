"""The cases of a plan as one page for a browser: a matrix of cases and sites, whose cells open the run of their case event by event, and
its ladder; and what a survey tells of them, as a matrix of failures by failures."""

from __future__ import annotations

import pathlib

from . import player_page
from .colours import of_service
from .embedding import as_script, as_text, packed, with_scripts
from .ladder_rows import Rows, columns, lanes
from .network import UNTOLD, network_of
from .program import with_note
from .report import Words, events_of
from .steps import Follower
from .whys import why

TYPE_CHECKING = False
if TYPE_CHECKING:
    from typing import Any

    from .case_reading import Reading
    from .cases import Base
    from .failures import Case
    from .network import Network
    from .plan import Plan
    from .report import Event

HERE = pathlib.Path(__file__).resolve().parent
PAGE_SCRIPTS = ("unpacked.js", "what_if_settled.js")
PAGE, LADDER, LADDER_SCRIPTS = HERE / "what_if.html", HERE / "ladder.html", ("unpacked.js", "ladder.js")
# What stands before the lines of a case in its page, and what each event begins with.
LEFT_OUT, BEGINS = "(what all cases begin with; between the events that follow are frames that all came once, which are left out)", b"\n> "


def followed(plan: Plan, front: bytes) -> Follower:
    """Who follows the reports of cases: it stands where the lines that all of them begin with end."""
    rows = [line.split(" ") for line in front.decode().splitlines()[1:]]
    follower = Follower(plan, network_of(plan, rows))
    follower.follow(rows)
    return follower.behind()


def ladder_of(base: Base, follower: Follower, case: Case, reading: Reading, lines: list[str]) -> dict[str, Any]:
    """The ladder of a case and its run, packed: what switches and is delivered, and of the frames that something is wrong with the first one
    of each phase and site. And for each site the first of those frames, its event, why it went wrong in words, and the columns that show it."""
    chosen: dict[tuple[str, str], int] = {}
    of_site: dict[str, tuple[int, str, str]] = {}
    for frame in reading.faulty:
        for kind, sites in (("twice", frame.twice), ("back", frame.back), ("never", frame.never)):
            for site in sites:
                if chosen.setdefault((frame.phase, site), frame.number) == frame.number:
                    of_site.setdefault(site, (frame.number, kind, frame.circuit))
    kept, origins, places = kept_lines(lines, set(chosen.values()))
    first = base.front.count(b"\n")
    words = Words(base.plan, case.name)
    events = events_of(words, ((first + 1 + place, text) for place, text in kept), 1)
    number_events(events, kept, lines, base.front.count(b"\n> "))
    rows = Rows(base.plan, events, [], base.network.copy())
    found = rows.make()
    changed = {place: lane["states"] for place, lane in enumerate(rows.lanes) if len(lane["states"]) > 1}
    numbers = [event.number for event in events]
    run = {
        **run_of(follower, lines, kept),
        "names": [row["t"] for row in found if row["k"] in ("said", "hello")],
        "frames": {origins[row.number]: player_page.verdict(row.twice + row.back, row.never, False) for row in reading.faulty if row.number in origins},
        "numbers": [base.front.count(BEGINS), *numbers],
    }
    number_at = dict(zip([place for place, text in kept if text.startswith("> ")], numbers))
    of_frame = lines_of_frames(lines, {number for number, _, _ in of_site.values()})
    return {
        "packed": packed({"rows": found, "lanes": changed, "run": run}),
        "frames": {
            site: [origins[number], number_at[places[number]], *why(base.network, of_frame[number], kind, circuit, site)]
            for site, (number, kind, circuit) in of_site.items()
            if number in origins
        },
    }


def run_of(follower: Follower, lines: list[str], kept: list[tuple[int, str]]) -> dict[str, Any]:
    """The run of a case: what is so behind each event that is kept, all others before it done, and the lines of those."""
    begins = {place for place, text in kept if text.startswith("> ")}
    own = follower.behind()
    steps = own.follow([line.split(" ") for line in lines if not line.startswith("end ")], begins.__contains__)
    return {"steps": steps.data(follower.steps), "report": "\n".join([LEFT_OUT, *(text for _, text in kept)])}


def lines_of_frames(lines: list[str], wanted: set[int]) -> dict[int, list[str]]:
    """The lines of some frames, by their number among the frames: up to what is no arrival and no loss any more."""
    found: dict[int, list[str]] = {}
    frames, now = 0, list[str]()
    for text in lines:
        if text.startswith("> frame "):
            frames += 1
            now = found.setdefault(frames, []) if frames in wanted else []
        elif text.startswith("> ") and not text.startswith(("> arrive ", "> drop ")):
            now = []
        now.append(text)
    return found


def kept_lines(lines: list[str], wanted: Any) -> tuple[list[tuple[int, str]], dict[int, int], dict[int, int]]:
    """The lines of a ladder, each with its place: events without packets that apply, and the frames that are wanted, by their
    number among the frames; and the origin of each of those, and the place of its event."""
    kept, frames, keeps = list[tuple[int, str]](), 0, False
    origins, places = dict[int, int](), dict[int, int]()
    for place, text in enumerate(lines):
        if text.startswith("> frame "):
            frames += 1
            keeps = frames in wanted
            places[frames] = place
        elif text.startswith("> ") and not text.startswith(("> arrive ", "> drop ")):
            keeps = lines[place + 1 : place + 2] != ["idle"]
        elif text.startswith("in ") and keeps:
            origins[frames] = int(text.split(" ")[2])
        if keeps and not text.startswith("end "):
            kept.append((place, text))
    return kept, origins, places


def number_events(events: list[Event], kept: Any, lines: list[str], before: Any) -> None:
    """Gives each event that is kept its number in the whole report, of which so many stand before these lines."""
    numbers, number = {}, before
    for place, text in enumerate(lines):
        if text.startswith("> "):
            number += 1
            numbers[place] = number
    for event, place in zip(events, [place for place, text in kept if text.startswith("> ")]):
        event.number = numbers[place]


def part_of(base: Base, follower: Follower, found: dict[str, Any], ladders: list[Any]) -> dict[str, Any]:
    """What the page has of a scenario."""
    plan = base.plan
    shared = {
        "columns": columns(plan),
        "lanes": [{**lane, "states": [[0, state_of(base.network, lane)]]} for lane in lanes(plan)],
        "services": {name: of_service(plan, name) for name in plan.services},
        "wires": {wire.name: wire.service for wire in plan.wires.values()},
        "ending": "",
        "player": packed({
            "plan": player_page.plan_rows(plan),
            "steps": follower.steps.data(),
            "told": follower.network.sessions_by != UNTOLD,
            "begin": f"behind the set-up and the first frames, which are events 1 to {base.front.count(BEGINS)}",
        }),
    }
    return {**settled_part(plan, found["scenario"], found["survey"]), **found, "ladders": ladders, "shared": shared}


def settled_part(plan: Plan, scenario: str, survey: dict[str, Any]) -> dict[str, Any]:
    """What the page has of a scenario of which nothing was tried yet, but what a survey tells of it."""
    return {
        "scenario": scenario,
        "services": {name: plan.circuits_of(name) for name in plan.services},
        "edges": {name: row["edge"] for name, row in plan.circuits.items()},
        "colours": {name: of_service(plan, name) for name in plan.services},
        "survey": survey,
        "cases": [],
        "ladders": [],
        "left": 0,
    }


def page(parts: list[dict[str, Any]]) -> str:
    """The page of one scenario, or of two side by side."""
    data = {"plans": parts, "ladder": with_scripts(with_note(LADDER.read_text(encoding="utf-8")), *LADDER_SCRIPTS), "player": player_page.template()}
    text = with_scripts(with_note(PAGE.read_text(encoding="utf-8")), *PAGE_SCRIPTS)
    title = " and ".join(part["scenario"] for part in parts)
    return text.replace("@TITLE@", as_text(title)).replace("@DATA@", as_script(data))


def state_of(network: Network, lane: dict[str, Any]) -> str:
    """The state of a session or a wire behind the set-up."""
    return (network.sessions if lane["kind"] == "session" else network.ends)[lane["edge"], lane["name"]]
