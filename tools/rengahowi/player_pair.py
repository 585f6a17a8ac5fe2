"""The page of two runs that stand side by side: where they part, and where they meet again."""

from __future__ import annotations

from itertools import accumulate

from .embedding import HERE, as_script, as_text
from .player_page import page_of_run

TYPE_CHECKING = False
if TYPE_CHECKING:
    from typing import Any

    from .plan import Plan

    Run = dict[str, Any]

# What is compared of the state, by the first word of a cell; the page compares the same.
COMPARED = {"session", "end", "told", "heard", "circuit", "mac", "calm", "adjacency"}
NO_COMMAND = ("> deliver ", "> arrive ")
PARTS, MEETS = "from this command on the runs differ", "the runs are the same again"


def stretches(run: Run) -> list[tuple[int, int]]:
    """The first and the last event of each command with what follows it; what is before all events is one too."""
    events = [line for line in run["report"].split("\n") if line.startswith("> ")]
    begins = [0, *(number for number, line in enumerate(events, 1) if not line.startswith(NO_COMMAND))]
    return [(begin, end - 1) for begin, end in zip(begins, [*begins[1:], len(events) + 1])]


def changes(run: Run, first: int, last: int, begins: list[int]) -> dict[str, str]:
    """What these events change of what is compared."""
    steps = run["steps"]
    rows = range(begins[first], begins[last + 1])
    named = ((steps["cells"][steps["changed"][row]], steps["values"][steps["to"][row]]) for row in rows)
    return {cell: value for cell, value in named if cell.split(" ", 1)[0] in COMPARED}


def mark(first: Run, second: Run) -> None:
    """Marks in both runs the commands behind which they part, and those behind which they are the same again."""
    runs, differing, is_parted = (first, second), set[str](), False
    now: tuple[dict[str, str], dict[str, str]] = ({}, {})
    parts = [stretches(run) for run in runs]
    begins = [[0, *accumulate(run["steps"]["counts"])] for run in runs]
    for run in runs:
        run["marks"] = []
    for place in range(max(map(len, parts))):
        for at, run in enumerate(runs):
            changed = changes(run, *parts[at][place], begins[at]) if place < len(parts[at]) else {}
            now[at].update(changed)
            differing |= changed.keys()
        differing = {cell for cell in differing if now[0].get(cell, "") != now[1].get(cell, "")}
        if bool(differing) != is_parted:
            is_parted = not is_parted
            for at, run in enumerate(runs):
                run["marks"].append([parts[at][min(place, len(parts[at]) - 1)][0], PARTS if is_parted else MEETS])


def pair(titles: tuple[str, str], plans: tuple[Plan, Plan], runs: tuple[Run, Run]) -> str:
    """The page of two runs side by side, which move together."""
    mark(*runs)
    pages = [page_of_run(title, plan, run) for title, plan, run in zip(titles, plans, runs)]
    made = (HERE / "player_pair.html").read_text(encoding="utf-8")
    return made.replace("@TITLE@", as_text(" against ".join(titles))).replace("@PAGES@", as_script(pages))
