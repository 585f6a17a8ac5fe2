"""The checks of the page on which a run is looked at event by event: its state is that of `tables`, and a browser does what a reader does."""

from __future__ import annotations

import json

from .at_event import AtEvent
from .cases import Base
from .failures import cases_of
from .plan import plan_of, read_plan
from .program import UNPROVED
from .report import read_report
from .rows import Part, table
from .steps import Steps, steps_of
from .trying import TOP, compare, driver, tool, unpacked
from .what_if_page import followed, ladder_of

TYPE_CHECKING = False
if TYPE_CHECKING:
    import pathlib
    from collections.abc import Callable, Iterator
    from typing import Any

EXAMPLES = TOP / "examples"
# What is looked at behind which events, in the page: 22 of four runs; and of one of them what is chosen there.
SHOWN = {
    "old-way": (38, 0, 3, 18, 22, 36, 40, 44, 48),
    "spoke-moves": (35, 8, 31, 38, 41, 45),
    "session-lost": (50, 20, 45, 55, 66),
    "served-twice": (33, 35),
}
CHOSEN = ("frame 3", "wire xa")
# Counted in the report's own lines: the frame enters, is passed on, and is dropped; the spoke comes up from event 3 to 22, x moves away at 36,
# and a hears of it at 40. The keys by the 48 events, of which 45 is the last frame.
CHANGES = {"frame 3": [37, 38, 39], "wire xa": [3, 18, 19, 20, 21, 22, 36, 40]}
KEYS = {"0 Home": 0, "1 ArrowRight": 1, "2 ArrowRight": 2, "3 ArrowLeft": 1, "4 PageDown": 2, "5 End": 48, "6 ArrowRight": 48, "7 PageUp": 45}
# The rounds: each of five connections, then the first deliveries; the last one behind an arrival. And the marks, by the report's own lines.
ROUNDS = {"r": [1, 2, 3, 4, 5], "R": [48, 47, 45, 44, 41]}
MARKS = {
    "old-way": [[28, "s is calm"], [36, "s leaves calm"], [39, "frame 3 leaves nowhere"], [44, "s is calm"]],
    "served-twice": [[28, "s is calm"], [32, "s leaves calm"], [35, "frame 1 comes twice to cx"]],
}
# What became of a number of a label, in the report of label-comes-back: red tells it by event 4, and is withdrawn by 7 and released by 9; the
# edges connect anew by 12, and 64 ticks are over by 79, when blue tells it.
NUMBER = [(9, "waits b"), (12, "rests 0"), (79, "")]
OF_TABLES = ("session", "end", "told", "heard", "mac")
# Where `tables` holds no session, the page tells how the last one ended.
ENDED, NONE = "Ended:", "NonExistent"


def tables_of(at: AtEvent, events: list[str], number: int) -> dict[str, str]:
    """The sessions, the terminal ends, the labels and the stations that `tables` tells behind an event, named as the steps name them."""
    found, edge, at.events = {}, "", events[:number]
    for line in at.tables():
        kind, *words = line.split(" ")
        if kind == "edge":
            edge = words[0]
        elif kind == "session":
            found[f"session {edge} {words[0]}"] = words[1]
        elif kind == "end" and edge in at.plan.wires[words[0]].ends():
            found[f"end {edge} {words[0]}"] = words[5]
        if kind == "end":
            found.update({f"{word} {edge} {words[0]} {words[2]}": label for word, label in zip(("told", "heard"), words[3:5]) if label != "-"})
        elif kind == "mac":
            found[f"mac {words[0]} {edge} {words[1]}"] = " ".join(words[2:])
    return found


def as_tables(state: dict[str, str]) -> dict[str, str]:
    """Of a state what `tables` tells."""
    kept = {name: text for name, text in state.items() if text and name.split(" ")[0] in OF_TABLES}
    return {name: NONE if text.startswith(ENDED) else text for name, text in kept.items()}


def states(steps: Steps) -> Iterator[dict[str, str]]:
    """What is so behind each event, from before the first one on."""
    state: dict[str, str] = {}
    cells, values = list(steps.cells), list(steps.values)
    for begin, end in zip(steps.begins, steps.begins[1:]):
        state.update((cells[steps.changed[place]], values[steps.to[place]]) for place in range(begin, end))
        yield dict(state)


def whole_run(name: str) -> Iterator[Any]:
    """Behind each event of a run the state is that of `tables`."""
    path = EXAMPLES / f"{name}.toml"
    plan, at = read_plan(path), AtEvent(str(path), "end")
    events = list(at.events)
    found = states(steps_of(plan, read_report(EXAMPLES / f"{name}.txt", plan)))
    wrong = [number for number, state in enumerate(found) if as_tables(state) != tables_of(at, events, number)]
    yield compare(f"player, {name} behind each event", wrong, [])


def cases(folder: pathlib.Path) -> Iterator[Any]:
    """The run of a case of what-if, of which frames are left out, has the state of `tables` behind the events that it keeps."""
    text = (EXAMPLES / "spoke-moves.toml").read_text(encoding="utf-8")
    plan, path = plan_of(text, "spoke-moves.toml"), folder / "case.toml"
    base = Base(plan, text, plan.events[: plan.events.index("priority x xb 5")])
    follower = followed(plan, base.front)
    for case in cases_of(plan, base.network, ["session", "restart"]):
        if case.name not in ("lose a c", "restart a"):
            continue
        tried = base.try_case(case, folder)
        run = unpacked(ladder_of(base, follower, case, tried.reading, tried.lines)["packed"])["run"]
        path.write_text(base.spliced.with_events(base.all_events(tried.events)), encoding="utf-8")
        at, first = AtEvent(str(path), "end"), follower.steps.data()
        found = list(states(Steps.of({name: [*first[name], *run["steps"][name]] for name in first})))
        events, behind = list(at.events), list(zip(run["numbers"], found))
        wrong = [number for number, state in behind[::3] if as_tables(state) != tables_of(at, events, number)]
        yield compare(f"what-if, the run of {case.name}", (len(found), wrong), (len(run["numbers"]), []))


def parts_of(page: str) -> tuple[str, Any]:
    """A page without the note that nothing is proved and without what is packed, and what that is: what is packed may differ by the library."""
    packed = page.partition('<script id="packed" type="application/json">')[2].partition("</script>")[0]
    return page.replace(packed, "").replace(UNPROVED, ""), unpacked(packed)


def kept_pages() -> Iterator[Any]:
    """The pages that stand beside the examples are what the tool writes."""
    for path in sorted((EXAMPLES / "pages").glob("*.html")):
        made = tool("player", EXAMPLES / f"{path.stem}.toml", EXAMPLES / f"{path.stem}.txt")[1]
        yield compare(f"the page of {path.stem}", parts_of(path.read_text(encoding="utf-8")) == parts_of(made), True)


def history(name: str, cell: str) -> Iterator[tuple[int, str]]:
    """The values of a cell, each with the event that it is of."""
    plan = read_plan(EXAMPLES / f"{name}.toml")
    before = ""
    for number, state in enumerate(states(steps_of(plan, read_report(EXAMPLES / f"{name}.txt", plan)))):
        if state.get(cell, "") != before:
            before = state.get(cell, "")
            yield number, before


def in_browser(folder: pathlib.Path) -> Iterator[Any]:
    """What a browser shows behind some events, and what it does with keys and with what is chosen."""
    python = driver("player")
    if python is None:
        return
    yield from side_by_side(folder, python)
    for name, numbers in SHOWN.items():
        page, path = folder / f"{name}.html", EXAMPLES / f"{name}.toml"
        page.write_text(tool("player", path, EXAMPLES / f"{name}.txt")[1], encoding="utf-8")
        more = ["--at", *CHOSEN] if name == "old-way" else []
        seen = json.loads(python("rengahowi.player_browser", page, *numbers, *more) or "{}")
        at = AtEvent(str(path), "end")
        events = list(at.events)
        wrong = [
            number for number, (state, *_) in zip(numbers, seen.get("states", ())) if as_tables(state) != tables_of(at, events, number)
        ]
        yield compare(f"player of {name} in a browser", (len(seen.get("states", ())), wrong), (len(numbers), []))
        yield compare(f"player of {name}, opened at an event", (seen.get("opened"), seen.get("log")), ([numbers[0], True], []))
        yield compare(f"player of {name}, texts that meet", seen.get("meet"), [])
        if name in MARKS:
            yield compare(f"player of {name}, marks", seen.get("marks"), MARKS[name])
        if more:
            yield compare("player, rounds", seen.get("rounds"), ROUNDS)
            yield compare("player, keys", seen.get("keys"), KEYS)
            yield compare("player, next change", seen.get("changes"), CHANGES)
            yield compare("player, event 38", seen["states"][0][1:], ["38: arrive 6 (of 48)", 1, 1, 1])
            chosen = seen.get("chosen", {})
            yield compare("player, a frame", "dropped at x: Down" in chosen.get("frame 3", ""), True)
            yield compare("player, a wire", "priority 10: standing by" in chosen.get("wire xa", ""), True)


def side_by_side(folder: pathlib.Path, python: Callable[..., str]) -> Iterator[Any]:
    """Two runs move together: to the same command, and as many events behind it. They part where the one has its frame before all is
    delivered, and are the same once that is, behind the last command of both."""
    page, words = folder / "pair.html", (EXAMPLES / "old-way.toml", EXAMPLES / "old-way.txt", "--against", EXAMPLES / "spoke-moves.txt")
    page.write_text(tool("player", *words, "--scenario", EXAMPLES / "spoke-moves.toml")[1], encoding="utf-8")
    seen = json.loads(python("rengahowi.player_browser", page, "5", "38") or "{}")
    right = [
        ["5: connect b x (of 48)", "5: connect b x (of 45)", False],
        ["38: arrive 6 (of 48)", "43: arrive 6 (of 45)", True],
        [[36, "from this command on the runs differ"], [45, "the runs are the same again"]],
    ]
    yield compare("player --against", (seen.get("both"), seen.get("log")), (right, []))
    status, said, fault = tool("player", *words[:2], "--scenario", words[0])
    yield compare("player --scenario alone", (status, said, "--against" in fault, fault.count("\n")), (1, "", True, 1))


def refused(folder: pathlib.Path) -> Iterator[Any]:
    """A report that is cut, that is wrong, and that is another scenario's."""
    example, report = EXAMPLES / "old-way.toml", folder / "report.txt"
    text = (EXAMPLES / "old-way.txt").read_text(encoding="utf-8")
    for name, content, right in [
        ("cut", text[: len(text) // 2], "it is not whole"),
        ("without its last line", text.rpartition("end ")[0], "it is not whole"),
        ("wrong", text.replace("> arrive 6", "> arrive six"), "is no number"),
        ("of another scenario", text.replace("wire x xa", "wire x xz"), "the scenario has no wire 'xz'"),
    ]:
        report.write_text(content, encoding="utf-8")
        status, said, fault = tool("player", example, report)
        yield compare(f"player of a report that is {name}", (status, said, right in fault, fault.count("\n")), (1, "", True, 1))


def label_history(_folder: pathlib.Path) -> Iterator[Any]:
    """A number that is given again."""
    yield compare("player, a number that comes back", list(history("label-comes-back", "label a 1048575")), NUMBER)


players = Part(
    "The steps of whole runs, the page in a browser, and files that are none.",
    {
        **table(("old-way", "restart", "ageing", "mesh-over-chain", "label-comes-back"), str, lambda _folder, name: whole_run(name)),
        "label-history": label_history,
        "cases": cases,
        "kept-pages": lambda _folder: kept_pages(),
        "browser": in_browser,
        "refused": refused,
    },
)
