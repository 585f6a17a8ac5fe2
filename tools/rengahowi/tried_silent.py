"""The checks of silent failures and of times in `tools/what-if`: counts by hand, and what `tools/summary` says of each case."""

from __future__ import annotations

import json
import pathlib
import tempfile
from collections import Counter

from .cases import Base
from .failures import cases_of
from .frames import follow
from .plan import read_plan
from .report import read_report
from .rows import Part, table
from .silent_by_hand import BY_HAND, FAILED, MENDED, WHOLE
from .stale import Tables, stale
from .summing import sum_up
from .trying import PROGRAM, TOP, compare, run, tool

TYPE_CHECKING = False
if TYPE_CHECKING:
    from collections.abc import Iterator
    from typing import Any

    from .plan import Plan

EXAMPLES = TOP / "examples"
CROSS, FULL, MOVES, MESHED = ((name, begin) for name, begin, _ in BY_HAND)
WORDS = ("--kinds", "silent", "--tick", "1s", "--one-way", "10ms")
# Other timers, a link of its own and what both come to: a case of the plan that moves, and the seconds of its first loss.
TIMED = [
    ((), "silent a x", 180.01),
    (("--set", "keepalive=9"), "silent a x", 9.01),
    (("--set", "x.keepalive=30"), "silent a x", 30.01),
    (("--set", "b.keepalive=30"), "silent a x", 180.01),
    (("--time",), "silent a x", 90.035),
    (("--time",), "silent x to a", 90.045),
]
TIMES = '[time]\ntick = "500ms"\none_way = "10ms"\n\n[[link]]\nedges = ["x", "b"]\none_way = "35ms"\n'


# A script that sets up the plan that moves, by Hellos: each adjacency lives 45 ticks, and those of a and x 15, which a proposes. So x finds
# out in tick 15 that a is dead; where a does, x hears of it by a message. The KeepAlive of 9 is over before.
HELLOS = [("a", "b", 45), ("b", "a", 45), ("a", "c", 45), ("c", "a", 45), ("b", "c", 45), ("c", "b", 45), ("a", "x", 15), ("x", "a", 45), ("b", "x", 45), ("x", "b", 45)]
SCRIPTED = [((), "silent a", 15.01), ((), "silent a to x", 15.01), ((), "silent x to a", 15.02), (("--set", "keepalive=9"), "silent a", 9.01)]


def tried(name: str, begin: str, *words: Any) -> Any:
    """What `--json` tells of an example."""
    return json.loads(tool("what-if", EXAMPLES / f"{name}.toml", "--from", begin, "--json", *words)[1])


def pairs_in(row: dict[str, Any]) -> set[frozenset[str]]:
    """The pairs of sites that lost each other in a row."""
    return {frozenset((a, b)) for part in row["sites"] for a in part["sites"] for b in part["lost"]}


def by_hand() -> Iterator[Any]:
    """Counts by hand, for small plans: of three of them for each case."""
    for name, begin, rights in BY_HAND:
        found = {row["case"]: row for row in tried(name, begin, *WORDS)["cases"]}
        if name in WHOLE:
            yield compare(f"what-if {name}, its silent cases", list(found), list(rights))
        for case, right in rights.items():
            row = found[case]
            seen = {(pair, moments(one)) for one in row["lost"] for pair in pairs_in(one)}
            yield compare(f"what-if {name}, {case}", seen, {(frozenset((a, b)), one.span) for one in right.lost for a in one.sites for b in one.others})
            kept = {phase: counts for phase, counts in (("at once", right.at_once), ("failed", right.failed)) if counts}
            yield compare(f"what-if {name}, {case}, never", row["never"], kept)
            rest = tuple(row[key] for key in ("gone", "twice", "back", "stale", "calm", "whole", "as_settled"))
            yield compare(f"what-if {name}, {case}, rest", rest, (right.gone, {}, {}, [], True, True, True))
            yield compare(f"what-if {name}, {case}, rounds", tuple(row["rounds"].get(stage, 0) for stage in (FAILED, MENDED)), right.rounds)


def moments(one: dict[str, Any]) -> tuple[Any, ...]:
    """From and until when a loss lasts, and its other numbers."""
    return when(one["from"]), when(one["to"]), one["ticks"], one["rounds"], one["from"]["seconds"], one["to"]["seconds"], one["detection"], one["signalling"]


def when(moment: dict[str, Any]) -> tuple[str, int, int]:
    """A moment without its time."""
    return moment["stage"], moment["tick"], moment["round"]


def as_summed(name: str, begin: str) -> Iterator[Any]:
    """Each case of a plan, beside what the summary of its own scenario's report counts: until when sites had lost each other, and which
    frames came where."""
    path = EXAMPLES / f"{name}.toml"
    plan = read_plan(path)
    events = plan.events[: int(begin) - 1 if begin.isdigit() else plan.events.index(begin)]
    base = Base(plan, path.read_text(encoding="utf-8"), events)
    base.foretell()
    wrong = []
    with tempfile.TemporaryDirectory() as folder:
        for case in cases_of(plan, base.network, ["silent"]):
            tried_case = base.try_case(case, folder)
            row = tried_case.reading.row()
            file = pathlib.Path(folder, "case.txt")
            file.write_bytes(base.replay(pathlib.Path(folder, "case.toml"), base.all_events(tried_case.events)))
            report = read_report(file, plan)
            texts = [line[2:] for line in report.lines if line.startswith("> ")]
            first = len(texts) - sum(line.startswith("> ") for line in tried_case.lines)
            summary = sum_up(plan, follow(plan, report), first + 1)
            ends = summed_ends(summary, texts, first, case.mending[0])
            here = Counter((pair, one["to"]["stage"], one["to"]["tick"]) for one in row["lost"] for pair in pairs_in(one))
            never = summed_never(plan, summary, base.probes, case.silence(plan).edges)
            if here != ends or {phase: sites for phase, sites in never.items() if sites} != row["never"] or row["twice"] or row["back"]:
                wrong.append(case.name)
    yield compare(f"what-if {name}, silent, beside summary", wrong, [])


def summed_ends(summary: dict[str, Any], texts: list[str], first: int, mending: str) -> Counter[Any]:
    """The pairs of sites that found each other, and the ticks behind the failure by then, or behind the mending, which is at its first
    event: as often as they did."""
    mended = texts.index(mending, first) + 1
    found: Counter[Any] = Counter()
    for service in summary["services"]:
        for one in service["lost"]:
            event = one["to"]["event"]
            ticks = sum(text == "tick" for text in texts[first:event])
            for pair in pairs_in(one):
                found[pair, *((MENDED, 0) if event >= mended else (FAILED, ticks))] += 1
    return found


def summed_never(plan: Plan, summary: dict[str, Any], probes: Any, dead: set[str]) -> dict[str, dict[str, int]]:
    """How many frames did not come to whom in each phase, by where they left."""
    found: dict[str, dict[str, int]] = {}
    frames = iter(summary["frames"])
    for phase in ("at once", "failed", "mended"):
        counts: Counter[str] = Counter()
        gone = dead if phase != "mended" else set()
        for frame in probes.frames_in(phase, gone):
            served = next(frames)["served"]
            due = [frame.to] if frame.to is not None else [name for name in plan.circuits_of(plan.circuits[frame.circuit]["service"]) if name != frame.circuit]
            counts.update(site for site in due if site not in served and plan.circuits[site]["edge"] not in gone)
        found[phase] = dict(counts)
    return found


def timed(folder: pathlib.Path) -> Iterator[Any]:
    """Other timers, and links of their own."""
    file = folder / "times.toml"
    file.write_text(TIMES, encoding="utf-8")
    for words, case, right in TIMED:
        more = ("--time", file) if words == ("--time",) else (*words, *WORDS[2:])
        found = tried(*MOVES, *more, "--kinds", "silent", "--case", case)
        one = found["cases"][0]["lost"][0]
        yield compare(f"what-if {case}, {words}", (one["seconds"], round(one["detection"] + one["signalling"], 6)), (right, right))


def scripted(folder: pathlib.Path) -> Iterator[Any]:
    """Adjacencies that end before sessions do, where a script sets the network up; the script that is saved makes the same run."""
    path, saved = EXAMPLES / "spoke-moves.toml", folder / "saved"
    lines = [line for number, (a, b, hold) in enumerate(HELLOS, 1) for line in (f"hello {a} {b} {hold}", f"bring {number}")]
    lines += [*(f"open {a} {b}" for a, b, _ in HELLOS[::2]), "do settle 1000"]
    script = folder / "moves.discover"
    script.write_text("".join(f"{line}\n" for line in lines), encoding="utf-8")
    for words, case, right in SCRIPTED:
        found = json.loads(tool("what-if", path, "--script", script, *WORDS, *words, "--case", case, "--save", saved, "--json")[1])
        (row,) = found["cases"]
        yield compare(f"what-if --script {words}, {case}", (row["lost"][0]["seconds"], row["stale"], row["calm"]), (right, [], True))
    done = run([PROGRAM, "discover", saved / "silent-x-to-a.toml", saved / "silent-x-to-a.discover"], folder, text=True)
    told = [line for line in done.stdout.splitlines() if line.startswith("adjacency") and line.endswith("down")]
    yield compare("what-if --script --save", (done.returncode, told), (0, ["adjacency a x down"]))
    bad: list[tuple[list[str], str, str]] = [(["--from", "1"], "hello a b 9\n", "does not go with it")]
    bad += [([], "bring b\n", "is no script that"), ([], "jump\n", "script: 1 1")]
    for options, text, part in bad:
        script.write_text(text, encoding="utf-8")
        status, _, fault = tool("what-if", path, "--script", script, *options)
        yield compare(f"what-if --script of {text!r}", (status, part in fault, fault.count("\n")), (1, True, 1))


# Tables of the plan that moves, where a still has the station of cx behind its old spoke, and c behind a; b knows nothing of it. The
# station of cc is behind bc at b, and c has it at its circuit.
LEARNED = """edge a next=20
mac s 020000000002 xa 7
edge b next=20
mac s 020000000001 bc 9
edge c next=20
mac s 020000000001 cc 9
mac s 020000000002 ac 4
edge x next=20
"""


def astray() -> Iterator[Any]:
    """What is learned leads astray at the edge that is wrong, until it forgets that by its age; to those that no wires join, nothing does."""
    plan, tables = read_plan(EXAMPLES / "spoke-moves.toml"), Tables(LEARNED)
    stations = {"cc": "020000000001", "cx": "020000000002"}
    carrying = {"ab", "ac", "bc", "xb"}
    everyone = {frozenset((a, b)) for a in plan.edges for b in plan.edges if a != b}
    found = stale(plan, tables, stations, {"s": everyone}, carrying)
    right = [{"edge": "a", "site": "cx", "at": "a", "tick": 307}, {"edge": "c", "site": "cx", "at": "a", "tick": 307}]
    yield compare("what-if, astray", found, right)
    found = stale(plan, tables, stations, {"s": everyone - {frozenset("cx")}}, carrying)
    yield compare("what-if, astray of those that are joined", found, right[:1])
    found = stale(plan, tables, stations, {"s": everyone}, carrying | {"xa"})
    yield compare("what-if, astray nowhere", found, [])


def listed() -> Iterator[Any]:
    """A line a site, and a line a number."""
    path, words = EXAMPLES / "spoke-moves.toml", ("--from", "11", *WORDS, "--case", "silent a", "--case", "silent x to a")
    rows = [line.split() for line in tool("what-if", path, *words, "--sites")[1].splitlines()]
    yield compare("what-if --sites", rows[3], "s cx 180.02 s 180 s 0.02 s silent x to a ca, cc - -".split())
    yield compare("what-if --sites, with its edge", rows[1][-2:], ["silent", "a"])
    kinds = {kind: len(tried(*CROSS, "--kinds", kind)["cases"]) for kind in ("silent-edge", "silent-link", "silent-edge,silent")}
    yield compare("what-if --kinds, edges and links", kinds, {"silent-edge": 2, "silent-link": 3, "silent-edge,silent": 5})
    rows = [line.split() for line in tool("what-if", path, *words, "--sweep", "keepalive=3,9")[1].splitlines()]
    right = [f"keepalive = {number} {number}.02 s {number} s 0.02 s silent x to a 0 of 2 6 at once".split() for number in (3, 9)]
    yield compare("what-if --sweep", rows[1:], right)
    found = json.loads(tool("what-if", path, *words, "--sweep", "keepalive=3,9", "--json")[1])
    yield compare("what-if --sweep --json", [(row["set"], len(row["cases"])) for row in found], [("keepalive = 3", 2), ("keepalive = 9", 2)])


def refused(folder: pathlib.Path) -> Iterator[Any]:
    """Words and files that are none."""
    path, file = EXAMPLES / "frames-cross.toml", folder / "times.toml"
    for words, text, right in [
        (("--tick", "1s"), "", "--tick and --one-way go together"),
        (("--tick", "1", "--one-way", "10ms"), "", "--tick: '1' is no time"),
        (("--tick", "1s", "--one-way", "0.0000001s"), "", "is no time"),
        (("--time", file), "[time]\ntick = \"1s\"\n", "has no [time] with tick and one_way"),
        (("--time", file), TIMES, "link 1 has the edges of two neighbours"),
        (("--time", file), "[time", "is no TOML"),
        (("--time", file), "[time]\ntick = 1\n", "time 1: tick is a text in quotes"),
        (("--time", file, "--tick", "1s"), TIMES, "stand without it"),
        (("--set", "keepalive"), "", "is no KEY=NUMBER"),
        (("--set", "keepalives=9"), "", "there is no number 'keepalives'"),
        (("--set", "z.keepalive=9"), "", "has no edge 'z'"),
        (("--set", "keepalive=2"), "", "keepalive is a number from 3 to 65535"),
        (("--sweep", "age=1,x"), "", "is no KEY=NUMBER"),
    ]:
        file.write_text(text, encoding="utf-8")
        status, said, fault = tool("what-if", path, *words)
        yield compare(f"what-if {words} {text!r}", (status, said, right in fault, fault.count("\n")), (1, "", True, 1))


silences = Part(
    "Silent failures counted by hand, and beside what `summary` counts; times, other timers, and words that are none.",
    {
        "by-hand": lambda _folder: by_hand(),
        **table((CROSS, MOVES, MESHED), lambda entry: f"summed {entry[0]}", lambda _folder, entry: as_summed(*entry)),
        "times": timed,
        "scripted": scripted,
        "astray": lambda _folder: astray(),
        "listed": lambda _folder: listed(),
        "refused": refused,
    },
)
