"""The checks of `tools/what-if`: counts by hand, what `tools/summary` says of each case, orders, its page."""

from __future__ import annotations

import fcntl
import json
import multiprocessing
import os
import pathlib
import re
import shlex
import signal
import subprocess
import tempfile
import xml.etree.ElementTree
from collections import Counter

from .cases import Base
from .command import Fault
from .failures import KINDS, cases_of
from .frames import follow
from .many import all_done
from .plan import read_plan
from .report import read_report
from .rows import Part, table
from .summing import event_from, sum_up
from .trying import HTML, PROGRAM, TOP, compare, driver, run, tool

TYPE_CHECKING = False
if TYPE_CHECKING:
    from collections.abc import Iterator
    from typing import Any

EXAMPLES = TOP / "examples"
LOUD = [kind for kind in KINDS if kind != "silent"]
MOVES = ("spoke-moves", "priority x xb 5")
# Where the first cell of its page is opened, in `lose a c`: the 13th frame enters by event 66, behind the 59 events that all cases begin with
# and the failure, and four others.
OPENED = "66: frame cc ffffffffffff02000000000188b5 (of 190)"
# A scenario, its first event behind the set-up, a case, and its row as it is counted by hand: who lost whom, the rounds, and how many
# frames never came to whom while the failure stood. Frames for known stations go round: to the next circuit of the service.
BY_HAND = [
    ("frames-cross", "3", "lose a b", [({"paris"}, {"lyon", "metz"}, "mended", 3)], {"paris": 3, "lyon": 2, "metz": 1}),
    ("session-lost", "lose b c", "lose b c", [({"cb"}, {"cc", "cy"}, "mended", 3)], {"cb": 2, "cc": 2, "cy": 1}),
    (*MOVES, "priority x xb 9", [({"cx"}, {"ca", "cc"}, "failed", 1), ({"cx"}, {"ca", "cc"}, "mended", 1)], {}),
]
# Whom the sites reach in these cases while the failure stands and all is settled, where that is not each other site.
SETTLED_BY_HAND = {
    "frames-cross": [(["lyon", "metz"], []), (["paris"], [])],
    "session-lost": [(["cb"], ["ca", "cd", "cx"]), (["cc"], ["ca", "cd", "cx", "cy"]), (["cy"], ["ca", "cc", "cd", "cx"])],
    "spoke-moves": [],
}


# Why frames went wrong in some cells of a page, and the columns that show it: by the way that each had before.
WHYS: dict[tuple[str, str], Any] = {
    ("lose a c", "cc"): ["a had no wire towards c that carried frames, or had learned another way, and sent it to b, x alone", ["ca", "a", "c", "cc"]],
    ("lose a c", "ca"): ["a dropped it: NoLabel", ["cc", "c", "a", "ca"]],
    ("lose a x", "cx"): ["a had no wire towards x that carried frames, or had learned another way", ["cc", "c", "a", "x", "cx"]],
}


def tried(name: str, begin: str, *words: Any) -> Any:
    """What `--json` tells of an example."""
    return json.loads(tool("what-if", EXAMPLES / f"{name}.toml", "--from", begin, "--json", *words)[1])


def by_hand(_folder: pathlib.Path, entry: Any) -> Iterator[Any]:
    """Counts by hand, for a small plan."""
    name, begin, case, lost, never = entry
    found = tried(name, begin, "--case", case)
    (row,) = found["cases"]
    seen = [(pairs_in(one), one["to"]["stage"], one["rounds"]) for one in row["lost"]]
    right = [(Counter(frozenset((a, b)) for a in left for b in others), *end) for left, others, *end in lost]
    yield compare(f"what-if {name}, {case}", seen, right)
    yield compare(f"what-if {name}, {case}, never", (row["never"].get("failed", {}), row["twice"], row["calm"]), (never, {}, True))
    parts = [(part["sites"], part["reached"]) for one in row["settled"] for part in one["apart"]]
    yield compare(f"what-if {name}, {case}, once settled", (parts, row["as_settled"]), (SETTLED_BY_HAND[name], True))
    yield compare(f"what-if {name}, before", found["before"], {"never": {}, "twice": {}, "back": {}})


def pairs_in(row: dict[str, Any]) -> Any:
    """The pairs of sites that lost each other in a row."""
    return Counter(frozenset((a, b)) for part in row["sites"] for a in part["sites"] for b in part["lost"])


def as_summed(name: str, begin: str) -> Iterator[Any]:
    """Each case of a plan, beside what the summary of its own report counts."""
    path = EXAMPLES / f"{name}.toml"
    plan = read_plan(path)
    events = plan.events[: int(begin) - 1 if begin.isdigit() else plan.events.index(begin)]
    base = Base(plan, path.read_text(encoding="utf-8"), events)
    wrong = []
    with tempfile.TemporaryDirectory() as folder:
        for case in cases_of(plan, base.network, LOUD):
            tried_case = base.try_case(case, folder)
            row = tried_case.reading.row()
            path = pathlib.Path(folder, "case.txt")
            path.write_bytes(base.replay(pathlib.Path(folder, "case.toml"), base.all_events(tried_case.events)))
            report = read_report(path, plan)
            summary = sum_up(plan, follow(plan, report), event_from(report, case.failure[0]) or 1)
            here: Counter[Any] = sum((pairs_in(one) for one in row["lost"]), Counter())
            there: Counter[Any] = sum((pairs_in(one) for service in summary["services"] for one in service["lost"]), Counter())
            twice = sum(len(frame["twice"]) for frame in summary["frames"])
            missed = sum(len(frame["missed"]) for frame in summary["frames"] if frame["flooded"] and frame["to"] == "ff" * 6)
            seen = sum(sum(sites.values()) for sites in row["never"].values())
            kept = row["as_settled"] and all(frame["kept"] for frame in summary["frames"] if frame["promised"])
            if not kept or here != there or twice != sum(sum(sites.values()) for kind in ("twice", "back") for sites in row[kind].values()) or missed > seen:
                wrong.append(case.name)
    yield compare(f"what-if {name}, beside summary", wrong, [])


def ordered(folder: pathlib.Path) -> Iterator[Any]:
    """A frame arrives twice, or comes back to where it entered, in some order; the shortest scenario that shows it replays, in a small
    plan and in one of thirteen edges."""
    saved, large = folder / "saved", folder / "large.toml"
    large.write_text(tool("make-plan", "hierarchy", "5", "8", "--spokes", "2")[1], encoding="utf-8")
    for path, begin, case, count, seed, kinds in [
        (EXAMPLES / f"{MOVES[0]}.toml", ("--from", MOVES[1]), "priority x xb 9", 12, 1, ["back", "twice"]),
        (large, (), "lose e0 e5", 12, 1, ["twice"]),
    ]:
        words = [path, *begin, "--case", case, "--orders", count, "--seed", seed, "--save", saved, "--json"]
        (row,) = json.loads(tool("what-if", *words)[1])["cases"]
        orders = row["orders"]
        yield compare(f"what-if --orders, {case}", (orders["tried"], sorted(set(orders["shortest"]) - {"never"}), orders["twice"] > 0), (count, kinds, True))
        for kind in kinds:
            shortest, report = saved / f"{case.replace(' ', '-')}-{kind}.toml", folder / "report.txt"
            report.write_bytes(run([PROGRAM, "replay", shortest], folder).stdout)
            frames = json.loads(tool("summary", "--json", shortest, report)[1])["frames"]
            seen = [(frame["circuit"] in frame["twice"], frame["twice"] != [frame["circuit"]]) for frame in frames if frame["twice"]]
            plan = read_plan(shortest)
            yield compare(f"what-if --orders, {case}, {kind}, replayed", seen, [(kind == "back", kind == "twice")])
            yield compare(f"what-if --orders, {case}, {kind}, short", (len(plan.events) <= 12, len(plan.edges) <= 4), (True, True))


def compared(folder: pathlib.Path) -> Iterator[Any]:
    """Two designs: the same one, and one without a spoke."""
    path, other = EXAMPLES / "spoke-moves.toml", folder / "other.toml"
    status, text, _ = tool("what-if", path, "--from", MOVES[1], "--kinds", "session", "--against", path)
    yield compare("what-if --against itself", (status, text), (0, "5 cases alike, 0 cases not\n"))
    text = path.read_text(encoding="utf-8")
    tables = text.split("\n[[wire]]\n")
    kept = [table for table in tables if 'name = "xb"' not in table]
    other.write_text("\n[[wire]]\n".join(kept).replace('"connect b x",', "").replace('"priority x xb 5",', ""), encoding="utf-8")
    status, text, fault = tool("what-if", path, "--from", MOVES[1], "--kinds", "session", "--against", other)
    yield compare("what-if --against", (status, fault, "spoke-moves.toml" in text), (1, fault, False))
    text = tool("what-if", other, "--kinds", "session", "--against", path)[1]
    seen = ("lose a x\n  other.toml: who lost whom cx lost ca, cc, rounds mended + 3" in text, "alone: lose b x" in text)
    yield compare("what-if --against another", seen, (True, True))


def collected(folder: pathlib.Path) -> Iterator[Any]:
    """Cases as lines for GNU parallel, and what they wrote."""
    path, rows = EXAMPLES / "frames-cross.toml", folder / "rows"
    words = [path, "--from", "3", "--kinds", "session,restart"]
    lines = tool("what-if", *words, "--jobs-for", "parallel")[1].splitlines()
    yield compare("what-if --jobs-for", (len(lines), [shlex.split(line)[-1] for line in lines]), (3, ["lose a b", "restart a", "restart b"]))
    rows.write_bytes(b"".join(run(["bash", "-c", line], folder).stdout for line in lines))
    saved, alone = folder / "collected", folder / "alone"
    same = tool("what-if", *words, "--collect", rows, "--save", saved), tool("what-if", *words, "--save", alone)
    yield compare("what-if --collect", same[0], same[1])
    texts = [{path.name: path.read_text(encoding="utf-8") for path in place.iterdir()} for place in (saved, alone)]
    yield compare("what-if --collect --save", (texts[0] == texts[1], len(texts[0])), (True, 3))
    rows.write_text("no line\n", encoding="utf-8")
    status, said, fault = tool("what-if", *words, "--collect", rows)
    yield compare("what-if --collect of no lines", (status, said, "line 1" in fault, fault.count("\n")), (1, "", True, 1))


def paged(folder: pathlib.Path) -> Iterator[Any]:
    """The page is XML, has its cases, and a browser opens the run and the ladder of a cell."""
    page = folder / "page.html"
    words = [EXAMPLES / "spoke-moves.toml", "--from", MOVES[1], "--kinds", "session,priority", "--page", page]
    status, _, fault = tool("what-if", *words)
    (plan,) = data_in(page)["plans"]
    yield compare("what-if --page", (status, fault, len(plan["cases"]), len(plan["ladders"])), (0, "", 7, 7))
    whys = {(row["case"], site): words for row, ladder in zip(plan["cases"], plan["ladders"]) for site, (_, _, *words) in ladder["frames"].items()}
    seen = {key: whys.get(key) for key in WHYS}
    yield compare("what-if --page, why frames went wrong", seen, WHYS)
    python = driver("page of what-if")
    if python is None:
        return
    right = ["cases 7", "cells 12", "network True", f"now {OPENED}", "ladder True"]
    yield compare("what-if --page in a browser", python("rengahowi.browser", page).splitlines(), right)


def side_by_side(page: pathlib.Path) -> Iterator[Any]:
    """A page of two scenarios, which has the cases of both, and says of silent ways what was lost there."""
    path = EXAMPLES / "spoke-moves.toml"
    words = [path, "--from", MOVES[1], "--kinds", "session,silent", "--case", "lose a c", "--case", "silent a x", "--page", page]
    status, _, fault = tool("what-if", *words, "--against", path)
    seen = [(part["scenario"], len(part["cases"]), part["ladders"][1]["frames"]["cx"][2:]) for part in data_in(page)["plans"]]
    lost = ["what a sent to x was lost: nothing came from a to x", ["cc", "c", "a", "x", "cx"]]
    yield compare("what-if --page --against", (status, fault, seen), (0, "", [("spoke-moves.toml", 2, lost)] * 2))


def data_in(page: pathlib.Path) -> Any:
    """What a page has of its cases; it has to be XML."""
    scripts = xml.etree.ElementTree.fromstring(page.read_text(encoding="utf-8")).iter(f"{HTML}script")
    return json.loads(next(script.text or "" for script in scripts if script.get("id") == "data"))


def refused(folder: pathlib.Path) -> Iterator[Any]:
    """Words and files that are none."""
    path, none = EXAMPLES / "frames-cross.toml", folder / "none.toml"
    none.write_text("version = 1\nevents = 3\n", encoding="utf-8")
    for words, right in [
        ((none,), "no scenario"),
        ((folder / "absent.toml",), "No such file"),
        ((path, "--kinds", "edges"), "no kind of failure"),
        ((path, "--case", "lose a c"), "has no case"),
        ((path, "--from", "lose b a"), "has no event"),
        ((path, "--orders", "-1"), "0 or more"),
        ((path, "--against", none), "no scenario"),
    ]:
        status, said, fault = tool("what-if", *words)
        yield compare(f"what-if {words[1:]}", (status, said, right in fault, fault.count("\n")), (1, "", True, 1))


def interrupted(folder: pathlib.Path) -> Iterator[Any]:
    """An interrupt leaves what is done: in the set-up, between cases, and while what was found is written."""
    path, pipe, rows = EXAMPLES / "hierarchy.toml", folder / "scenario", folder / "rows"
    os.mkfifo(pipe)
    with Begun(subprocess.DEVNULL, pipe) as begun:
        with open(pipe, "w", encoding="utf-8"):  # which waits until the tool reads there
            begun.interrupt()
        yield compare("what-if, interrupted in its set-up", begun.ended(), (130, ["what-if: interrupted: no case was tried"]))
    with open(rows, "wb") as out, Begun(out, path, "--kinds", ",".join(LOUD), "--pairs", "--lines", "--jobs", "2", "--orders", "9") as begun:
        begun.wait_for("of 703 cases")
        begun.interrupt()
        ended, count = begun.ended(), rows.read_text(encoding="utf-8").count("\n")
        right = [f"what-if: interrupted: {count} of 703 cases were tried"]
        yield compare("what-if, interrupted", (ended, count > 0), ((130, right), True))
    reader, writer = os.pipe()
    fcntl.fcntl(writer, fcntl.F_SETPIPE_SZ, 4096)  # which is less than what it has to write
    with Begun(writer, path, "--kinds", "session", "--json") as begun:
        os.close(writer)
        os.read(reader, 1)
        begun.interrupt()
        begun.wait_for("\n")
        os.close(reader)
        right = ["what-if: interrupted: what was found is not written whole"]
        yield compare("what-if, interrupted while it writes", begun.ended(), (130, right))


class Begun:
    """A call of the tool, whose standard error is a terminal, so that it tells each half second how far it is. Interrupts end it, also
    where they end nothing of what called this."""

    def __init__(self, out: Any, *words: Any) -> None:
        self.told = b""
        self.terminal, end = os.openpty()
        call = [TOP / "tools" / "what-if", *words]
        self.process = subprocess.Popen(call, stdin=subprocess.DEVNULL, stdout=out, stderr=end, preexec_fn=self.interruptible)
        os.close(end)

    @staticmethod
    def interruptible() -> None:
        """Interrupts are not ignored from here on."""
        signal.signal(signal.SIGINT, signal.SIG_DFL)

    def __enter__(self) -> Begun:
        return self

    def __exit__(self, *_: object) -> None:
        self.process.kill()
        self.process.wait()
        os.close(self.terminal)

    def interrupt(self) -> None:
        """Interrupts it."""
        self.process.send_signal(signal.SIGINT)

    def more(self) -> bool:
        """Waits for more of what it tells; false where it has ended."""
        try:
            octets = os.read(self.terminal, 65536)
        except OSError:  # by which a terminal tells that nobody writes there any more
            return False
        self.told += octets
        return octets != b""

    def wait_for(self, words: str) -> None:
        """Waits until it has told these words, or has ended."""
        while words.encode() not in self.told and self.more():
            pass

    def ended(self) -> tuple[int, list[str]]:
        """Its status and the lines that it told but for those of progress, once it has ended."""
        while self.more():
            pass
        return self.process.wait(), re.sub(rb"\r[^\n]*\x1b\[K", b"", self.told).decode().splitlines()


def broken_off() -> Iterator[Any]:
    """Pieces of work of which one is interrupted, ends its process, or fails."""

    def done(piece: int, _: pathlib.Path) -> int:
        if piece == 4:
            os.kill(os.getppid(), signal.SIGINT)
            signal.pause()
        if piece == 14:
            os._exit(9)
        if piece == 24:
            raise Fault("no such piece")
        return piece

    before = signal.signal(signal.SIGINT, signal.default_int_handler)
    try:
        yield compare("pieces, interrupted", all_done(range(9), done, 1, "pieces"), ([0, 1, 2, 3], False))
        found, is_whole = all_done(range(9), done, 3, "pieces")
        seen = (is_whole, found == sorted(set(found) - {4}), len(found) > 1, multiprocessing.active_children())
        yield compare("pieces, interrupted beside each other", seen, (False, True, True, []))
    finally:
        signal.signal(signal.SIGINT, before)
    for pieces, right in ((range(10, 19), "a process that worked at the pieces ended with status 9"), (range(20, 29), "no such piece")):
        try:
            said: object = all_done(pieces, done, 2, "pieces")
        except Fault as fault:
            said = str(fault)
        yield compare("pieces, a fault", (said, multiprocessing.active_children()), (right, []))
    yield compare("pieces, whole", all_done(range(40, 49), done, 3, "pieces"), (list(range(40, 49)), True))
    yield compare("no pieces", all_done([], done, 3, "pieces"), ([], True))


what_ifs = Part(
    "Cases counted by hand, and as `summary` counts them; orders, another design, pages, lines, and an interrupt.",
    {
        **table(BY_HAND, lambda entry: entry[0], by_hand),
        "summed-frames-cross": lambda _folder: as_summed("frames-cross", "3"),
        "summed-spoke-moves": lambda _folder: as_summed(*MOVES),
        "orders": ordered,
        "against": compared,
        "collected": collected,
        "page": paged,
        "page-against": lambda folder: side_by_side(folder / "page.html"),
        "refused": refused,
        "broken-off": lambda _folder: broken_off(),
        "interrupted": interrupted,
    },
)
