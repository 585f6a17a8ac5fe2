"""The checks of `bin/vplsnet-survey`, and of what `tools/what-if` makes of it: rows worked by hand, calls that end otherwise, how far it is."""

from __future__ import annotations

import json
import os
import pathlib
import re
import subprocess

from .plan import plan_of, read_plan
from .rows import Part
from .splicing import Spliced
from .survey import Survey
from .survey_progress import candidates, rank
from .trying import TOP, compare, driver, run, tool

TYPE_CHECKING = False
if TYPE_CHECKING:
    from collections.abc import Iterator
    from typing import Any

SURVEY = TOP / "bin" / "vplsnet-survey"
PLAN = TOP / "examples" / "two-failures.toml"
# Of the cases of one failure of this plan: the last lines, by hand.
ENDS_OF_ONE = "worst 3 restart a\nend faults=16 cases=16 split=10 told=10\n"
# The same network where `xb` is chosen and `b` and `c` are not connected: failures that join sites, by hand. Cut off are `cb` from `cc`, and
# `cc` from `cx`, whose core edge is `b`; each failure of `xb` gives `x` the core edge `a`, which has a mesh wire to `c`.
JOINED = ["priority x xb 9", "lose b c", "settle 1000"]
JOINS = """service s sites=4 apart=2
apart s cb : cc
apart s cc : cx
case 2 0 lose a b
lost s ca : cb cx
case 1 0 lose a c
cut s cc
case 0 1 lose b x
found s cc : cx
case 2 0 wire a ab off
lost s ca : cb cx
case 1 0 wire a ac off
cut s cc
case 0 1 wire x xb off
found s cc : cx
case 3 0 restart a
cut s ca cc
case 2 1 restart b
cut s cb
found s cc : cx
case 1 0 restart c
cut s cc
case 2 0 restart x
cut s cx
case 0 1 priority x xa 8
found s cc : cx
case 0 1 priority x xb 255
found s cc : cx
worst 3 restart a
end faults=14 cases=14 split=8 told=12
"""
# A circuit that is off is no site: of the first network with `cb` off, by hand.
OFF = """service s sites=3 apart=0
off s cb
case 2 0 lose a c
cut s cc
case 2 0 wire a ac off
cut s cc
case 2 0 restart a
cut s ca
case 2 0 restart c
cut s cc
case 2 0 restart x
cut s cx
worst 2 lose a c
end faults=16 cases=16 split=5 told=5
"""
# A call's words, what it reads where there is a file `f`, its status and its line on standard error.
ENDS: list[tuple[list[str], str, int, str]] = [
    ([], "", 2, "usage"),
    (["f", "0"], "", 2, "usage"),
    (["f", "4"], "", 2, "usage"),
    (["f", "1", "1"], "", 2, "usage"),
    (["-f"], "", 2, "usage"),
    ([""], "", 2, "usage"),
    (["g"], "", 3, "read fault"),
    (["f", "2"], "version = 3", 5, "scenario: Version"),
    (["f"], "=" * 8_388_609, 5, "f is longer than 8388608"),
]


def surveyed(path: pathlib.Path, *words: str) -> tuple[int, str, str]:
    """How a survey ends: its status, its text, and its line on standard error."""
    done = run([SURVEY, path, *words], path.parent, text=True)
    return done.returncode, done.stdout, done.stderr


def with_more(folder: pathlib.Path, *events: str) -> pathlib.Path:
    """The plan with more events behind its own."""
    text, path = PLAN.read_text(encoding="utf-8"), folder / "more.toml"
    path.write_text(Spliced(text).with_events([*plan_of(text, PLAN).events, *events]), encoding="utf-8")
    return path


def by_hand(folder: pathlib.Path) -> Iterator[Any]:
    """Whole texts."""
    both = PLAN.with_suffix(".survey").read_text(encoding="utf-8")
    yield compare("survey, each two failures", surveyed(PLAN, "2"), (0, both, ""))
    one = both[: both.index("case 2 0 lose a b + ")] + ENDS_OF_ONE
    yield compare("survey, each failure", [surveyed(PLAN), surveyed(PLAN, "1")], [(0, one, "")] * 2)
    yield compare("survey, failures that join", surveyed(with_more(folder, *JOINED)), (0, JOINS, ""))
    yield compare("survey, a circuit that is off", surveyed(with_more(folder, "circuit cb off")), (0, OFF, ""))
    # No order of messages is looked at, nor whether they came at all.
    text, early = PLAN.read_text(encoding="utf-8"), folder / "early.toml"
    early.write_text(Spliced(text).with_events(plan_of(text, PLAN).events[:-1]), encoding="utf-8")
    yield compare("survey, nothing delivered yet", surveyed(early, "2"), (0, both, ""))


def ended(folder: pathlib.Path) -> Iterator[Any]:
    """Calls that do not end well."""
    for words, text, status, line in ENDS:
        (folder / "f").write_text(text, encoding="utf-8")
        done = run([SURVEY, *words], folder, text=True)
        yield compare(f"survey {words}, {text[:12]!r}", (done.returncode, done.stdout, done.stderr), (status, "", f"vplsnet: {line}\n"))
    for to in ("/dev/full", "&-"):
        done = run(["bash", "-c", f'"$0" "$1" 2 >{to}', SURVEY, PLAN], folder, text=True)
        yield compare(f"survey, >{to}", (done.returncode, done.stdout, done.stderr), (4, "", "vplsnet: write fault\n"))
    large = folder / "large.toml"
    large.write_text(tool("make-plan", "mesh", "45")[1], encoding="utf-8")
    # 990 connections, 990 wires and 45 edges: 2,025 failures, and of at most three at once 2,025 + 2,049,300 + 1,381,911,300.
    yield compare("survey, too many cases", surveyed(large, "3"), (7, "", "vplsnet: stopped: TooManyCases 1383962625\n"))


def shown(folder: pathlib.Path) -> Iterator[Any]:
    """How far it is, on a terminal, where its text goes to a file; nothing of it is in the text, and the line is cleared."""
    plan = folder / "large.toml"
    plan.write_text(tool("make-plan", "hierarchy", "16", "40", "--spokes", "2", "--services", "2")[1], encoding="utf-8")
    text = folder / "text"
    terminal, end = os.openpty()
    with open(text, "wb") as out:
        process = subprocess.Popen([SURVEY, plan, "2"], stdin=subprocess.DEVNULL, stdout=out, stderr=end)
    os.close(end)
    told = b""
    while True:
        try:
            octets = os.read(terminal, 65536)
        except OSError:  # by which a terminal tells that nobody writes there any more
            break
        told += octets
    os.close(terminal)
    parts = [int(part) for part in re.findall(rb"\r(\d+)% of the cases", told)]
    rest = re.sub(rb"\r[^\r\n]*\x1b\[K", b"", told)
    seen = process.wait(), parts == sorted(parts), bool(parts), rest, told.endswith(b"\r\x1b[K"), text.read_text(encoding="ascii").count("\nend ")
    yield compare("survey, how far it is", seen, (0, True, True, b"", True, 1))


def ranks() -> Iterator[Any]:
    """How many cases of as many failures come before one, and the failures of a plan in their order."""
    seen = [rank(places, 5) for places in ([0], [4], [0, 1], [1, 2], [3, 4], [0, 1, 2], [2, 3, 4])]
    yield compare("cases before a case", seen, [0, 4, 0, 4, 9, 0, 9])
    due = ["lose a b", "lose a c", "lose a x", "lose b c", "lose b x", "wire a ab off", "wire a ac off", "wire b bc off", "wire x xa off", "wire x xb off"]
    due += ["restart a", "restart b", "restart c", "restart x", "priority x xa", "priority x xb"]
    yield compare("failures of a plan", list(candidates(read_plan(PLAN))), due)


def settled(folder: pathlib.Path) -> Iterator[Any]:
    """`what-if --settled` tells the rows of a survey, and pairs of sites as they are in it."""
    status, said, fault = tool("what-if", PLAN, "--settled", "--pairs")
    rows = [line for line in said.splitlines() if " + " in line and not line.startswith("Most")]
    seen: Any = status, fault, len(rows), "restart a + restart b              6     ca, cb, cc and 1 more lost all" in said
    yield compare("what-if --settled --pairs", seen, (0, "", 27, True))
    status, said, fault = tool("what-if", with_more(folder, *JOINED), "--settled", "--kinds", "restart,priority")
    right = [
        "Before any failure, cb and cc do not reach each other (service s)",
        "Before any failure, cc and cx do not reach each other (service s)",
        "",
        "case               lost  who lost whom once settled  found  who found whom",
        "restart a          3     ca, cc lost all             -      -",
        "restart b          2     cb lost all                 1      cc found cx",
        "restart c          1     cc lost all                 -      -",
        "restart x          2     cx lost all                 -      -",
        "priority x xa 8    -     -                           1      cc found cx",
        "priority x xb 255  -     -                           1      cc found cx",
        "",
        "14 failures, 14 cases of one failure: in 8 sites are split once all has settled, in every order",
        "6 cases told",
        "Most pairs of sites lose each other in restart a",
        "6 cases of other kinds left out",
    ]
    yield compare("what-if --settled", (status, said.splitlines(), fault), (0, right, ""))
    survey = Survey(read_plan(PLAN), JOINS)
    told = survey.cases[frozenset(["restart b"])]
    seen = [sorted(sorted(pair) for pair in pairs) for pairs in (survey.apart(), survey.lost(told), survey.found(told))]
    yield compare("pairs of a survey", seen, [[["cb", "cc"], ["cc", "cx"]], [["ca", "cb"], ["cb", "cx"]], [["cc", "cx"]]])


def agreeing(folder: pathlib.Path) -> Iterator[Any]:
    """Each case of `what-if` that a survey speaks of is told to agree with it, and of what is silent it tells nothing."""
    pairs = ["--kinds", "session,priority", "--pairs"]
    for path, words, right in [(with_more(folder, *JOINED), list[str](), (14, 1)), (PLAN, pairs, (16, 2))]:
        found = json.loads(tool("what-if", path, "--json", *words)[1])
        silent = [row["case"] for row in found["cases"] if not row["surveyed"]]
        yield compare(f"what-if {words}, cases that a survey speaks of", [name for name in silent if not name.startswith("silent ")], [])
        yield compare(f"what-if {words}, what it tells", (found["survey"]["failures"], found["survey"]["most"]), right)


def refused(folder: pathlib.Path) -> Iterator[Any]:
    """Words that do not go together, and a survey that ends otherwise than what was tried."""
    for words, right in [
        (["--settled", "--orders", "3"], "--orders does not go with it"),
        (["--settled", "--kinds", "silent"], "tells nothing of 'silent'"),
        (["--pairs", "--triples"], "do not go together"),
    ]:
        status, said, fault = tool("what-if", PLAN, *words)
        yield compare(f"what-if {words}", (status, said, right in fault, fault.count("\n")), (1, "", True, 1))
    other = folder / "other"
    text = PLAN.with_suffix(".survey").read_text(encoding="utf-8")
    text = text[: text.index("case 2 0 lose a b + ")] + ENDS_OF_ONE
    other.write_text("#!/bin/sh\ncat <<'END'\n" + text.replace("case 1 0 lose b c\nlost s cb : cc\n", "") + "END\n", encoding="utf-8")
    other.chmod(0o755)
    done = run([TOP / "tools" / "what-if", PLAN, "--case", "lose b c"], folder, text=True, env={**os.environ, "VPLSNET_UNPROVED": os.environ.get("VPLSNET_UNPROVED", "yes"), "VPLSNET_SURVEY_UNPROVED": str(other)})
    right = "what-if: lose b c: once settled, cb and cc do not reach each other, and the survey tells otherwise\n"
    yield compare("what-if, a survey that is otherwise", (done.returncode, done.stdout, done.stderr), (1, "", right))


def paged(folder: pathlib.Path) -> Iterator[Any]:
    """The page has a matrix of failures by failures, whose cells tell their sites, and the cases that are told by sites."""
    page = folder / "page.html"
    status, _, fault = tool("what-if", PLAN, "--settled", "--pairs", "--page", page)
    yield compare("what-if --settled --page", (status, fault), (0, ""))
    python = driver("page of a survey")
    if python is None:
        return
    right = ["matrix 16 failures, 54 cells of two, 10 of one", "told restart a + restart b: ca, cb, cc, cx lost all", "cases 37 of 37 cases that are told"]
    yield compare("what-if --settled --page in a browser", python("rengahowi.survey_browser", page).splitlines(), right)


surveys = Part(
    """Surveys worked by hand, calls that end otherwise, how far one is; what `what-if` shows of them, and that its cases agree.""",
    {
        "by-hand": by_hand,
        "ended": ended,
        "how-far": shown,
        "order": lambda _folder: ranks(),
        "settled": settled,
        "agreeing": agreeing,
        "refused": refused,
        "page": paged,
    },
)
