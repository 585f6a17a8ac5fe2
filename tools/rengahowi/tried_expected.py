"""The checks of what is expected in `tools/what-if`: failures that somebody defines, expectations, and files for pipelines."""

from __future__ import annotations

import json
import xml.etree.ElementTree
from xml.etree.ElementTree import Element

from .rows import Part, table
from .trying import TOP, compare, run, tool

TYPE_CHECKING = False
if TYPE_CHECKING:
    import pathlib
    from collections.abc import Iterator
    from typing import Any

PLAN = TOP / "examples" / "spoke-moves.toml"
WORDS = (PLAN, "--from", "11")
TIMES = '[time]\ntick = "1s"\none_way = "10ms"\n'
# A file of expectations of the sessions and spokes; the status, and what is said of each case that does otherwise.
EXPECTED: list[tuple[str, int, list[str]]] = [
    ("rounds = 9\ntwice = false\ncalm = true\n", 0, []),
    ('split = false\nexcept = ["lose a c"]\n', 0, []),
    ("split = false\n", 3, ["lose a c: cc loses ca, cx until it is mended, and for 3 rounds behind that (2 more sites too), and split = false (all, line 1)"]),
    ("# so\n\nrounds = 2\n", 3, ["lose a c: cc loses ca, cx until it is mended, and for 3 rounds behind that (2 more sites too), and rounds = 2 (all, line 3)"]),
    ('[[expect]]\nrounds = 2\nmay_lose = ["cc"]\n', 0, []),
    ('[[expect]]\nservice = "t*"\nrounds = 2\n', 0, []),
    ('[[expect]]\ncase = "lose *"\nrounds = 0\nsite = "c[ab]"\nsplit = false\n', 3, [
        "lose a c: ca loses cc until it is mended, and for 3 rounds behind that, and split = false; ca loses cc until it is mended, "
        "and for 3 rounds behind that, and rounds = 0 (expect 1, line 1)",
        "lose a x: ca loses cx for 1 round, and rounds = 0 (expect 1, line 1)",
    ]),
    ('\n[[expect]]\nname = "all come"\ncase = "lose a *"\nsite = "ca"\nnever = false\n', 3, [
        "lose a c: a frame never arrives at ca, and never = false (all come, line 2)",
        "lose a x: a frame never arrives at ca, and never = false (all come, line 2)",
    ]),
]  # fmt: skip
# The same of silent failures and of two that are defined: what fails in them is counted by hand in the checks of silent failures.
OWN = """
[[case]]
name = "duct 7"
failure = ["silent a x", "lose a c"]

[[case]]
name = "site b"
failure = ["silent b"]

[[case]]
name = "work at x"
failure = ["priority x xa 30", "circuit ca off"]
mending = ["circuit ca on", "priority x xa 10"]

[[expect]]
name = "quick"
within = "3s"
may_lose = ["cc"]

[[expect]]
name = "patient"
ticks = 180
"""
OWN_SAID = [
    'duct 7: cx loses ca for 180.01 s (1 more site too), and within = "3s" (quick, line 18)',
    "duct 7: ca loses cc until it is mended, and for 0.04 s behind that (1 more site too), and ticks = 180 (patient, line 23)",
]
# Files that are none.
BAD = [
    ("splits = false\n", "'splits' is no expectation"),
    ("rounds = -1\n", "a number of rounds"),
    ("rounds = true\n", "rounds is a number"),
    ("rounds = \n", "is no TOML"),
    ("split = true\n", "split = false expects something"),
    ("[expect]\nsplit = false\n", "two brackets"),
    ('[[expect]]\nsite = "c"\n', "expects nothing"),
    ('[[expect]]\nsite = 3\nsplit = false\n', "site is a text in quotes or an array of texts"),
    ('[[expect]]\nwithin = "3"\n', "is no time"),
    ('[[expect]]\nwithin = "3s"\n', "within wants times"),
]
BAD_CASES = [
    ("split = false\n", "has no rows [[case]]"),
    ('[[case]]\nname = "d"\n', "no name or no failure"),
    ('[[case]]\nname = "d"\nfailure = ["lose a"]\n', "word 3: the name of an edge"),
    ('[[case]]\nname = "d"\nfailure = ["deliver a b 9"]\n', "begins with none of lose"),
    ('[[case]]\nname = "d"\nfailure = ["silent a z"]\n', "no wire has 'a' and 'z'"),
    ('[[case]]\nname = "d"\nfailure = ["silent z"]\n', "is none of 'silent E'"),
    ('[[case]]\nname = "d"\nfailure = ["silent a"]\nmending = ["silent a"]\n', "begins with none of lose"),
    ('[[case]]\nname = "d"\nfailure = ["lose a b"]\n' * 2, "the name of an earlier one"),
    ('[[case]]\nname = "d"\nfailure = ["lose a b"]\nfails = 3\n', "case 1 has no key 'fails'"),
]


def expected(folder: pathlib.Path, entry: tuple[str, int, list[str]]) -> Iterator[Any]:
    """Expectations that are met, or that are not."""
    (text, status, right), file = entry, folder / "expect.toml"
    file.write_text(text, encoding="utf-8")
    done = tool("what-if", *WORDS, "--kinds", "session,priority", "--expect", file)
    said = [line.removeprefix("what-if: ") for line in done[2].splitlines()]
    cases = len({line.split(":")[0] for line in right})
    yield compare(f"what-if --expect {text!r}", (done[0], said), (status, [f"{cases} of 7 cases are not as expected", *right] if right else []))


def refused(folder: pathlib.Path, entry: tuple[str, str, str]) -> Iterator[Any]:
    """A file that is none."""
    (option, text, words), file = entry, folder / "expect.toml"
    file.write_text(text, encoding="utf-8")
    done = tool("what-if", *WORDS, "--kinds", "session", option, file)
    yield compare(f"what-if {option} {text!r}", (done[0], words in done[2], done[2].count("\n")), (1, True, 1))


def github_alone(_folder: pathlib.Path) -> Iterator[Any]:
    """Annotations want expectations."""
    done = tool("what-if", *WORDS, "--github")
    yield compare("what-if --github alone", (done[0], "--expect FILE" in done[2], done[2].count("\n")), (1, True, 1))


def defined(file: pathlib.Path) -> Iterator[Any]:
    """Failures that somebody defines, alone and beside those of the plan."""
    file.write_text(TIMES + OWN, encoding="utf-8")
    words = [*WORDS, "--cases", file, "--time", file, "--expect", file]
    status, _, fault = tool("what-if", *words)
    said = [line.removeprefix("what-if: ") for line in fault.splitlines()[1:]]
    yield compare("what-if --cases", (status, said), (3, OWN_SAID))
    rows = json.loads(tool("what-if", *words, "--json")[1])["cases"]
    seen = [(row["case"], row["kind"], row["mending"], row["gone"], row["calm"]) for row in rows]
    right: list[Any] = [
        ("duct 7", "own", ["connect a x", "connect a c"], [], True),
        ("site b", "own", ["restart b", "connect a b", "connect b c", "connect b x"], [], True),
        ("work at x", "own", ["circuit ca on", "priority x xa 10"], [], True),
    ]
    yield compare("what-if --cases, mended", seen, right)
    rows = json.loads(tool("what-if", *words, "--kinds", "session", "--json")[1])["cases"]
    yield compare("what-if --cases --kinds", [row["kind"] for row in rows], ["session"] * 5 + ["own"] * 3)
    lines = tool("what-if", *words[:-2], "--jobs-for", "parallel")[1].splitlines()
    yield compare("what-if --cases --jobs-for", (len(lines), f"--cases {file} --time {file}" in lines[0]), (3, True))


# What a reader of files of JUnit makes of one: each test with its name, its class, and the kinds of what became of it.
READER = """
import json, sys, junitparser
suites = list(junitparser.JUnitXml.fromfile(sys.argv[1]))
counts = [(suite.tests, suite.failures, suite.errors, suite.skipped) for suite in suites]
tests = [(test.name, test.classname, [type(one).__name__ for one in test.result]) for suite in suites for test in suite]
print(json.dumps([counts, tests]))
"""


def read_by_junitparser(path: pathlib.Path, tests: list[tuple[str, str, list[str]]]) -> Iterator[Any]:
    """The same file as Debian's junitparser reads it."""
    done = run(["/usr/bin/python3", "-c", READER, path], path.parent, text=True)
    if "No module named 'junitparser'" in done.stderr:
        print("junitparser is missing (Debian: python3-junitparser), and the file of JUnit is not read by it")
        return
    failures = sum(len(found) for _, _, found in tests)
    right = [[[len(tests), failures, 0, 0]], [list(row) for row in tests]]
    yield compare("what-if --junit, read by junitparser", json.loads(done.stdout or "null"), right)


def read_by_pipelines(folder: pathlib.Path, file: pathlib.Path) -> Iterator[Any]:
    """A file of JUnit, and annotations."""
    file.write_text(TIMES + OWN.replace('"duct 7"', '"duct <7>, 100%: é"'), encoding="utf-8")
    words, path = [*WORDS, "--cases", file, "--time", file, "--expect", file], folder / "junit.xml"
    status, _, fault = tool("what-if", *words, "--junit", path, "--github")
    (suite,) = xml.etree.ElementTree.parse(path).getroot()
    counts = {key: suite.get(key) for key in ("tests", "failures", "errors")}
    failed = [(test.get("name"), test.get("classname"), len(test)) for test in suite]
    names = ["duct <7>, 100%: é", "site b", "work at x"]
    right = [(name, f"spoke-moves.toml.{one}", int(name[:4] == "duct")) for name in names for one in ("quick", "patient")]
    yield compare("what-if --junit", (status, counts, failed), (3, {"tests": "6", "failures": "2", "errors": "0"}, right))
    messages = [failure.get("message") for test in suite for failure in test if isinstance(failure, Element)]
    yield compare("what-if --junit, messages", messages, [line.removeprefix("duct 7: ").rpartition(" (")[0] for line in OWN_SAID])
    yield from read_by_junitparser(path, [(*row[:2], ["Failure"] * row[2]) for row in right])
    lines = fault.splitlines()[1:]
    right_line = f"::error file={file},line=18,title=quick%2C duct <7>%2C 100%25%3A é::cx loses ca for 180.01 s (1 more site too), and within = \"3s\""
    yield compare("what-if --github", (len(lines), lines[0]), (2, right_line))


expectations = Part(
    "Expectations that are met and that are not, failures that somebody defines, and what pipelines read; and files that are none.",
    {
        **table(EXPECTED, lambda entry: entry[0], expected),
        "defined": lambda folder: defined(folder / "expect.toml"),
        "pipelines": lambda folder: read_by_pipelines(folder, folder / "expect.toml"),
        **table([("--expect", *row) for row in BAD] + [("--cases", *row) for row in BAD_CASES], lambda entry: f"refused {entry[2]}", refused),
        "github-alone": github_alone,
    },
)
