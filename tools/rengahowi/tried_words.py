"""The checks of what all tools share: their help, files that are none, and a standard output that is closed or full."""

from __future__ import annotations

import pathlib
import shlex

from .rows import Part, table
from .trying import TOP, compare, run, tool

TYPE_CHECKING = False
if TYPE_CHECKING:
    from collections.abc import Iterator
    from typing import Any

EXAMPLES = TOP / "examples"
TOOLS = ["summary", "picture", "ladder", "to-pcap", "from-pcap", "make-plan", "from-config", "from-frr", "from-netbox", "to-config", "to-frr", "speak", "lab", "from-lab", "check-scenario", "what-if", "tables-at", "where", "ldp", "to-version-2"]


def help_of(_folder: pathlib.Path, name: str) -> Iterator[bool]:
    """A tool says what it does and that it is no part of what is proved; a word too few is a usage."""
    status, said, fault = tool(name, "--help")
    yield compare(f"{name} --help", (status, "no part of what is proved" in said, fault), (0, True, ""))
    status, said, fault = tool(name)
    yield compare(f"{name} without words", (status, said, "usage" in fault and "Traceback" not in fault), (2, "", True))


helped = Part("Each tool says what it does and that it is no part of what is proved; a word too few is a usage.", table(TOOLS, str, help_of))


def no_report(folder: pathlib.Path, number: int) -> Iterator[bool]:
    """A scenario that is none, or a report that is none, is cut, or is of another scenario."""
    paths = {name: folder / name for name in ("binary", "text", "cut", "other")}
    paths["binary"].write_bytes(b"\xff\xfe")
    paths["text"].write_text("no scenario, and no report\n", encoding="utf-8")
    whole_report = (EXAMPLES / "hierarchy.txt").read_text(encoding="utf-8")
    paths["cut"].write_text(whole_report[:-40], encoding="utf-8")
    paths["other"].write_text("vplsnet 1\n> connect a q\nend events=1\n", encoding="utf-8")
    good = EXAMPLES / "hierarchy.toml"
    pairs = [(folder / "none", good, "No such file"), (paths["binary"], good, "no UTF-8"), (paths["text"], good, "check-scenario")]
    pairs += [(good, paths["text"], "'vplsnet 1'"), (good, paths["cut"], "not whole")]
    pairs += [(good, paths["other"], "line 2: the scenario has no edge 'q'")]
    scenario, report, words = pairs[number]
    for name, more in (("summary", ()), ("ladder", ()), ("to-pcap", (folder / "out.pcapng",))):
        status, said, fault = tool(name, scenario, report, *more)
        yield compare(f"{name} {scenario.name} {report.name}", (status, said, words in fault, fault.count("\n")), (1, "", True, 1))


def no_scenario(folder: pathlib.Path, name: str) -> Iterator[bool]:
    """A tool that reads a scenario alone tells one that is none in a line."""
    for path, octets in ((folder / "none", None), (folder / "binary", b"\xff\xfe"), (folder / "text", b"no scenario, and no report\n")):
        if octets is not None:
            path.write_bytes(octets)
        status, said, fault = tool(name, path)
        right = (1, 1, 0) if (name, path.name) == ("check-scenario", "text") else (1, 0, 1)
        yield compare(f"{name} {path.name}", (status, said.count("\n"), fault.count("\n")), right)


def no_folder(folder: pathlib.Path) -> Iterator[bool]:
    """A capture that cannot be written."""
    status, said, fault = tool("to-pcap", EXAMPLES / "hierarchy.toml", EXAMPLES / "hierarchy.txt", folder / "none" / "out.pcapng")
    yield compare("to-pcap into no folder", (status, "No such file" in fault), (1, True))


PAIRS = ("scenario missing", "scenario binary", "scenario text", "report text", "report cut", "report of another scenario")
bad_files = Part(
    "A missing file, one that is no UTF-8, a scenario that is none, a report that is none, is cut, or is of another scenario.",
    {
        **table(range(len(PAIRS)), lambda number: PAIRS[number], no_report),
        **table(("picture", "check-scenario", "to-version-2"), str, no_scenario),
        "no-folder": no_folder,
    },
)


def calls(folder: pathlib.Path) -> list[list[str]]:
    """Calls of tools that write to standard output."""
    files, scenario = [str(EXAMPLES / f"frames-cross.{kind}") for kind in ("toml", "txt")], str(EXAMPLES / "frames-cross.toml")
    configuration = str(EXAMPLES / "configs" / "frr" / "mesh" / "pe1.conf")
    made = [["summary", *files], ["summary", "--json", *files], ["ladder", *files], ["to-pcap", *files, str(folder / "x")]]
    made += [["picture", "--dot", scenario], ["check-scenario", scenario], ["make-plan", "mesh", "2"], ["from-config", configuration]]
    made += [["what-if", scenario, "--kinds", "session"], ["what-if", scenario, "--jobs-for", "parallel"]]
    made += [["what-if", scenario, "--kinds", "session", "--sites"], ["what-if", scenario, "--kinds", "session", "--sweep", "age=9"]]
    made += [["tables-at", scenario, "end"], ["where", scenario, "end", "lyon", "ffffffffffff"], ["summary", "--audit", *files]]
    return made + [[name, "--help"] for name in TOOLS]


def not_written(folder: pathlib.Path, number: int) -> Iterator[bool]:
    """A standard output that is closed or full is told in one line."""
    call = calls(folder)[number]
    for to, right in ((">&-", "closed"), (">/dev/full", "No space left on device")):
        done = run(["bash", "-c", f"{shlex.join([str(TOP / 'tools' / call[0]), *call[1:]])} {to}"], folder, text=True)
        fault = done.stderr.splitlines()[-1:]
        seen = (done.returncode, right in "".join(fault), "Traceback" in done.stderr)
        yield compare(f"{' '.join(call)} {to}", seen, (1, True, False))


def words_of(number: int) -> str:
    """The tool of a call, with its options."""
    return " ".join(word for place, word in enumerate(calls(pathlib.Path())[number]) if not place or word.startswith("--"))


closed = Part("A standard output that is closed or full is told in one line, whatever a tool writes there.", table(range(len(calls(pathlib.Path()))), words_of, not_written))
