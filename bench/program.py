"""What the benches have in common: the program that they measure, its time and its instructions, and scenarios of full meshes."""

from __future__ import annotations

import os
import pathlib
import resource
import shutil
import subprocess
import sys
import tempfile
import time
from collections.abc import Sequence
from typing import NamedTuple, TypeVar

TOP = pathlib.Path(__file__).resolve().parent.parent
sys.path.insert(0, str(TOP / "tools"))
from rengahowi import writing  # noqa: E402
from rengahowi.program import measured, require_proved as require_proved  # noqa: E402
from rengahowi.stamp import is_there  # noqa: E402

Size = TypeVar("Size")
# With this word a bench runs at a small size, so that `tools/check benches` sees in seconds that it runs; what it prints tells nothing then.
SMALL = "--small"

# The program itself. `bin/vplsnet` looks for newer sources before each run, which would be measured too.
PROGRAM = measured()
TRIES = 5


def read_words(said: str | None) -> None:
    """Has a bench that takes no words end here with its text where it is given one, but for the word that asks for a small size."""
    words = sys.argv[1:]
    if words in ([], [SMALL]):
        return
    print((said or "").strip())
    sys.exit(0 if words[0] in ("-h", "--help") else 2)


def sized(whole: Size, small: Size) -> Size:
    """The size of a bench, or the small one."""
    return small if SMALL in sys.argv[1:] else whole


def program_of(name: str) -> str:
    """The path of the program of a crate."""
    return str(TOP / "crates" / name / "out" / name)


def build_beside(name: str, words: Sequence[str]) -> None:
    """Has `rt` prove and build the program of a crate, by a run with these words, where `rt ci` has not left it; where it is built, that only
    runs it."""
    if is_there(name):
        return
    made = subprocess.run(["rt", "run", "--", *words], cwd=TOP / "crates" / name, stdin=subprocess.DEVNULL, stdout=subprocess.DEVNULL, check=False)
    if made.returncode != 0:
        sys.exit(f"{pathlib.Path(sys.argv[0]).name}: there is no program to measure")


def full_mesh(count: int) -> str:
    """The text of a scenario with so many edges in full mesh of one service: a mesh wire joins each two of them, all are
    connected, and everything is delivered until nothing is left."""
    return set_up(writing.mesh(count, 0), [])


def set_up(rows: dict[str, list[dict[str, object]]], events: list[str]) -> str:
    """The text of a scenario of these rows, in which everything comes up before the events."""
    return writing.scenario(rows, writing.connected(rows) + events)


class Run(NamedTuple):
    """How a command ran: the seconds from its start to its end, what the system counted of it, the most memory in octets that it held,
    where that was looked at, and what it wrote, where that is in no file."""

    spent: float
    usage: resource.struct_rusage
    held: int
    output: bytes

    def used(self) -> float:
        """The seconds of the processor."""
        return self.usage.ru_utime + self.usage.ru_stime


def run(
    words: Sequence[str], output: str = os.devnull, status: int = 0, told: str | None = None, watched: bool = False, folder: str | None = None
) -> Run:
    """Runs a command with its standard output in a file, or with "" in hand. It has to end with this status, and, where one is given, with
    this line on standard error. Where it is watched, its memory is looked at each millisecond."""
    with tempfile.TemporaryFile() as said, tempfile.TemporaryFile() if output == "" else open(output, "wb") as out:
        start = time.perf_counter()
        child = subprocess.Popen(words, stdin=subprocess.DEVNULL, stdout=out, stderr=said, cwd=folder)
        held, ended = 0, 0
        while watched and ended == 0:
            held = max(held, held_by(child.pid))
            time.sleep(0.001)
            ended, how, usage = os.wait4(child.pid, os.WNOHANG)
        if not watched:
            _, how, usage = os.wait4(child.pid, 0)
        spent = time.perf_counter() - start
        child.returncode = os.waitstatus_to_exitcode(how)
        said.seek(0)
        line = said.read().decode(errors="replace").strip()
        if child.returncode != status or told is not None and line != told:
            sys.exit(f"{pathlib.Path(sys.argv[0]).name}: {' '.join(map(str, words))} ended with status {child.returncode}: {line}")
        if output != "":
            return Run(spent, usage, held, b"")
        out.seek(0)
        return Run(spent, usage, held, out.read())


def held_by(process: int) -> int:
    """The most memory in octets that a process has held; 0 where it has ended. (What the system tells of one that has ended has in it
    what its parent held.)"""
    try:
        with open(f"/proc/{process}/status", encoding="ascii") as told:
            return max((int(line.split()[1]) * 1024 for line in told if line.startswith("VmHWM:")), default=0)
    except OSError:
        return 0


def best_time(words: Sequence[str], output: str = os.devnull, status: int = 0, tries: int = TRIES) -> float:
    """The best time in seconds of a few runs of a command, each of which has to end with this status."""
    return min(run(words, output, status).spent for _ in range(tries))


def best_replay(path: str, report: str) -> float:
    """The best time in seconds of a few replays of a scenario, whose report stands in the file `report` then."""
    return best_time([PROGRAM, "replay", path], report)


def counts_instructions() -> bool:
    """Whether instructions can be counted here; says so where they cannot."""
    if shutil.which("valgrind") is None:
        print("instructions are not counted: there is no valgrind")
        return False
    return True


def instructions(path: str, report: str) -> int:
    """How many instructions a replay of a scenario takes; its report stands in the file `report` then."""
    return counted([PROGRAM, "replay", path], report)


def counted(words: Sequence[str], output: str, statuses: Sequence[int] = (0,)) -> int:
    """How many instructions a command takes, as `valgrind` counts them. What it writes stands in the file `output` then. It has to end with
    one of these statuses."""
    call = ["valgrind", "--tool=callgrind", f"--callgrind-out-file={os.devnull}", *words]
    with open(output, "wb") as out:
        done = subprocess.run(call, stdin=subprocess.DEVNULL, stdout=out, stderr=subprocess.PIPE, text=True, errors="replace", check=False)
    found = [line.split(":")[1] for line in done.stderr.splitlines() if "Collected" in line]
    if done.returncode not in statuses or len(found) != 1:
        sys.exit(f"{pathlib.Path(sys.argv[0]).name}: valgrind ended with status {done.returncode}")
    return int(found[0])


def told_in(report: str) -> tuple[int, int, int]:
    """How many ends of wires are up at the end of a report, and how many messages and octets were said; each is a PDU."""
    ups = messages = octets = 0
    with open(report, encoding="ascii") as text:
        for line in text:
            if line.startswith("said "):
                messages += 1
                octets += len(line.split()[3]) // 2
            elif line.startswith("wire ") and line.endswith(" up\n"):
                ups += 1
    return ups, messages, octets


def message_cost(folder: str, rows: dict[str, list[dict[str, object]]]) -> tuple[int, float]:
    """How many messages are said as everything comes up in the network of these rows, and how many instructions one of them takes,
    without what it takes to read and to open the plan. Each wire is up at both ends then."""
    path, report = os.path.join(folder, "counted.toml"), os.path.join(folder, "counted")

    def counted(text: str) -> int:
        with open(path, "w", encoding="ascii") as out:
            out.write(text)
        return instructions(path, report)

    opened = counted(writing.scenario(rows, []))
    spent = counted(set_up(rows, []))
    ups, messages, _ = told_in(report)
    if ups != 2 * len(rows["wire"]):
        sys.exit(f"{pathlib.Path(sys.argv[0]).name}: {ups} of {2 * len(rows['wire'])} ends are up")
    return messages, (spent - opened) / messages
