"""The proof of the programs: every crate that they stand on, several beside each other, and then the programs themselves, which that builds."""

from __future__ import annotations

import os
import pathlib
import re
import subprocess
import sys
import time

from .command import say

TYPE_CHECKING = False
if TYPE_CHECKING:
    from collections.abc import Callable, Iterable
    from typing import Any

TOP = pathlib.Path(__file__).resolve().parent.parent.parent
CRATES = TOP / "crates"
# The programs of bin/, each with the words by which it is run once it is built.
PROGRAMS: dict[str, list[str]] = {"vplsnet_program": ["decode", os.devnull], "vplsnet_survey_program": ["data/four.toml"]}
LOGS = CRATES / "vplsnet_program" / "out" / "build"
# What one prover may take of memory, in octets.
ROOM = 4 << 30
# How many processors one prover uses at most.
MOST_JOBS = 4
# How often it is looked at, and how often it is told, in seconds.
LOOK, TELL = 0.5, 30
# What proving everything has taken, in minutes of one processor, and what the estimate adds for processors that wait for a crate below.
WHOLE, WAITING = 120, 1.15
# What a prover says of how far it is.
SO_FAR = re.compile(rb"^so far: (\d+) of (\d+) functions", re.M)
# The part behind which an estimate is what the minutes gone say, and no longer what proofs took elsewhere.
KNOWN = 0.2


def layers() -> dict[str, list[str]]:
    """The crates of this repository that each crate stands on."""
    rows = [line.split("#")[0].partition(":") for line in (TOP / "crates.txt").read_text(encoding="utf-8").splitlines()]
    below = {front.split()[0]: behind.split() for front, colon, behind in rows if colon}
    return {name: [it for it in names if it in below] for name, names in below.items()}


def programs() -> list[str]:
    """The crates that are programs."""
    return [name for name in layers() if (CRATES / name / "src" / "main.rt").exists()]


def all_below(below: dict[str, list[str]], names: Iterable[str]) -> list[str]:
    """These crates, and all that they stand on, each once."""
    found = list(names)
    for it in found:
        found += [other for other in below[it] if other not in found]
    return found


def slots() -> int:
    """How many provers run at a time: one a processor, as far as memory allows."""
    free = re.search(r"MemAvailable: *(\d+) kB", pathlib.Path("/proc/meminfo").read_text(encoding="ascii"))
    return max(1, min(len(os.sched_getaffinity(0)), int(free[1]) * 1024 // ROOM if free else 1))


def minutes_here() -> int:
    """About how long the whole proof takes on this machine, in minutes."""
    return round(WHOLE / slots() * WAITING)


class Crate:
    """A crate, its size as a measure of its proof, and its prover once it runs."""

    def __init__(self, name: str, below: list[str]) -> None:
        self.name, self.below = name, below
        files = [path for part in ("src", "specs", "proofs") for path in (CRATES / name / part).rglob("*.*t")]
        texts = [path.read_text(encoding="utf-8", errors="replace") for path in files]
        self.size = 1 + sum(text.count("\n") for text in texts)
        self.functions = 1 + sum(len(re.findall(r"\bfn \w", text)) for path, text in zip(files, texts) if path.suffix == ".rt")
        self.log, self.jobs, self.is_done = LOGS / f"{name}.log", 0, False
        self.prover: subprocess.Popen[Any] | None = None
        # What an earlier call has kept takes no time that counts.
        self.left = 1 if (CRATES / name / "out" / "rlib" / "stamp").exists() else self.size

    def start(self, jobs: int) -> None:
        """Starts its prover: that of a program builds it too, and runs it."""
        words = ["rt", "run", "--", *PROGRAMS[self.name]] if self.name in PROGRAMS else ["rt", "lib", "--jobs", str(jobs)]
        self.jobs = jobs
        with open(self.log, "wb") as out:
            self.prover = subprocess.Popen(words, cwd=CRATES / self.name, stdin=subprocess.DEVNULL, stdout=out, stderr=out)

    def is_running(self) -> bool:
        """Whether it is being proved."""
        return self.prover is not None and not self.is_done

    def has_failed(self) -> bool:
        """Whether its prover has ended, and not well."""
        status = None if self.prover is None else self.prover.poll()
        self.is_done = status is not None
        return self.is_done and status != 0

    def part_done(self) -> float:
        """Which part of it is proved, by the functions that its file counts or names."""
        if not self.is_running():
            return float(self.is_done)
        text = self.log.read_bytes()
        counted = SO_FAR.findall(text)
        part = int(counted[-1][0]) / max(1, int(counted[-1][1])) if counted else text.count(b": proved\n") / self.functions
        return min(0.95, part)


class Proof:
    """The proof of all crates."""

    def __init__(self) -> None:
        below = layers()
        self.crates = [Crate(name, below[name]) for name in all_below(below, PROGRAMS)]
        self.by_name = {crate.name: crate for crate in self.crates}
        self.slots, self.begun, self.told = slots(), time.monotonic(), 0.0
        self.share = sum(crate.left for crate in self.crates) / sum(crate.size for crate in self.crates)
        self.first = WHOLE * self.share / self.slots * WAITING

    def announce(self) -> None:
        """Says what is coming."""
        kept = sum(crate.left < crate.size for crate in self.crates)
        what = f"{len(self.crates) - kept} of {len(self.crates)} crates, of which the others are kept" if kept else f"{len(self.crates)} crates"
        say(f"proving {what}: some {round(WHOLE * self.share)} minutes of processor, about {round(self.first)} here, with {self.slots} at a time")
        say("ending it keeps what is proved, and the next call goes on from there; meanwhile bin/vplsnet answers unproved")

    def running(self) -> list[Crate]:
        """The crates that are being proved."""
        return [crate for crate in self.crates if crate.is_running()]

    def behind(self, crate: Crate) -> int:
        """The size of the longest chain of crates that wait for this one, with its own."""
        above = [other for other in self.crates if crate.name in other.below]
        return crate.size + max((self.behind(other) for other in above), default=0)

    def start_ready(self) -> None:
        """Starts crates whose lower ones are done, those with most behind them first, as far as there are processors."""
        spare = self.slots - sum(crate.jobs for crate in self.running())
        ready = [it for it in self.crates if it.prover is None and all(self.by_name[name].is_done for name in it.below)]
        ready.sort(key=self.behind, reverse=True)
        for place, crate in enumerate(ready):
            if spare < 1:
                return
            jobs = min(MOST_JOBS, max(1, spare // (len(ready) - place)))
            crate.start(jobs)
            spare -= jobs

    def minutes_left(self, gone: float) -> int:
        """About how many minutes are left, behind so many that are gone: first by what proofs took elsewhere, and more and more by what
        they take here."""
        part = sum(crate.left * crate.part_done() for crate in self.crates) / sum(crate.left for crate in self.crates)
        known = min(1.0, part / KNOWN)
        whole = known * gone / part + (1 - known) * self.first if part > 0 else self.first
        return round(whole * (1 - part))

    def tell(self) -> None:
        """Tells how far it is."""
        self.told = time.monotonic()
        gone, done = (self.told - self.begun) / 60, sum(crate.is_done for crate in self.crates)
        names = ", ".join(crate.name for crate in self.running())
        say(f"{done} of {len(self.crates)} crates proved, now {names}; {int(gone)} minutes gone, about {self.minutes_left(gone)} left")

    def end(self) -> None:
        """Ends all provers. What one of them has started ends with it."""
        provers = [crate.prover for crate in self.running() if crate.prover is not None]
        for prover in provers:
            prover.terminate()
        for prover in provers:
            try:
                prover.wait(5)
            except subprocess.TimeoutExpired:
                prover.kill()

    def run(self, is_built: Callable[[str], object]) -> bool:
        """Proves all crates, and answers whether all are proved. Of each program it is told once that is proved and built."""
        known, built = -1, set[str]()
        while not all(crate.is_done for crate in self.crates):
            self.start_ready()
            done = sum(crate.is_done for crate in self.crates)
            if done > known or time.monotonic() - self.told > TELL:
                self.tell()
                known = done
            time.sleep(LOOK)
            failed = [crate for crate in self.running() if crate.has_failed()]
            for name in PROGRAMS:
                if self.by_name[name].is_done and name not in built and self.by_name[name] not in failed:
                    built.add(name)
                    is_built(name)
            if failed:
                sys.stderr.write(failed[0].log.read_text(encoding="utf-8", errors="replace"))
                say(f"{failed[0].name} is not proved; {failed[0].log} has what was said")
                return False
        return True
