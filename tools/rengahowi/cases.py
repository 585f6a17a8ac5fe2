"""Runs the cases of a plan: what all of them begin with once, and each case by one call of the program."""

from __future__ import annotations

import pathlib
import tempfile
from typing import NamedTuple

from .arrivals import Arrivals
from .called import called, replayed
from .case_reading import Reading
from .command import Fault
from .course import try_silent
from .failures import Case
from .frames import follow
from .probing import Probes
from .report import read_report
from .settle_bound import bound_at_end
from .splicing import Spliced
from .stale import Tables
from .timers import timers_behind

TYPE_CHECKING = False
if TYPE_CHECKING:
    from .clock import Times
    from .plan import Plan
    from .scripts import Script

# Rounds that are tried first, and behind a failure that takes more.
FIRST_ROUNDS, MORE = 8, 4


class Tried(NamedTuple):
    """A case that was tried: what became of it, and its report's lines and its events, without those that all cases begin with."""

    reading: Reading
    lines: list[str]
    events: list[str]


class Base:
    """What all cases begin with: the plan, the network behind its set-up, and the report up to the failure."""

    def __init__(self, plan: Plan, text: str, events: list[str], times: Times | None = None, script: Script | None = None) -> None:
        self.plan, self.probes, self.events, self.script = plan, Probes(plan), list(events), script
        self.times, self.arrivals = times, Arrivals()
        self.spliced = Spliced(text)
        self.sites = {name: plan.circuits_of(row["service"]) for name, row in plan.circuits.items()}
        with tempfile.TemporaryDirectory(prefix="what-if-") as folder:
            path = pathlib.Path(folder, "set-up.toml")
            octets = self.replay(path, [*self.events, *self.probes.rest()])
            path.with_suffix(".txt").write_bytes(octets)
            report = read_report(path.with_suffix(".txt"), plan)
            run = follow(plan, report)
            self.network, self.joined, self.report = run.network, run.joined, report
            self.probes.set_up, self.probes.bits = bound_at_end(plan, report), dict(run.network.switches.bits)
            self.packets = packets_in(octets)
            self.calm = [name for name in plan.services if run.network.is_calm(name)]
            before = self.replay(path, self.probes.before(self.events))
        front = without_end(octets)
        if not before.startswith(front):
            raise Fault("the report of the set-up differs from call to call")
        self.front = without_end(before)
        self.before = Reading(self, Case("", "", (), ()), 1, "before").read(self.front[len(front) :].decode().splitlines()).found["before"]
        self.packets_before = packets_in(before) - self.packets
        self.most_rounds = self.probes.most_rounds(len(self.events))
        self.timers = timers_behind(plan, report, self.network, script)
        self.ticks = octets.count(b"\n> tick")

    def foretell(self) -> None:
        """Looks at what each packet makes that the frames of the second phase come to, where nothing fails."""
        with tempfile.TemporaryDirectory(prefix="what-if-") as folder:
            lines = self.lines_of("no failure", folder, self.probes.phase("at once"))
        self.arrivals.learn(lines, self.probes.numbers_in("at once"), self.packets + self.packets_before + 1)

    def replay(self, path: pathlib.Path, events: list[str]) -> bytes:
        """The report of the set-up with these events in the place of its own, or behind the script."""
        if self.script is not None:
            path.write_text(self.spliced.with_events([]), encoding="utf-8")
            path.with_suffix(".discover").write_text(self.script_of(events), encoding="utf-8")
            return called("discover", path, path.with_suffix(".discover"))
        path.write_text(self.spliced.with_events(events), encoding="utf-8")
        return replayed(path)

    def set_up_text(self) -> str:
        """A scenario that comes to what all cases begin with but for frames: of a script by the events that its lines came to."""
        made = [line[2:] for line in self.report.lines if line.startswith("> ")] if self.script is not None else None
        return self.spliced.with_events([*self.events, *self.probes.rest(self.probes.set_up)] if made is None else made)

    def script_of(self, events: list[str]) -> str:
        """The text of the script with these events behind its own lines."""
        return "".join(f"{line}\n" for line in self.script.with_events(events)) if self.script is not None else ""

    def all_events(self, events: list[str]) -> list[str]:
        """These events behind the set-up and the first phase."""
        return [*self.probes.before(self.events), *events]

    def lines_of(self, name: str, folder: str | pathlib.Path, events: list[str]) -> list[str]:
        """The report's lines of these events, behind those that all cases begin with."""
        octets = self.replay(pathlib.Path(folder, "case.toml"), self.all_events(events))
        if not octets.startswith(self.front):
            raise Fault(f"{name}: its report does not begin as the others do")
        return octets[len(self.front) :].decode().splitlines()

    def tables_of(self, folder: str | pathlib.Path, events: list[str]) -> Tables:
        """The tables of the network behind these events."""
        path, events = pathlib.Path(folder, "tables.toml"), self.all_events(events)
        if self.script is not None:  # whose report has the events that its lines came to
            events = [line[2:] for line in self.replay(path, events).decode().splitlines() if line.startswith("> ")]
        path.write_text(self.spliced.with_events(events), encoding="utf-8")
        return Tables(called("tables", path).decode())

    def try_case(self, case: Case, folder: str | pathlib.Path, rounds: int = FIRST_ROUNDS) -> Tried:
        """What became of a case; with more rounds, where these left something to deliver."""
        rounds = min(rounds, self.most_rounds)
        if case.silence(self.plan):
            return Tried(*try_silent(self, case, folder, rounds))
        events = self.probes.after(case, rounds)
        lines = self.lines_of(case.name, folder, events)
        reading = Reading(self, case, rounds, "at once").read(lines)
        if reading.pace.is_late and rounds < self.most_rounds:
            return self.try_case(case, folder, rounds * MORE)
        return Tried(reading, lines, events)


def packets_in(octets: bytes) -> int:
    """How many packets a report has numbered."""
    return octets.count(b"\nsent ") + octets.count(b"\ncopied ")


def without_end(octets: bytes) -> bytes:
    """A report without its last line."""
    return octets[: octets.rfind(b"\n", 0, -1) + 1]
