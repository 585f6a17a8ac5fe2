"""The course of a case in which something is silent: ticks in which all others deliver and all else arrives, until the last hold time
has ended. Its events name packets by their numbers and deliveries one by one, so they are foretold, looked at in the report, and
foretold better where it shows something else."""

from __future__ import annotations

from .case_reading import Reading
from .command import Fault
from .event_kinds import ALL
from .scripts import HEAR
from .stale import stale

TYPE_CHECKING = False
if TYPE_CHECKING:
    import pathlib
    from typing import Any

    from .cases import Base
    from .failures import Case
    from .silence import Way
    from .watching import Watch

# So often the events are foretold anew at most, and with so many times the rounds where some were too few.
MOST_TRIES, MORE = 200, 4


class Course:
    """What is foretold of a case, and gets better with each report."""

    def __init__(self, base: Base, case: Case, rounds: int) -> None:
        self.base, self.case, self.rounds = base, case, rounds
        self.silence = case.silence(base.plan)
        self.ways: list[Way] = [way for way in base.probes.ways if way not in self.silence.ways]
        self.frames = base.probes.numbers_in("at once", self.silence.edges)
        self.first = base.packets + base.packets_before + 1
        self.arrivals, self.timers = base.arrivals.copy(), base.timers.copy()
        # Whether the timers are those behind the failure; the events of the ticks up to theirs, and of those behind them.
        self.is_begun = not case.switches
        self.done: list[str] = []
        self.next: list[str] = []
        # The ticks that have whole rounds though no hold time ends then, the tick at which one ends next, and whether it is the last.
        self.full: set[int] = set()
        self.end, self.is_last = 0, False
        # The Hellos that are said until then, by their ticks; where there are some, all are heard again before the mending.
        self.hears: dict[int, list[Way]] = {}
        self.mending = [*(f"{HEAR} {a} {b}" for a, b in sorted(self.silence.ways) if (a, b) in self.timers.hellos), *case.mending]

    def events(self) -> list[str]:
        """The events behind those of the set-up and the first phase."""
        events = [*self.case.switches, *self.at_once(), *(self.round() * self.rounds if self.case.switches else [])]
        if not self.is_begun:
            return events
        self.next = self.ticks()
        return [*events, *self.done, *self.next, *(self.base.probes.tail(None, self.mending, self.rounds, self.silence.edges) if self.is_last else [])]

    def round(self) -> list[str]:
        """One delivery on each way that is not silent."""
        return [f"deliver {a} {b} {ALL}" for a, b in self.ways]

    def at_once(self) -> list[str]:
        """The phase behind the failure: what is sent on a silent way is lost."""
        probes, number, events = self.base.probes, self.first, []
        for frame in self.frames:
            more, number = self.arrivals.events(frame, self.silence.ways, number)
            events += [probes.event(probes.frames["at once"][frame]), *more]
        return events

    def ticks(self) -> list[str]:
        """The ticks until the next hold time ends, with the KeepAlives until then, and whole rounds at its end."""
        timers, waiting = self.timers, [end for end in self.timers.ends if end[::-1] in self.silence.ways]
        self.is_last = True
        if not waiting:
            return []
        self.end = max(timers.tick + 1, min(map(timers.expiry, waiting)))
        # Where all that wait end then it is the last one, as the report has to show.
        self.is_last = all(timers.expiry(end) <= self.end for end in waiting)
        due, self.hears = timers.keepalives(self.end, self.ways), timers.hears(self.end, self.ways)
        due.update((tick, due.get(tick, [])) for tick in (*self.full, *self.hears, self.end) if timers.tick < tick <= self.end)
        events, tick = [], timers.tick
        for at, ways in sorted(due.items()):
            events += [f"tick {at - tick}", *(f"{HEAR} {a} {b}" for a, b in self.hears.get(at, []))]
            events += self.round() * self.rounds if at in self.full or at == self.end else [f"deliver {a} {b} {ALL}" for a, b in ways]
            tick = at
        return events

    def is_right(self, watch: Watch, lines: list[str], is_late: bool) -> bool:
        """Whether a report of these events is as it was foretold, and all was delivered in the rounds that they have; else more is known
        now."""
        if self.arrivals.learn(lines, self.frames, self.first):
            return False
        if watch.undelivered is not None and self.mend(watch.undelivered):
            return False
        if is_late and self.mend(self.end):
            return False
        if self.is_begun and self.is_last and not watch.leaks and not watch.waiting:
            return True
        if not self.is_begun:
            self.is_begun = True
        else:
            self.done, self.next = self.done + self.next, []
        adjacencies = self.timers
        for tick, ways in self.hears.items():
            for way in ways:
                adjacencies.hear(way, tick)
        self.timers, self.hears = watch.timers, {}
        self.timers.adjacencies = adjacencies.adjacencies
        return False

    def mend(self, tick: int) -> bool:
        """Has more delivered in a tick that had less than there was; answers whether it can have."""
        if tick in (0, self.end) or tick in self.full:
            if self.rounds >= self.base.most_rounds:
                return False
            self.rounds = min(self.rounds * MORE, self.base.most_rounds)
        else:
            self.full.add(tick)
        return True


    def stale(self, folder: str | pathlib.Path, reading: Reading) -> list[dict[str, Any]]:
        """What is learned that leads astray when all is delivered, but for the stations behind dead edges and what these have learned;
        its ticks count from the failure."""
        base, plan = self.base, self.base.plan
        tables = base.tables_of(folder, [*self.case.switches, *self.at_once(), *self.done, *self.next])
        stations = {site: base.probes.station[site] for site, row in plan.circuits.items() if row["edge"] not in self.silence.edges}
        found = stale(plan, tables, stations, *reading.standing)
        return [{**row, "tick": row["tick"] - base.ticks} for row in found if row["edge"] not in self.silence.edges]


def try_silent(base: Base, case: Case, folder: str | pathlib.Path, rounds: int) -> tuple[Reading, list[str], list[str]]:
    """What became of a case in which something is silent, the report's lines behind those that all cases begin with, and the events
    that they are of."""
    course = Course(base, case, min(rounds, base.most_rounds))
    for _ in range(MOST_TRIES):
        events = course.events()
        lines = base.lines_of(case.name, folder, events)
        reading = Reading(base, case, course.rounds, "at once").read(lines)
        if reading.watch is not None and course.is_right(reading.watch, lines, reading.pace.is_late):
            reading.stale = course.stale(folder, reading)
            return reading, lines, events
    raise Fault(f"{case.name}: what happens in it cannot be foretold")
