"""What became of a case: its report read in one pass, from where it differs from those of other cases."""

from __future__ import annotations

from collections import Counter
from typing import NamedTuple

from .losses import Losses
from .pace import Pace
from .probing import PHASES
from .reached import apart, reach_of, reached
from .sound import why_not_sound, without_label
from .watching import Watch

TYPE_CHECKING = False
if TYPE_CHECKING:
    from typing import Any

    from .cases import Base
    from .failures import Case
    from .probing import Frame

NOTHING: dict[str, int] = {}
# What may be wrong with a frame: it never comes to a site, comes there twice, or comes back to where it entered.
KINDS = ("never", "twice", "back")
# Lines of packets, and what a script tells of Hellos.
SKIPPED = {"sen", "> a", "dro", "hel", "adj", "bar"}
# The phase that is settled while the failure stands, and those in which a failure stands: dead edges let no frame enter then.
SETTLED, STANDS = "failed", ("at once", "failed")


class Faulty(NamedTuple):
    """A frame that something is wrong with: its number among those that came, its phase, where it entered, and the sites at which it
    never left, left twice, or left though it entered there."""

    number: int
    phase: str
    circuit: str
    never: list[str]
    twice: list[str]
    back: list[str]


class Reading:
    """A report behind the set-up or the first phase: each frame of a phase, and when edges lost and found each other."""

    def __init__(self, base: Base, case: Case, rounds: int, phase: Any) -> None:
        self.base, self.case, self.rounds = base, case, rounds
        self.network, self.silence = base.network.copy(), case.silence(base.plan)
        self.pace = Pace(base, self.silence, len(case.switches), rounds)
        self.losses = Losses(base, self.network, self.silence)
        self.watch = Watch(self.network, self.silence, base.timers) if self.silence else None
        # The phase, how many of its frames have come, and the frames of each.
        self.phase, self.place = PHASES.index(phase), 0
        self.frames_of = {name: base.probes.frames_in(name, self.silence.edges if name in STANDS else ()) for name in PHASES}
        self.found: dict[str, dict[str, Counter[str]]] = {name: {kind: Counter() for kind in KINDS} for name in PHASES[self.phase :]}
        # The frame that is tried: the circuits that it is due at, and how often it left at each.
        self.frame: Frame | None = None
        self.due, self.left = NOTHING, dict[str, int]()
        # How many frames have come, and those that something is wrong with: their number, and the sites.
        self.frames = 0
        self.faulty: list[Faulty] = []
        # The last round of each stage in which something was delivered, and from whom to whom something of LDP was.
        self.last = {"failed": 0, "mended": 0}
        self.ways: dict[str, dict[tuple[str, str], None]] = {"failed": {}, "mended": {}}
        # Whom the settled failure reaches, and whether each broadcast of that phase went so.
        self.settled: list[dict[str, Any]] = []
        self.is_as_settled = True
        # Which edges reached each other, and which wires carried frames, before the mending; and what was learned that leads astray then.
        self.standing: tuple[dict[str, set[Any]], set[str]] = {}, set()
        self.stale: list[dict[str, Any]] = []
        self.is_in_tick = False
        self.losses.begin(self.pace.when(self.network))

    def read(self, lines: list[str]) -> Reading:
        """Reads the lines of the report. Of packets nothing is looked at but where their frames leave."""
        event: str | None = None
        entries: list[str] = []
        for line in lines:
            start = line[:3]
            if start in SKIPPED or start == "> d" and line.startswith("> drop "):
                continue
            if start == "lef":
                circuit = line.split(" ", 2)[1]
                self.left[circuit] = self.left.get(circuit, 0) + 1
            elif start[:1] == ">":
                if event is not None:
                    self.control(event, entries)
                    event = None
                self.end_frame()
                if start == "> f":
                    self.next_frame()
                else:
                    event, entries = line[2:], []
            elif start == "in ":
                self.enter()
            elif event is not None:
                entries.append(line)
        if event is not None:
            self.control(event, entries)
        self.end_frame()
        if self.watch is not None:
            self.watch.end()
        return self

    def next_frame(self) -> None:
        """The next frame of a phase comes, or the first one of a later phase."""
        frames = self.frames_of[PHASES[self.phase]]
        while self.place == len(frames):
            self.phase, self.place = self.phase + 1, 0
            frames = self.frames_of[PHASES[self.phase]]
            if PHASES[self.phase] == SETTLED:
                self.settle()
        self.frame = frames[self.place]
        self.place, self.frames = self.place + 1, self.frames + 1

    def settle(self) -> None:
        """Whom each site reaches while the failure stands, now that nothing is on its way; and whether that is as sound wires decide it."""
        if self.watch is not None:
            self.watch.end()
        network, plan = self.network, self.base.plan
        for service in plan.services:
            rows = apart(plan, reach_of(network, service), [site for site in network.sites(service) if self.lives(site)])
            why_not, no_label = why_not_sound(network, service), without_label(network, service)
            self.is_as_settled = self.is_as_settled and not no_label
            if rows or why_not or no_label:
                row = {"service": service, "sound": not why_not, "why_not_sound": why_not, "no_label": no_label, "apart": rows}
                self.settled.append(row)

    def enter(self) -> None:
        """It enters: its circuit is on."""
        on, frame = self.network.on, self.frame
        if frame is None:
            return
        if frame.to is None:
            sites = self.base.sites[frame.circuit]
            self.due = {site: 1 for site in sites if on[site] and site != frame.circuit and self.lives(site)}
        else:
            self.due = {frame.to: 1} if on[frame.to] and self.lives(frame.to) else NOTHING

    def lives(self, site: str) -> bool:
        """Whether a site's edge is not dead."""
        return self.pace.is_mended or self.base.plan.circuits[site]["edge"] not in self.silence.edges

    def end_frame(self) -> None:
        """What became of the frame before."""
        frame = self.frame
        if frame is not None and frame.to is None and PHASES[self.phase] == SETTLED:
            self.compare(frame.circuit)
        if frame is not None and self.left != self.due:
            never = [site for site in self.due if site not in self.left]
            twice = [site for site, count in self.left.items() if count > 1 and site != frame.circuit]
            back = [frame.circuit] if frame.circuit in self.left else []
            for kind, sites in zip(KINDS, (never, twice, back)):
                self.found[PHASES[self.phase]][kind].update(sites)
            if never or twice or back:
                self.faulty.append(Faulty(self.frames, PHASES[self.phase], frame.circuit, never, twice, back))
        self.frame, self.due, self.left = None, NOTHING, {}

    def compare(self, circuit: str) -> None:
        """Whether the broadcast of a circuit left once at each site that it reaches, and nowhere else."""
        plan = self.base.plan
        service = plan.circuits[circuit]["service"]
        sites = self.network.sites(service)
        due = reached(plan, reach_of(self.network, service), sites, circuit) if circuit in sites else []
        self.is_as_settled = self.is_as_settled and self.left == dict.fromkeys(due, 1)

    def control(self, text: str, lines: list[str]) -> None:
        """An event of LDP or of a switch, with its entries."""
        words = text.split(" ")
        self.count(words)
        if lines == ["idle"]:
            return
        self.begin(words)
        self.network.apply(words[0], words[1:])
        for line in lines:
            kind, *more = line.split(" ")
            self.network.tell(kind, more)
            if kind in ("said", "session"):
                self.say((more[0], more[1]))
            if kind in ("session", "wire"):
                self.pace.tell(more)
        if self.network.told:
            wires = self.network.changes()
            self.network.change(wires)
            self.losses.compare({wire.service for wire in wires}, self.pace.when(self.network, wires))

    def count(self, words: list[str]) -> None:
        """In which tick and round an event stands."""
        if words[0] == "deliver":
            self.pace.deliver((words[1], words[2]))
        elif words[0] == "tick":
            self.tick()
            self.is_in_tick = False
        elif words[0] == "lose" and self.base.script is not None and self.watch is not None and not self.watch.is_over and self.pace.is_behind():
            self.tick()
            self.is_in_tick = True
        elif self.pace.switch(" ".join(words) == self.case.mending[0] if self.case.mending else False):
            if self.watch is not None:
                self.watch.end()
            self.standing = dict(self.losses.joined), self.network.carrying - self.losses.hidden
            self.losses.mend(self.pace.when(self.network))

    def tick(self) -> None:
        """A tick begins: with the adjacencies that end in it, where a script has Hellos, and else by itself."""
        if not self.is_in_tick:
            self.pace.ticks()
            if self.watch is not None:
                self.watch.tick()

    def begin(self, words: list[str]) -> None:
        """An event that applies begins: who hears something, and whose end is gone."""
        if words[0] == "deliver":
            way, stage = (words[1], words[2]), self.pace.stage()
            self.last[stage] = self.pace.round
            self.ways[stage][way] = None
            self.pace.hear(way)
            if self.watch is not None:
                self.watch.deliver(way)
        elif words[0] == "lose":
            self.say((words[1], words[2]))
        elif words[0] == "restart":
            for way in self.base.probes.ways:
                if way[0] == words[1]:
                    self.say(way)

    def say(self, way: tuple[str, str]) -> None:
        """An edge says something to a neighbour, or what stands between them is at an end."""
        self.pace.say(way)
        if self.watch is not None:
            self.watch.say(way)

    def gone(self) -> list[str]:
        """The sites of dead edges, which are lost with them."""
        return [name for name, row in self.base.plan.circuits.items() if row["edge"] in self.silence.edges and self.base.network.on[name]]

    def row(self) -> dict[Any, Any]:
        """All that is told of the case."""
        calm = [name for name in self.base.plan.services if self.network.is_calm(name)]
        return {
            "case": self.case.name,
            "kind": self.case.kind,
            "failure": list(self.case.failure),
            "mending": list(self.case.mending),
            "lost": self.losses.rows(),
            "gone": self.gone(),
            "stale": self.stale,
            **{kind: {name: dict(self.found[name][kind]) for name in self.found if self.found[name][kind]} for kind in KINDS},
            "rounds": self.last,
            "settled": self.settled,
            "as_settled": self.is_as_settled,
            "calm": all(name in calm for name in self.base.calm),
            "whole": not self.pace.is_late,
            "given_rounds": self.rounds,
        }
