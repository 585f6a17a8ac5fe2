"""What became of each frame of a run, and when sites lost each other."""

from __future__ import annotations

from .learned import Learned
from .network import UP, Network, network_of
from .pings import Pings
from .reached import reach_of, reached
from .report import ALWAYS

TYPE_CHECKING = False
if TYPE_CHECKING:
    from .plan import Plan
    from .report import Report

WINDOW = ("frame", "arrive", "drop", "again")
# So many pairs of edges are named.
MOST_PAIRS = 3
# What a script's lines tell of Hellos.
NOTED = ("hello", "barred", "adjacency")
# What is read behind the last line, so that each line has one behind it.
END = [""]


class Moment:
    """An event that something is told of: its number, its line in the report, its words, and whether it did not apply."""

    __slots__ = ("number", "line", "text", "is_idle")

    def __init__(self, number: int, line: int, text: str, is_idle: bool) -> None:
        self.number, self.line, self.text, self.is_idle = number, line, text, is_idle


class Frame:
    """A frame that entered: where, to which station, into what state of its service, and what became of its copies."""

    __slots__ = (
        *("event", "circuit", "service", "edge", "origin", "to", "source", "is_group", "calm", "sites", "reached", "unsettled", "heard"),
        *("left", "dropped", "lost", "aged", "repeated", "hops", "under_way", "disturbed", "is_told"),
    )

    def __init__(self, network: Network, event: Moment, words: list[str]) -> None:
        _, circuit, origin, octets = words
        row = network.plan.circuits[circuit]
        self.event, self.circuit, self.service, self.edge = event, circuit, row["service"], row["edge"]
        self.origin, self.to, self.source = int(origin), octets[:12], octets[12:24]
        self.is_group = len(octets) > 1 and int(octets[:2], 16) % 2 == 1
        self.calm, self.unsettled = network.is_calm(self.service), network.unsettled(self.service)
        self.sites = [site for site in network.sites(self.service) if site != circuit]
        # In a service that is not calm a report of another make may tell too little for a promise.
        self.is_told = self.calm or network.tells_sessions(self.service)
        self.reached = self.sites
        if not self.calm and not self.unsettled:
            self.reached = reached(network.plan, reach_of(network, self.service), self.sites, circuit)
        self.heard = False
        self.left: dict[str, int] = {}
        self.dropped: list[tuple[Moment, str, str]] = []
        self.lost: list[int] = []
        self.aged: list[int] = []
        self.repeated: list[int] = []
        self.hops = "0"
        self.under_way: set[str] = set()
        self.disturbed: Moment | None = None

    def is_formed(self) -> bool:
        """Whether it was not dropped where it entered."""
        return not (self.dropped and self.dropped[0][0] is self.event and self.dropped[0][1] == self.edge)

    def is_flooded(self) -> bool:
        """Whether it goes to everybody: to a group, or to a station that no bridge knows and that says nothing meanwhile."""
        return self.is_formed() and (self.is_group or not self.heard)

    def missed(self) -> list[str]:
        """The sites that it did not reach."""
        return [site for site in self.sites if site not in self.left]

    def twice(self) -> list[str]:
        """The circuits at which it left more than once, and its own where it left there."""
        return [site for site, count in self.left.items() if count > 1 or site == self.circuit]

    def is_as_reached(self) -> bool:
        """Whether it left once at each site that it reaches, and nowhere else."""
        return self.left == dict.fromkeys(self.reached, 1)

    def why_not_promised(self) -> list[str]:
        """Why the promise that each site which it reaches gets it exactly once, and no other one, does not speak of it; empty where it
        does."""
        reasons = []
        if not self.is_flooded():
            reasons.append("it is dropped where it enters" if not self.is_formed() else "its station was known")
        if self.unsettled:
            reasons.append(f"the service was not quiet ({some_pairs(self.unsettled)})")
        elif not self.is_told:
            reasons.append("the service was not calm, and the report does not tell all of LDP and of packets")
        if self.disturbed is not None:
            reasons.append(f"event {self.disturbed.number} ({self.disturbed.text}) came while copies were under way")
        reasons += [f"packet {packet} was lost" for packet in self.lost]
        reasons += [f"packet {packet} was under way for 64 ticks" for packet in self.aged]
        reasons += [f"packet {packet} was repeated" for packet in self.repeated]
        if self.under_way:
            reasons.append("copies are still under way")
        return reasons


def some_pairs(pairs: list[tuple[str, str]]) -> str:
    """The first of some pairs of edges, and how many more there are."""
    more = f" and {len(pairs) - MOST_PAIRS} more" if len(pairs) > MOST_PAIRS else ""
    return ", ".join("-".join(pair) for pair in pairs[:MOST_PAIRS]) + more


class Span:
    """Two edges that lost each other in a service, from one event to another one, the deliveries until then, and the sites that there
    were when it began."""

    def __init__(self, start: Moment, deliveries: int, sites: list[str]) -> None:
        self.start, self.deliveries, self.sites = start, -deliveries, sites
        self.end: Moment | None = None

    def close(self, event: Moment | None, deliveries: int) -> None:
        """The two found each other again."""
        self.end, self.deliveries = event, self.deliveries + deliveries


class Run:
    """A run as a report tells it, followed to its end."""

    def __init__(self, plan: Plan, report: Report) -> None:
        self.plan, self.report, self.network = plan, report, network_of(plan, report.rows)
        # The frames by their numbers as the report writes them, and those whose window is open; those that entered at the event that is
        # followed, and those that have no packet under way any more, as it began.
        self.frames: dict[str, Frame] = {}
        self.open_frames: dict[str, Frame] = {}
        self.of_packet: dict[str, Frame] = {}
        self.entered: list[Frame] = []
        self.ended: list[Frame] = []
        self.learned = Learned(plan)
        # Of each service the stations that were ever heard, and the frames for stations that were not known. Where a report leaves packets
        # out, who was heard counts as known.
        self.heard: dict[str, set[str]] = {service: set() for service in plan.services}
        self.unknown: dict[tuple[str, str], list[Frame]] = {}
        self.untold: set[str] = set()
        self.open_from: dict[tuple[str, str], int] = {}  # how many frames are open that came from a station
        self.arrived: tuple[Frame, str, str] | None = None  # by the event that is followed, where, and on which wire
        self.ever_up: set[frozenset[str]] = set()
        self.ever_carried: set[str] = set()
        # Which edges reach each other in a service, as it was looked at last. Where wires only came up since, and no edges have lost
        # each other, that is of the past.
        self.joined: dict[str, set[frozenset[str]]] = {service: set() for service in plan.services}
        self.ever_joined: dict[str, set[frozenset[str]]] = {service: set() for service in plan.services}
        self.past: set[str] = set()
        self.spans: dict[str, list[tuple[frozenset[str], Span]]] = {service: [] for service in plan.services}
        self.open_spans: dict[str, dict[frozenset[str], Span]] = {service: {} for service in plan.services}
        self.pings, self.deliveries = Pings(), 0
        self.drops: list[tuple[int, str, str]] = []
        self.idle: list[Moment] = []
        # What a script's lines told of Hellos: the event that it stands behind, 0 before the first one, its line and its words.
        self.notes: list[tuple[int, int, list[str]]] = []
        # How many events there were, the line at which the last one stands, from 0, whether it did not apply, the sessions that it told
        # something of, and what is told of it.
        self.count, self.line, self.is_idle = 0, 0, False
        self.sessions: list[tuple[str, str]] = []
        self.told: Moment | None = None

    def follow(self) -> Run:
        """Follows all lines."""
        take = {
            **{"in": self.enter, "sent": self.send, "left": self.leave, "copied": self.copy, "aged": self.age},
            **{"dropped": self.drop, "pong": self.pong, "said": self.tell, "wire": self.tell, "session": self.tell_session},
        }
        begin = {"arrive": self.arrive, "drop": self.lose, "again": self.repeat, "frame": self.come, "deliver": self.deliver, "ping": self.ping}
        rows = [*self.report.rows, END]
        for line, row in enumerate(rows):
            kind = row[0]
            if kind != ">":
                if kind in take:
                    take[kind](row)
                elif kind in NOTED:
                    self.notes.append((self.count, line + 2, row))
                continue
            if self.arrived is not None:
                frame, edge, wire = self.arrived
                self.learned.learn(frame.service, edge, frame.source, wire)
                self.arrived = None
            if self.entered or self.ended or self.network.told:
                self.end_event()
            self.count, self.line, self.told, self.pings.now = self.count + 1, line, None, None
            self.is_idle = rows[line + 1][0] == "idle" and row[1] not in ALWAYS and self.network.is_idle(True, row[1], row[2:])
            if self.open_frames and row[1] not in WINDOW:
                self.disturb()
            if self.is_idle:
                self.idle.append(self.moment())
            if not self.is_idle or row[1] == "ping":
                begin.get(row[1], self.begin)(row)
        self.end_event()
        self.end()
        return self

    def moment(self) -> Moment:
        """The event that is followed."""
        if self.told is None:
            self.told = Moment(self.count, self.line + 2, self.report.lines[self.line][2:], self.is_idle)
        return self.told

    def disturb(self) -> None:
        """An event that no window has comes while copies are under way."""
        for frame in self.open_frames.values():
            frame.disturbed = frame.disturbed or self.moment()

    def begin(self, row: list[str]) -> None:
        """An event that connects edges or switches something, or a tick."""
        kind, *words = row[1:]
        self.network.apply(kind, words)
        if kind == "connect":
            self.sessions.append((words[0], words[1]))
        elif kind == "restart":
            self.learned.forget_edge(words[0])
        elif kind == "tick":
            self.learned.ticks += 1
        elif kind == "circuit" and words[1] == "off":
            circuit = self.plan.circuits[words[0]]
            self.learned.forget_port(circuit["service"], circuit["edge"], words[0])

    def deliver(self, row: list[str]) -> None:
        """Something of LDP is delivered."""
        self.deliveries += 1
        self.network.apply("deliver", row[2:])
        pipe = self.network.pipes.get((row[2], row[3]))
        for octets in pipe.came if pipe is not None else ():
            self.learned.withdraw(row[3], row[2], octets)

    def come(self, row: list[str]) -> None:
        """A frame comes: its first entry says what becomes of it."""

    def ping(self, row: list[str]) -> None:
        """A ping begins, which may be idle."""
        self.pings.begin(self.moment(), row[2], row[3])

    def arrive(self, row: list[str]) -> None:
        """A packet arrives: it is under way no more."""
        packet = row[2]
        sent = self.network.packets.pop(packet, None)
        frame = self.of_packet.pop(packet, None)
        if frame is None:
            self.pings.arrive(packet)
            return
        if row[1] == "arrive" and sent is not None and sent[1] in self.plan.wires[sent[2]].ends():
            self.arrived = frame, sent[1], sent[2]
        frame.under_way.discard(packet)
        if not frame.under_way:
            self.ended.append(frame)

    def lose(self, row: list[str]) -> None:
        """A packet is lost."""
        packet = row[2]
        if packet in self.of_packet:
            self.of_packet[packet].lost.append(int(packet))
            self.arrive(row)
        else:
            self.network.packets.pop(packet, None)
            self.pings.lose(packet)

    def repeat(self, row: list[str]) -> None:
        """A packet is repeated: its entry says by which number."""
        self.pings.repeat(row[2])

    def frame_of(self, origin: str) -> Frame | None:
        """The frame with a number; none of a ping, whose number is 0, and of a frame that a report of another make never let in."""
        return self.frames.get(origin)

    def frame_of_packet(self, packet: str) -> str:
        """The number of the frame of a packet that is under way; 0 of a ping, and of a packet that a report of another make never sent."""
        sent = self.network.packets.get(packet)
        origin: str = "0" if sent is None else sent[4]
        return origin

    def enter(self, row: list[str]) -> None:
        """A frame enters."""
        frame = Frame(self.network, self.moment(), row)
        if not frame.is_group:
            frame.heard = self.is_known(frame.service, frame.to)
            self.unknown.setdefault((frame.service, frame.to), []).append(frame)
        self.frames[row[2]] = self.open_frames[row[2]] = frame
        self.open_from[frame.service, frame.source] = self.open_from.get((frame.service, frame.source), 0) + 1
        self.entered.append(frame)

    def is_known(self, service: str, station: str) -> bool:
        """Whether a bridge of the service knows a station, or a packet under way comes from it."""
        if station not in self.heard[service]:
            return False
        if service in self.untold or self.learned.is_known(service, station):
            return True
        return self.open_from.get((service, station), 0) > 0

    def send(self, row: list[str]) -> None:
        """A packet is sent, with a copy of a frame, or of a ping."""
        packet, edge, wire, origin = row[1], row[2], row[4], row[6]
        self.network.packets[packet] = row[2:7]
        self.put_under_way(packet, origin)
        frame = self.frames.get(origin)
        if frame is not None and frame.is_told and not frame.calm:
            frame.is_told = self.network.may_send(edge, wire)

    def copy(self, row: list[str]) -> None:
        """A packet comes once more under a number of its own."""
        _, packet, copied = row
        self.network.tell("copied", row[1:])
        origin = self.frame_of_packet(copied)
        self.put_under_way(packet, origin)
        frame = self.frame_of(origin)
        if frame is not None:
            frame.repeated.append(int(copied))

    def put_under_way(self, packet: str, origin: str) -> None:
        """A packet is under way from here on."""
        frame = self.frame_of(origin)
        if frame is not None:
            self.of_packet[packet] = frame
            frame.under_way.add(packet)
        if self.pings.now is not None:
            self.pings.of_packet[packet] = self.pings.now

    def age(self, row: list[str]) -> None:
        """A packet was under way for 64 ticks, and is so no more."""
        packet = row[1]
        frame = self.frame_of(self.frame_of_packet(packet))
        self.pings.age(packet)
        self.network.packets.pop(packet, None)
        if frame is not None:
            frame.under_way.discard(packet)
            frame.aged.append(int(packet))
            self.ended.append(frame)

    def leave(self, row: list[str]) -> None:
        """A copy leaves at a circuit."""
        _, circuit, origin, hops, _ = row
        frame = self.frame_of(origin)
        if frame is None:
            return
        frame.left[circuit] = frame.left.get(circuit, 0) + 1
        if hops != "0" and frame.event.number == self.count:  # it passed a segment by no packet
            self.untold.add(frame.service)
            frame.is_told = frame.is_told and frame.calm
            frame.heard = frame.heard or frame.to in self.heard[frame.service]
        if hops != frame.hops and int(hops) > int(frame.hops):
            frame.hops = hops

    def drop(self, row: list[str]) -> None:
        """A frame, a copy of one or a packet of a ping is dropped."""
        _, edge, origin, cause = row
        self.drops.append((self.count, edge, cause))
        self.arrived = None
        frame = self.frame_of(origin)
        if frame is not None:
            frame.dropped.append((self.moment(), edge, cause))
        if self.pings.now is not None:
            self.pings.now.dropped.append((self.moment(), edge, cause))

    def pong(self, row: list[str]) -> None:
        """A ping is answered."""
        if self.pings.now is not None:
            self.pings.now.answers += 1

    def tell(self, row: list[str]) -> None:
        """What is told of the network."""
        self.network.tell(row[0], row[1:])
        if row[0] == "wire" and row[3] != UP:
            self.learned.forget_port(self.plan.wires[row[2]].service, row[1], row[2])

    def tell_session(self, row: list[str]) -> None:
        """What is told of a session."""
        self.network.tell("session", row[1:])
        self.sessions.append((row[1], row[2]))

    def end_event(self) -> None:
        """What is so behind an event: whose station is heard, whose window is over, which sessions and wires came up or went."""
        for frame in self.entered:
            self.hear(frame)
        for frame in (*self.entered, *self.ended):
            if not frame.under_way and self.open_frames.pop(str(frame.origin), None) is not None:
                self.open_from[frame.service, frame.source] -= 1
        self.entered.clear()
        self.ended.clear()
        self.ever_up.update(frozenset(pair) for pair in self.sessions if self.network.is_up(*pair))
        self.sessions.clear()
        if self.network.told:
            self.look()

    def hear(self, frame: Frame) -> None:
        """The station of a frame that was not dropped where it entered is heard: the frames for it that are under way are no floods."""
        if frame.is_formed():
            self.heard[frame.service].add(frame.source)
            self.learned.learn(frame.service, frame.edge, frame.source, frame.circuit)
            for other in self.unknown.pop((frame.service, frame.source), ()):
                other.heard = other.heard or str(other.origin) in self.open_frames

    def look(self) -> None:
        """Which wires came up or went, and which edges lost or found each other by that."""
        wires = self.network.changes()
        went = {wire.service for wire in wires if wire.name in self.network.carrying}
        for service in went & self.past:
            self.look_anew(service)
        self.network.change(wires)
        self.ever_carried.update(wire.name for wire in wires if wire.name in self.network.carrying)
        for service in {wire.service for wire in wires}:
            if service in went or self.open_spans[service]:
                self.compare(service)
            else:
                self.past.add(service)

    def look_anew(self, service: str) -> None:
        """Which edges of a service reach each other by now: where no others have lost each other since it was looked at last."""
        self.joined[service] = self.network.joined(service)
        self.ever_joined[service] |= self.joined[service]
        self.past.discard(service)

    def compare(self, service: str) -> None:
        """Which edges of a service lost or found each other by an event."""
        before, spans = self.joined[service], self.open_spans[service]
        self.look_anew(service)
        joined = self.joined[service]
        for pair in before - joined:
            spans[pair] = Span(self.moment(), self.deliveries, self.network.sites(service))
            self.spans[service].append((pair, spans[pair]))
        for pair in joined - before:
            if pair in spans:
                spans.pop(pair).close(self.moment(), self.deliveries)

    def end(self) -> None:
        """The end of the run: those who have not found each other never do."""
        for service in list(self.past):
            self.look_anew(service)
        for spans in self.open_spans.values():
            for span in spans.values():
                span.close(None, self.deliveries)


def follow(plan: Plan, report: Report) -> Run:
    """The run of a report over its plan."""
    return Run(plan, report).follow()
