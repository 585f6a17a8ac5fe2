"""A report, or a text of `switchover`, as the rows of a ladder: a row for each line, drawn between the columns of edges and circuits."""

from __future__ import annotations

from .labels import label_of
from .network import NEVER, Network
from .program import decoded

TYPE_CHECKING = False
if TYPE_CHECKING:
    from typing import Any

    from .plan import Plan
    from .report import Entry, Event


def columns(plan: Plan) -> list[dict[str, Any]]:
    """The columns: each edge, and behind it its circuits."""
    found = []
    for edge, row in plan.edges.items():
        found.append({"name": edge, "kind": "edge", "under": row["address"]})
        sites = [(name, site) for name, site in plan.circuits.items() if site["edge"] == edge]
        found += [{"name": name, "kind": "circuit", "under": site["service"], "service": site["service"]} for name, site in sites]
    return found


def lanes(plan: Plan) -> list[Any]:
    """The states along the columns: a lane for each end of a session and of a wire."""
    sessions = [{"kind": "session", "edge": a, "name": b} for pair in plan.pairs() for a, b in (pair, pair[::-1])]
    wires = [{"kind": "wire", "edge": edge, "name": wire.name} for wire in plan.wires.values() for edge in wire.ends()]
    return [{**lane, "states": [[0, NEVER if lane["kind"] == "session" else "NoLocal"]]} for lane in sessions + wires]


def carried(origin: int) -> str:
    """What a packet carries: a copy of a frame, or a ping or the answer to one."""
    return f"frame {origin}" if origin else "ping"


def frame_of(origin: int) -> dict[Any, Any]:
    """The frame by which a row is found, where it is of one."""
    return {"f": origin} if origin else {}


class Rows:
    """Makes the rows, and the lanes beside them."""

    def __init__(self, plan: Plan, events: list[Event], front: list[Entry], network: Network | None = None) -> None:
        self.network, self.events, self.front = network or Network(plan), events, front
        self.lanes = lanes(plan)
        for lane in self.lanes if network else ():
            states = self.network.sessions if lane["kind"] == "session" else self.network.ends
            lane["states"] = [[0, states[lane["edge"], lane["name"]]]]
        self.lane_of = {(lane["kind"], lane["edge"], lane["name"]): lane for lane in self.lanes}
        self.column = {(column["kind"], column["name"]): place for place, column in enumerate(columns(plan))}
        self.rows: list[dict[str, Any]] = []
        self.frame_of: dict[Any, Any] = {}

    def make(self) -> list[dict[str, Any]]:
        """All rows. The names of the messages are added at the end, by one call of `decode` for all of them."""
        for entry in self.front:
            self.add(entry.line, getattr(self, entry.kind)(*entry.words))
        for event in self.events:
            self.add(event.line, self.event_row(event))
            self.network.begin(event)
            if event.kind == "restart":
                self.states_anew(event.words[0])
            elif event.kind in ("connect", "lose"):
                self.sessions_anew(*event.words)
            for entry in event.entries:
                self.add(entry.line, getattr(self, entry.kind)(*entry.words))
                self.network.take(entry)
        self.name_messages()
        return self.rows

    def add(self, line: int, row: dict[str, Any]) -> None:
        """Adds a row; where lines were left out before it, with its own line."""
        if line != len(self.rows) + 2:
            row["l"] = line
        self.rows.append(row)

    def row(self, kind: str, text: str, where: Any = (), **more: Any) -> dict[str, Any]:
        """A row: its kind, its text, the columns that it goes from and to, and what else is told."""
        return {"k": kind, "t": text, "c": [self.column[place] for place in where], **more}

    def event_row(self, event: Event) -> dict[str, Any]:
        """The row of an event; of a packet's, with the frame that it is of."""
        at = event.words[1:2] if event.kind == "deliver" else event.words[:1]
        where = [("edge", word) for word in at if ("edge", word) in self.column]
        row = self.row("event", event.text, where, n=event.number)
        if event.kind in ("arrive", "drop", "again") and event.words[0] in self.network.packets:
            packet = self.network.packets[event.words[0]]
            row.update(frame_of(packet[4]))
            row["c"] = [self.column["edge", packet[1]]]
        return row

    def states_anew(self, edge: str) -> None:
        """An edge that restarts has no session, and no end of a wire that is up."""
        for lane in self.lanes:
            if lane["edge"] == edge:
                self.change(lane, NEVER if lane["kind"] == "session" else "NoLocal")

    def sessions_anew(self, *edges: str) -> None:
        """Two edges are connected, or one has lost its end: in a report without sessions that is what is known of theirs."""
        for a, b in (edges, edges[::-1]):
            lane = self.lane_of.get(("session", a, b))
            if lane is not None and lane["states"][-1][1] != self.network.sessions[a, b]:
                self.change(lane, self.network.sessions[a, b])

    def change(self, lane: dict[str, Any], state: str) -> None:
        """A lane has another state from here on."""
        lane["states"].append([len(self.rows), state])

    def idle(self) -> dict[str, Any]:
        """The event did not apply."""
        return self.row("idle", "idle")

    def said(self, start: str, end: str, octets: str) -> dict[str, Any]:
        """A message; its name comes later."""
        return self.row("said", "", [("edge", start), ("edge", end)], o=octets)

    def in_(self, circuit: str, origin: int, octets: str) -> dict[str, Any]:
        """A frame that entered."""
        edge = self.network.plan.circuits[circuit]["edge"]
        return self.row("in", f"frame {origin} in", [("circuit", circuit), ("edge", edge)], f=origin, o=octets)

    def left(self, circuit: str, origin: int, hops: int, octets: str) -> dict[str, Any]:
        """A copy that left."""
        edge = self.network.plan.circuits[circuit]["edge"]
        text = f"frame {origin} out, {hops} segment{'' if hops == 1 else 's'}"
        return self.row("left", text, [("edge", edge), ("circuit", circuit)], f=origin, o=octets)

    def sent(self, packet: int, start: str, end: str, wire: str, *more: Any) -> dict[str, Any]:
        """A packet, with its wire and its label."""
        _arrival, origin, hops, octets = more
        text = f"packet {packet} on {wire}, label {label_of(octets)}, {carried(origin)}, segment {hops}"
        return self.row("sent", text, [("edge", start), ("edge", end)], **frame_of(origin), o=octets, w=wire)

    def copied(self, packet: int, old: Any) -> dict[str, Any]:
        """A packet that the network repeated; a report of another make may leave out that it was sent."""
        text = f"packet {packet} repeats {old}"
        if old not in self.network.packets:
            return self.row("copied", text)
        start, end, _wire, _arrival, origin = self.network.packets[old]
        return self.row("copied", text, [("edge", start), ("edge", end)], **frame_of(origin))

    def aged(self, packet: int) -> dict[str, Any]:
        """A packet that was under way for 64 ticks; a report of another make may leave out that it was sent."""
        if packet not in self.network.packets:
            return self.row("aged", f"packet {packet} aged")
        _start, end, _wire, _arrival, origin = self.network.packets[packet]
        return self.row("aged", f"packet {packet} aged, {carried(origin)}", [("edge", end)], **frame_of(origin))

    def dropped(self, edge: str, origin: int, cause: str) -> dict[str, Any]:
        """A copy that was dropped."""
        return self.row("dropped", f"dropped: {cause}, {carried(origin)}", [("edge", edge)], **frame_of(origin))

    def session(self, edge: str, peer: str, state: str) -> dict[str, Any]:
        """A session's next state at one end."""
        lane = self.lane_of.get(("session", edge, peer))
        if lane is not None:
            self.change(lane, state)
        return self.row("session", f"session with {peer}: {state}", [("edge", edge)])

    def wire(self, edge: str, wire: str, state: str) -> dict[str, Any]:
        """A wire that came up at an edge, or why it is down there."""
        lane = self.lane_of.get(("wire", edge, wire))
        if lane is not None:
            self.change(lane, state)
        return self.row("wire", f"wire {wire}: {state}", [("edge", edge)])

    def pong(self, edge: str, wire: str, number: int) -> dict[str, Any]:
        """An answer to a ping."""
        return self.row("pong", f"pong {number} on {wire}", [("edge", edge)])

    def hello(self, number: int, start: str, end: str, octets: str) -> dict[str, Any]:
        """A Hello, by its number; its name comes later."""
        return self.row("hello", f"{number}: ", [("edge", start), ("edge", end)], o=octets)

    def adjacency(self, edge: str, peer: str, state: str) -> dict[str, Any]:
        """An edge's adjacency that came up, or ended."""
        return self.row("adjacency", f"adjacency with {peer}: {state}", [("edge", edge)])

    def barred(self, edge: str, peer: str) -> dict[str, Any]:
        """A connection that does not open, since an adjacency is missing."""
        return self.row("barred", f"no connection with {peer}: barred", [("edge", edge)])

    def uses(self, edge: str, wire: str, answer: str) -> dict[str, Any]:
        """A wire that an edge uses from here on, or no more."""
        self.change(self.lane_of["wire", edge, wire], "up" if answer == "yes" else "NoLocal")
        return self.row("uses", f"uses {wire}" if answer == "yes" else f"uses {wire} no more", [("edge", edge)])

    def name_messages(self) -> None:
        """The text of each message is what `decode` tells of it."""
        said = [row for row in self.rows if row["k"] in ("said", "hello")]
        lines = decoded([bytes.fromhex(row["o"]) for row in said])
        for number, row in enumerate(said):
            row["t"] += " + ".join(lines[number]) if lines and lines[number] else f"type {row['o'][20:24]}"


setattr(Rows, "in", Rows.in_)
