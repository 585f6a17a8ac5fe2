"""Where all of a plan stands, in its picture and on the page of a run: edges, circuits with the lines to their edges, and the lanes of wires
that lie side by side. In points, from the upper left."""

from __future__ import annotations

import math
from typing import NamedTuple

TYPE_CHECKING = False
if TYPE_CHECKING:
    from collections.abc import Iterable

    from .plan import Plan, Wire

    Point = tuple[float, float]

# The width of all, how high the arch of core edges is, and how far apart rows of spoke edges are: the first from the core edges, the others.
WIDTH, ARCH, ROW_GAP, NEXT_ROW = 900, 150, 190, 110
# Of boxes: the height of an edge and the least width, the height of a circuit, and how far apart circuits are, from their edge and each other.
EDGE_HIGH, EDGE_WIDE, CIRCUIT_HIGH, FROM_EDGE, NEXT_CIRCUIT = 36, 58, 20, 44, 24
# A sign of a name, of a bold one, and of an address; and the room around each edge, and around all.
SIGN, BOLD, SMALL = 7.4, 8.0, 6.8
BESIDE, ROOM = 16, 60
# How far the trunk of several circuits is to the left of their edge's middle, and their boxes from the trunk.
TRUNK, BRANCH = 22, 8
# How far apart lanes are where there are few, and where there are more.
FEW, LANE, NARROW_LANE = 4, 9, 6


class Box(NamedTuple):
    """A box by its middle."""

    x: float
    y: float
    width: float
    height: float

    def border(self, far: Point) -> Point:
        """Where the line from its middle to a point leaves it."""
        across, up = far[0] - self.x, far[1] - self.y
        share = min(self.width / 2 / abs(across) if across else math.inf, self.height / 2 / abs(up) if up else math.inf, 1)
        return self.x + across * share, self.y + up * share


class Layout:
    """The boxes of edges and circuits, the lines that join each circuit to its edge, and how far beside the middle each wire lies."""

    def __init__(self, plan: Plan) -> None:
        self.plan = plan
        self.edges: dict[str, Box] = {}
        self.circuits: dict[str, Box] = {}
        self.leads: dict[str, list[Point]] = {}
        self.of_edge: dict[str, list[str]] = {edge: [] for edge in plan.edges}
        for name, row in plan.circuits.items():
            self.of_edge[row["edge"]].append(name)
        self.stand()
        boxes = [*self.edges.values(), *self.circuits.values()]
        left, top = min(box.x - box.width / 2 for box in boxes), min(box.y - box.height / 2 for box in boxes)
        self.move(ROOM - left, ROOM - top)
        boxes = [*self.edges.values(), *self.circuits.values()]
        self.width = max(box.x + box.width / 2 for box in boxes) + ROOM
        self.height = max(box.y + box.height / 2 for box in boxes) + ROOM
        self.wires, self.sessions = lanes(plan)

    def stand(self) -> None:
        """A hierarchy stands in tiers, a chain from left to right, other edges around an ellipse; those that only stand in the middle of
        paths in a row between the tiers, or through the middle of the ellipse."""
        spokes = [wire for wire in self.plan.wires.values() if wire.kind == "spoke"]
        middle = middles(self.plan)
        rest = [edge for edge in self.plan.edges if edge not in middle]
        row = chain(self.plan)
        if row and (not spokes or len(row) == len(self.plan.edges) == 2):
            self.put_row(row, 0)
        elif spokes:
            self.put_tiers(rest, spokes)
            self.put_row(middle, ROW_GAP / 2)
        else:
            self.put_around(rest)
            self.put_row(middle, 0)

    def put(self, edge: str, x: float, y: float, way: int) -> None:
        """Puts an edge, and its circuits above (-1) or below it (1): one in the middle, several on a trunk, one over the other."""
        row = self.plan.edges[edge]
        wide = max(EDGE_WIDE, BOLD * len(edge) + 14, SMALL * len(row["address"]) + 10)
        self.edges[edge] = Box(x, y, wide, EDGE_HIGH)
        names = self.of_edge[edge]
        for place, name in enumerate(names):
            wide, high = circuit_width(self.plan, name), y + way * (FROM_EDGE + NEXT_CIRCUIT * place)
            if len(names) == 1:
                self.circuits[name] = Box(x, high, wide, CIRCUIT_HIGH)
                self.leads[name] = [(x, y + way * EDGE_HIGH / 2), (x, high - way * CIRCUIT_HIGH / 2)]
            else:
                left = x - TRUNK + BRANCH
                self.circuits[name] = Box(left + wide / 2, high, wide, CIRCUIT_HIGH)
                self.leads[name] = [(x - TRUNK, y + way * EDGE_HIGH / 2), (x - TRUNK, high), (left, high)]

    def put_row(self, edges: list[str], y: float) -> None:
        """Puts edges in a row, with their circuits below them."""
        wide = max(WIDTH, self.across(edges) * len(edges))
        for place, edge in enumerate(edges):
            self.put(edge, wide * (place + 0.5) / len(edges), y, 1)

    def put_tiers(self, edges: list[str], spokes: list[Wire]) -> None:
        """Puts core edges on an arch with their circuits above, and spoke edges in rows below them with their circuits beneath."""
        low = list(dict.fromkeys(wire.path[0] for wire in spokes))
        high = [edge for edge in edges if edge not in low]
        wide = max(WIDTH, self.across(high) * len(high))
        for place, edge in enumerate(high):
            share = place / (len(high) - 1) if len(high) > 1 else 0.5
            self.put(edge, wide * (0.08 + 0.84 * share), -ARCH * (1 - (2 * share - 1) ** 2), -1)
        middle = {edge: mean([self.edges[wire.path[-1]].x for wire in spokes if wire.path[0] == edge and wire.path[-1] in self.edges]) for edge in low}
        low.sort(key=middle.__getitem__)
        row, y = max(1, int(wide / self.across(low))), float(ROW_GAP)
        for start in range(0, len(low), row):
            part = low[start : start + row]
            for place, edge in enumerate(part):
                self.put(edge, wide * (place + 0.5) / len(part), y, 1)
            y += NEXT_ROW + NEXT_CIRCUIT * max(len(self.of_edge[edge]) for edge in part)

    def put_around(self, edges: list[str]) -> None:
        """Puts edges around an ellipse with their circuits outside: above those of the upper half, and below the others."""
        high = 110 + 12 * max(0, len(edges) - 6)
        for place, edge in enumerate(edges):
            turn = math.pi * (0.5 + 1 / len(edges) + 2 * place / len(edges))
            y = -high * math.sin(turn)
            self.put(edge, WIDTH / 2 * (1 - 0.84 * math.cos(turn - math.pi)), y, -1 if y < -1 else 1)

    def across(self, edges: Iterable[str]) -> float:
        """How wide the widest of some edges is with its circuits, and the room beside it."""
        widest: list[float] = [EDGE_WIDE]
        for edge in edges:
            names = self.of_edge[edge]
            widest.append(max(BOLD * len(edge) + 14, SMALL * len(self.plan.edges[edge]["address"]) + 10))
            widest += [circuit_width(self.plan, name) for name in names]
        return max(widest) + BESIDE

    def move(self, right: float, down: float) -> None:
        """Moves all of it."""
        for boxes in (self.edges, self.circuits):
            boxes.update((name, box._replace(x=box.x + right, y=box.y + down)) for name, box in boxes.items())
        self.leads = {name: [(x + right, y + down) for x, y in points] for name, points in self.leads.items()}

    def ways(self, wire: Wire) -> list[tuple[Point, Point]]:
        """The lines of a wire from neighbour to neighbour, each beside the middle by its lane."""
        found = []
        for (a, b), lane in zip(wire.segments(), self.wires[wire.name]):
            first, second = self.edges[a], self.edges[b]
            long = math.hypot(second.x - first.x, second.y - first.y) or 1
            right, down = -(second.y - first.y) / long * lane, (second.x - first.x) / long * lane
            found.append(((first.x + right, first.y + down), (second.x + right, second.y + down)))
        return found


def circuit_text(plan: Plan, name: str) -> str:
    """What stands in the box of a circuit."""
    tag = plan.circuits[name]["tag"]
    return f"{name} (VLAN {tag})" if tag else name


def circuit_width(plan: Plan, name: str) -> float:
    """How wide the box of a circuit is."""
    return SIGN * len(circuit_text(plan, name)) + 12


def lanes(plan: Plan) -> tuple[dict[str, list[float]], dict[tuple[str, str], float]]:
    """Of each wire, segment by segment, how far it lies to the right of the middle between its neighbours, seen along its path; and of each
    two neighbours where their session lies, seen from the first to the second."""
    over: dict[tuple[str, str], list[str]] = {pair: [] for pair in plan.pairs()}
    for wire in plan.wires.values():
        for a, b in wire.segments():
            over[(a, b) if (a, b) in over else (b, a)].append(wire.name)
    gap = {pair: LANE if len(names) <= FEW else NARROW_LANE for pair, names in over.items()}
    sessions = {pair: -gap[pair] * (len(names) + 1) / 2 for pair, names in over.items()}
    wires: dict[str, list[float]] = {}
    for wire in plan.wires.values():
        wires[wire.name] = []
        for a, b in wire.segments():
            pair, turn = ((a, b), 1) if (a, b) in over else ((b, a), -1)
            wires[wire.name].append(turn * gap[pair] * (over[pair].index(wire.name) - (len(over[pair]) - 1) / 2))
    return wires, sessions


def mean(values: list[float]) -> float:
    """The mean of some numbers; the middle of all where there are none."""
    return sum(values) / len(values) if values else WIDTH / 2


def middles(plan: Plan) -> list[str]:
    """The edges that have no circuit, and stand only in the middle of paths."""
    ends = {edge for wire in plan.wires.values() for edge in wire.ends()} | {row["edge"] for row in plan.circuits.values()}
    inner = {edge for wire in plan.wires.values() for edge in wire.path}
    return [edge for edge in plan.edges if edge in inner - ends]


def chain(plan: Plan) -> list[str]:
    """The edges from one end to the other one, where segments join them to one chain; none where they do not."""
    near: dict[str, list[str]] = {edge: [] for edge in plan.edges}
    for a, b in plan.pairs():
        near[a].append(b)
        near[b].append(a)
    tips = [edge for edge, others in near.items() if len(others) == 1]
    if len(tips) != 2 or any(len(others) > 2 for others in near.values()):
        return []
    found = [tips[0]]
    while found[-1] != tips[1]:
        found.append(next(edge for edge in near[found[-1]] if edge not in found[-2:-1]))
    return found if len(found) == len(plan.edges) else []
