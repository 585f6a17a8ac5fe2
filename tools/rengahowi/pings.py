"""What became of each ping of a run."""

from __future__ import annotations

TYPE_CHECKING = False
if TYPE_CHECKING:
    from .frames import Moment


class Ping:
    """A ping: its event, and what became of its packets and of those of its answers."""

    def __init__(self, event: Moment, edge: str, wire: str) -> None:
        self.event, self.edge, self.wire, self.answers = event, edge, wire, 0
        self.dropped: list[tuple[Moment, str, str]] = []
        self.lost: list[int] = []
        self.aged: list[int] = []


class Pings:
    """The pings of a run, the one that each packet under way belongs to, and the one that the event is of that is followed."""

    def __init__(self) -> None:
        self.all: list[Ping] = []
        self.of_packet: dict[str, Ping] = {}
        self.now: Ping | None = None

    def begin(self, event: Moment, edge: str, wire: str) -> None:
        """A ping begins."""
        self.now = Ping(event, edge, wire)
        self.all.append(self.now)

    def arrive(self, packet: str) -> None:
        """A packet arrives."""
        self.now = self.of_packet.pop(packet, None)

    def lose(self, packet: str) -> None:
        """A packet is lost."""
        self.arrive(packet)
        if self.now is not None:
            self.now.lost.append(int(packet))

    def repeat(self, packet: str) -> None:
        """A packet is repeated."""
        self.now = self.of_packet.get(packet)

    def age(self, packet: str) -> None:
        """A packet was under way for 64 ticks."""
        if packet in self.of_packet:
            self.of_packet.pop(packet).aged.append(int(packet))

    def under_way(self, ping: Ping) -> list[int]:
        """The packets of a ping that are under way."""
        return sorted(int(packet) for packet, other in self.of_packet.items() if other is ping)
