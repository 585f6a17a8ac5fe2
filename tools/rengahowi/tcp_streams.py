"""TCP connections as captures show them: what each end put and heard, in order, and when, with losses and repetitions sorted out by the
sequence numbers (RFC 9293 section 3.4)."""

from __future__ import annotations

import bisect

TYPE_CHECKING = False
if TYPE_CHECKING:
    from collections.abc import Iterable

FIN, SYN, RST, ACK = 0x01, 0x02, 0x04, 0x10
NUMBERS = 1 << 32


class Half:
    """The octets of one direction of a connection, as they were seen at one place: in order, with the time at which each became whole."""

    def __init__(self) -> None:
        self.octets = bytearray()
        self.ends: list[int] = []
        self.times: list[int] = []
        self.waiting: dict[int, tuple[bytes, int]] = {}
        self.over: int | None = None
        self.last: int | None = None

    def take(self, place: int, octets: bytes, time: int) -> None:
        """Octets at a place of the stream, which may have been there before, or come too early."""
        here = len(self.octets)
        if place > here:
            if len(octets) > len(self.waiting.get(place, (b"",))[0]):
                self.waiting[place] = octets, time
            return
        if place + len(octets) > here:
            self.octets += octets[here - place :]
            self.ends.append(len(self.octets))
            self.times.append(time)
            for early in sorted(self.waiting):
                if early <= len(self.octets):
                    self.take(early, self.waiting.pop(early)[0], time)
        self.finish(time)

    def finish(self, time: int) -> None:
        """The end of the stream stands once all before it is there."""
        if self.last is not None and len(self.octets) >= self.last and self.over is None:
            self.over = time

    def time_at(self, place: int) -> int:
        """When the octet at a place was there."""
        return self.times[bisect.bisect_right(self.ends, place)]


class Connection:
    """A connection between two edges. Each half has its sender and the place where it was seen: as it was put, or as it was heard."""

    def __init__(self, ends: tuple[str, str], time: int, is_whole: bool) -> None:
        self.ends, self.time, self.is_whole = ends, time, is_whole
        self.first: dict[str, int] = {}
        # The capture and the packet in which it was seen first.
        self.seen: tuple[str, int] | None = None
        self.halves = {(end, role): Half() for end in ends for role in ("put", "heard")}

    def take(self, sender: str, roles: Iterable[str], number: int, flags: int, octets: bytes, time: int) -> None:
        """A segment of a sender, as it was seen in these roles."""
        if flags & SYN:
            self.first[sender] = number + 1
            return
        first = self.first.setdefault(sender, number)
        place = (number - first + NUMBERS // 2) % NUMBERS - NUMBERS // 2
        for role in roles:
            half = self.halves[sender, role]
            if flags & RST:
                half.over = time if half.over is None else half.over
                continue
            if flags & FIN:
                half.last = place + len(octets)
            if octets and place + len(octets) > 0:
                half.take(max(place, 0), octets[max(-place, 0) :], time)
            half.finish(time)


class Connections:
    """All connections of two edges, in the order in which they came."""

    def __init__(self) -> None:
        self.found: list[Connection] = []
        self.current: dict[frozenset[tuple[str, int]], tuple[int | None, Connection]] = {}

    def take(self, ends: tuple[tuple[str, int], tuple[str, int]], roles: Iterable[str], number: int, flags: int, octets: bytes, time: int) -> Connection:
        """A segment from the first of two ends, each an edge with its port, to the second one. Answers its connection."""
        key = frozenset(ends)
        known, connection = self.current.get(key, (None, None))
        opens = flags & SYN and not flags & ACK
        if connection is None or opens and known != number:
            connection = Connection((ends[0][0], ends[1][0]), time, bool(opens))
            self.found.append(connection)
            self.current[key] = number if opens else None, connection
        connection.take(ends[0][0], roles, number, flags, octets, time)
        return connection
