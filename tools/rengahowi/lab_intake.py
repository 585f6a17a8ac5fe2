"""The packets of a lab's captures in the order of their times, with what is wrong with single ones found."""

from __future__ import annotations

import contextlib
import re
import zlib

from .capture_reading import OUT, SECOND, Reader, dropped_at_end, tell_dropped
from .findings import Findings
from .lab_frames import Inner

TYPE_CHECKING = False
if TYPE_CHECKING:
    from collections.abc import Iterator

    from .capture_reading import Packet
    from .lab_file import Lab, Row
    from .lab_sessions import Vantage

# So many frames at the front of a capture say whether all have their frame check sequence.
FIRST_LOOK = 16
DROPPED = re.compile(r"(\d+) packets? dropped by kernel")
# Octets of a tag.
TAG_SIZE = 4
ANY_SIZE = 1 << 20


class Missing:
    """Where captures lack packets: circuits at which what left may be missing, services into which frames may have come unseen, and
    neighbours between which packets may be missing."""

    def __init__(self) -> None:
        self.circuits: set[str] = set()
        self.services: set[str] = set()
        self.pairs: set[frozenset[str]] = set()


class Intake:
    """Reads the captures."""

    def __init__(self, lab: Lab, findings: Findings, vantage: Vantage) -> None:
        self.lab, self.findings, self.vantage, self.missing = lab, findings, vantage, Missing()
        self.inner = Inner(lab.plan, any(is_cooked(row) for row in lab.captures if row.is_port()))

    def packets(self, row: Row) -> Iterator[tuple[int, int, int, str, tuple[Row, Packet]]]:
        """The packets of a capture: the time, the numbers of the capture and of the packet, and whether it is of a port or a link."""
        reader = Reader(row.path, row.name, self.findings)
        self.look_at_log(row)
        last, has_check, kind = 0, has_frame_check(row), "port" if row.is_port() else "link"
        most = max((self.inner.most[circuit] for circuit in row.circuits), default=ANY_SIZE) + TAG_SIZE
        for packet in reader.packets():
            if row.interface and packet.interface != row.interface:
                continue
            if has_check and packet.missing <= 0:
                packet.octets = packet.octets[:-4]
            if packet.missing > 0 or len(packet.octets) > most or packet.time + row.skew < last:
                self.look_at(row, packet, most, last)
            last = max(last, packet.time + row.skew)
            yield last, row.number, packet.number, kind, (row, packet)
        if not reader.is_whole:
            self.lacks(row)
        if not reader.number:
            self.findings.tell("empty", row.name, 0, "the capture has no packet", "look whether its interface is the right one")
        if has_check:
            self.findings.tell("check", row.name, 0, "frames end in their frame check sequence, which is taken off")

    def lacks(self, row: Row) -> None:
        """A capture is not whole: what is missing there may be missing in the capture alone."""
        self.missing.circuits.update(row.circuits)
        if row.direction != OUT:
            self.missing.services.update(self.inner.service[circuit] for circuit in row.circuits)
        if not row.is_port():
            places = self.vantage.places
            self.missing.pairs.update(pair for pair in places if pair == set(row.link) or not row.link and row.at in pair)

    def look_at(self, row: Row, packet: Packet, most: int, last: int) -> None:
        """What is wrong with a packet."""
        if packet.missing > 0:
            self.lacks(row)
            self.findings.tell("cut", row.name, packet.number, f"{packet.missing} octets of the packet are not there", "give tcpdump no -s, or -s 262144")
        if len(packet.octets) > most:
            text = f"{len(packet.octets)} octets are more than the service takes ({most - TAG_SIZE}): the card has joined frames, or they are too long"
            self.findings.tell("long", row.name, packet.number, text, "turn offloading off (ethtool -K IFACE gso off tso off gro off lro off)")
        if packet.time + row.skew < last:
            text = f"its time is {(last - packet.time - row.skew) / SECOND:.6f} s before that of the packet before"
            self.findings.tell("falls", row.name, packet.number, text, "it is taken to be of that time; reordercap puts a capture in order")

    def look_at_log(self, row: Row) -> None:
        """What tcpdump said of a capture, where that was kept beside it, and what a capture says in its end."""
        count = dropped_at_end(row.path)
        with contextlib.suppress(OSError), open(row.log, encoding="utf-8", errors="replace") as file:
            found = DROPPED.search(file.read())
            count = max(count, int(found[1]) if found else 0)
        if count:
            tell_dropped(self.findings, row.name, count)
            self.lacks(row)


def is_cooked(row: Row) -> bool:
    """Whether a capture has cooked headers, by its first packet."""
    return next((packet.cooked for packet in Reader(row.path, row.name, Findings()).packets()), False)


def has_frame_check(row: Row) -> bool:
    """Whether the first frames of a capture all end in their frame check sequence (IEEE 802.3 clause 3.2.9)."""
    seen = 0
    for packet in Reader(row.path, row.name, Findings()).packets():
        if packet.missing > 0 or len(packet.octets) < 18 or zlib.crc32(packet.octets[:-4]).to_bytes(4, "little") != packet.octets[-4:]:
            return False
        seen += 1
        if seen == FIRST_LOOK:
            break
    return seen > 0
