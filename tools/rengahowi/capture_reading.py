"""Captures as tcpdump and Wireshark write them, packet by packet, in the classic format and in pcapng. The layouts of both, and of the
cooked headers of Linux, are those of dpkt (Debian: python3-dpkt)."""

from __future__ import annotations

import os
import struct
import sys

from .command import Fault

TYPE_CHECKING = False
if TYPE_CHECKING:
    from collections.abc import Iterator
    from typing import BinaryIO

    from .findings import Findings

IN, OUT = "in", "out"
ETHERNET, COOKED, COOKED_2 = 1, 113, 276
SECOND = 1_000_000_000
# The longest record that tcpdump and Wireshark write.
MOST = 262_144
BROADCAST = b"\xff" * 6
# The packet types of a cooked header (Linux, if_packet.h) that tell more than that a packet came in.
TO_ALL, TO_GROUP, OUTGOING = 1, 2, 4
# An address in the place of one that a cooked header does not have: of a group, and of a station.
SOME_GROUP, SOME_STATION = b"\x03\0\0\0\0\0", b"\x02\0\0\0\0\0"
# Options of pcapng, by the block that they belong to.
NAME, RESOLUTION, CHECK, OFFSET = 2, 9, 13, 14
FLAGS = 2
DROPPED_BY_INTERFACE, DROPPED_BY_SYSTEM = 5, 7
STATISTICS = 5


def have_dpkt() -> None:
    """Goes on with Debian's Python where this one has no dpkt, and tells the package where neither has it."""
    try:
        import dpkt  # type: ignore[import]
    except ImportError:
        debian = "/usr/bin/python3"
        if os.path.realpath(sys.executable) != os.path.realpath(debian) and os.path.exists(debian) and "RENGAHOWI_DPKT" not in os.environ:
            os.environ["RENGAHOWI_DPKT"] = "looked for"
            os.execv(debian, [debian, *sys.argv])
        raise Fault("captures are read by dpkt, which is missing (Debian has it in the package python3-dpkt)") from None


class Interface:
    """An interface of a capture: its link type, its name, the units of its times in a second, and the octets of its frame check."""

    __slots__ = ("link", "name", "units", "offset", "check")

    def __init__(self, link: int, name: str = "", units: int = 1_000_000, offset: int = 0, check: int = 0) -> None:
        self.link, self.name, self.units, self.offset, self.check = link, name, units, offset, check


class Packet:
    """A packet of a capture, counted from 1: its time in nanoseconds since 1970, its octets from the Ethernet header on, how many more
    octets it had on the link, its direction where the capture tells it, and the name of its interface."""

    __slots__ = ("time", "number", "octets", "missing", "direction", "interface", "cooked")

    def __init__(self, time: int, number: int, octets: bytes, missing: int, direction: str, interface: str, cooked: bool) -> None:
        self.time, self.number, self.octets, self.missing = time, number, octets, missing
        self.direction, self.interface, self.cooked = direction, interface, cooked


class Reader:
    """Reads a capture. What is wrong with single packets is a finding; what is no capture of Ethernet a fault."""

    def __init__(self, path: str, name: str, findings: Findings) -> None:
        self.path, self.name, self.findings = path, name, findings
        self.number, self.octets, self.is_whole = 0, 0, True
        self.interfaces: list[Interface] = []

    def packets(self) -> Iterator[Packet]:
        """All packets, in the order of the file."""
        with open(self.path, "rb", buffering=1 << 20) as file:
            magic = file.read(4)
            if magic == b"\n\r\r\n":
                yield from self.blocks(file)
            else:
                yield from self.records(file, magic)

    def fault(self, text: str, cure: str) -> Fault:
        """What no reader gets past, at the packet that comes next."""
        where = f"{self.name}, packet {self.number + 1}" if self.number else self.name
        return Fault(f"{where}: {text}; {cure}")

    def cut_off(self) -> None:
        """The file ends within a packet."""
        self.is_whole = False
        self.findings.tell("end", self.name, self.number + 1, "the file ends within it", "let tcpdump end by itself (kill -INT), and use -U")

    def records(self, file: BinaryIO, magic: bytes) -> Iterator[Packet]:
        """The packets of a file in the classic format."""
        from dpkt import pcap

        head = pcap.FileHdr.__hdr_len__
        first = magic + file.read(head - 4)
        kinds = {
            struct.pack(order, number): (order, number)
            for order in (">I", "<I")
            for number in (pcap.TCPDUMP_MAGIC, pcap.TCPDUMP_MAGIC_NANO, pcap.MODPCAP_MAGIC)
        }
        if magic not in kinds or len(first) < head:
            raise self.fault("this is no capture", "tcpdump -w and Wireshark write one")
        order, number = kinds[magic]
        link = (pcap.LEFileHdr if order == "<I" else pcap.FileHdr)(first).linktype & 0xFFFF
        kind = {">I": (pcap.PktHdr, pcap.PktModHdr), "<I": (pcap.LEPktHdr, pcap.LEPktModHdr)}[order][number == pcap.MODPCAP_MAGIC]
        nanoseconds = 1 if number == pcap.TCPDUMP_MAGIC_NANO else 1000
        return self.each_record(file, struct.Struct(kind.__hdr_fmt__), Interface(link), nanoseconds)

    def each_record(self, file: BinaryIO, layout: struct.Struct, interface: Interface, nanoseconds: int) -> Iterator[Packet]:
        """The packets behind the head of the file."""
        self.look_at(interface)
        read, size, unpack = file.read, layout.size, layout.unpack
        while head := read(size):
            if len(head) < size:
                self.cut_off()
                return
            seconds, fraction, length, whole = unpack(head)[:4]
            if length > MOST:
                raise self.fault(f"a record of {length} octets: this is no capture from here on", "record it anew")
            octets = read(length)
            if len(octets) < length:
                self.cut_off()
                return
            yield self.packet(interface, seconds * SECOND + fraction * nanoseconds, octets, whole - length, "", 0)

    def blocks(self, file: BinaryIO) -> Iterator[Packet]:
        """The packets of a file in pcapng."""
        from dpkt import pcapng

        file.seek(0)
        order = "<"
        while head := file.read(8):
            if head[:4] == b"\n\r\r\n":
                mark = file.read(4)
                file.seek(-4, 1)
                order = "<" if mark == struct.pack("<I", pcapng.BYTE_ORDER_MAGIC) else ">"
                self.interfaces = []
            kind, length = struct.unpack(f"{order}II", head) if len(head) == 8 else (0, 12)
            if length < 12 or length % 4 or length > MOST + 65536:
                raise self.fault(f"a block of {length} octets: this is no capture from here on", "record it anew")
            block = head + file.read(length - 8)
            if len(block) < length:
                self.cut_off()
                return
            if kind == pcapng.PCAPNG_BT_IDB:
                self.add_interface(block, order)
            elif kind == pcapng.PCAPNG_BT_EPB:
                yield self.enhanced(block, order)
            elif kind in (pcapng.PCAPNG_BT_SPB, pcapng.PCAPNG_BT_PB):
                raise self.fault("a packet without a time, or in an old block", "record it by tcpdump, dumpcap or tshark")

    def add_interface(self, block: bytes, order: str) -> None:
        """A description of an interface."""
        from dpkt import pcapng

        layout = pcapng.InterfaceDescriptionBlockLE if order == "<" else pcapng.InterfaceDescriptionBlock
        size = struct.calcsize(layout.__hdr_fmt__[:-1])
        interface = Interface(struct.unpack_from(layout.__hdr_fmt__[:-1], block)[2], str(len(self.interfaces)))
        for code, value in options(block[size:-4], order):
            if code == NAME:
                interface.name = value.decode(errors="replace")
            elif code == RESOLUTION and value:
                interface.units = 2 ** (value[0] & 127) if value[0] & 128 else 10 ** value[0]
            elif code == CHECK and value:
                interface.check = value[0] // 8 or value[0]
            elif code == OFFSET and len(value) == 8:
                interface.offset = struct.unpack(f"{order}q", value)[0]
        self.look_at(interface)
        self.interfaces.append(interface)

    def enhanced(self, block: bytes, order: str) -> Packet:
        """A packet of pcapng, with its flags."""
        number, high, low, length, whole = struct.unpack_from(f"{order}IIIII", block, 8)
        if number >= len(self.interfaces) or 28 + length > len(block) - 4:
            raise self.fault("a packet of an interface that is not described, or longer than its block", "record it anew")
        interface, behind = self.interfaces[number], 28 + (length + 3) // 4 * 4
        direction, check = "", interface.check
        if behind < len(block) - 4:
            for code, value in options(block[behind:-4], order):
                if code == FLAGS and len(value) == 4:
                    flags = struct.unpack(f"{order}I", value)[0]
                    direction = ("", IN, OUT, "")[flags & 3]
                    check = (flags >> 5 & 15) or check
        units = high << 32 | low
        time = units * SECOND // interface.units + interface.offset * SECOND
        return self.packet(interface, time, block[28 : 28 + length], whole - length, direction, check)

    def look_at(self, interface: Interface) -> None:
        """An interface of another kind than Ethernet is refused."""
        if interface.link not in (ETHERNET, COOKED, COOKED_2):
            raise self.fault(f"link type {interface.link} is not Ethernet (1) and no cooked one of Linux (113, 276)", "capture at an Ethernet interface")

    def packet(self, interface: Interface, time: int, octets: bytes, missing: int, direction: str, check: int) -> Packet:
        """The next packet, without its frame check sequence and with an Ethernet header in the place of a cooked one."""
        self.number += 1
        self.octets += len(octets)
        if check and missing <= 0:
            octets = octets[:-check]
        if interface.link == ETHERNET:
            return Packet(time, self.number, octets, missing, direction, interface.name, False)
        octets, told, name = uncooked(octets, interface.link)
        return Packet(time, self.number, octets, missing, told, name or interface.name, True)


def dropped_at_end(path: str) -> int:
    """How many packets the kernel did not hand on, as the last block of a file in pcapng tells it; 0 of another file."""
    with open(path, "rb") as file:
        if file.read(4) != b"\n\r\r\n" or file.seek(0, os.SEEK_END) < 40:
            return 0
        file.seek(8)
        order = "<" if file.read(1) == b"\x4d" else ">"
        file.seek(-4, os.SEEK_END)
        size = struct.unpack(f"{order}I", file.read(4))[0]
        if not 24 <= size <= 65536 or file.seek(0, os.SEEK_END) < size:
            return 0
        file.seek(-size, os.SEEK_END)
        block = file.read(size)
    if struct.unpack_from(f"{order}I", block)[0] != STATISTICS:
        return 0
    found = options(block[20:-4], order)
    return sum(struct.unpack(f"{order}Q", value)[0] for code, value in found if code in (DROPPED_BY_INTERFACE, DROPPED_BY_SYSTEM) and len(value) == 8)


def tell_dropped(findings: Findings, name: str, count: int) -> None:
    """Packets that the kernel did not hand on are told, for one file."""
    findings.tell("dropped", name, 0, f"{count} packets were dropped by the kernel and are not here", "give tcpdump a larger buffer (-B 65536), or send more slowly")


def options(found: bytes, order: str) -> Iterator[tuple[int, bytes]]:
    """The options of a block of pcapng: the code and the value of each."""
    place = 0
    while place + 4 <= len(found):
        code, size = struct.unpack_from(f"{order}HH", found, place)
        if code == 0:
            return
        yield code, found[place + 4 : place + 4 + size]
        place += 4 + (size + 3) // 4 * 4


def uncooked(octets: bytes, link: int) -> tuple[bytes, str, str]:
    """A packet with a cooked header as a frame, its direction, and its interface's number where there is one. A cooked header has no
    destination: that is told by its packet type, and of a group of IPv4 by the packet."""
    from dpkt.sll import SLL  # type: ignore[import]
    from dpkt.sll2 import SLL2  # type: ignore[import]

    layout = struct.Struct((SLL if link == COOKED else SLL2).__hdr_fmt__)
    if len(octets) < layout.size:
        return octets[:0], "", ""
    found = layout.unpack_from(octets)
    if link == COOKED:
        kind, _, _, address, protocol = found
        name = ""
    else:
        protocol, _, number, _, kind, _, address = found
        name = str(number)
    body = octets[layout.size :]
    if protocol < 0x0600:
        protocol = len(body)
    target = {TO_ALL: BROADCAST, TO_GROUP: group_of(protocol, body)}.get(kind, SOME_STATION)
    return target + address[:6] + struct.pack(">H", protocol) + body, OUT if kind == OUTGOING else IN, name


def group_of(protocol: int, body: bytes) -> bytes:
    """The group address of a multicast packet (RFC 1112 section 6.4, RFC 2464 section 7), as far as the packet tells it."""
    if protocol == 0x0800 and len(body) >= 20:
        return b"\x01\0\x5e" + bytes([body[17] & 0x7F]) + body[18:20]
    if protocol == 0x86DD and len(body) >= 40:
        return b"\x33\x33" + body[36:40]
    return SOME_GROUP
