"""Ethernet, IPv4, TCP and UDP headers in front of octets (IEEE 802.3, RFC 791, RFC 9293, RFC 768)."""

from __future__ import annotations

import ipaddress
import struct

TYPE_CHECKING = False
if TYPE_CHECKING:
    from typing import Any

IPV4, MPLS = 0x0800, 0x8847
TCP, UDP = 6, 17
FIN, SYN, RST, PSH, ACK = 0x01, 0x02, 0x04, 0x08, 0x10


def checksum(octets: bytes) -> Any:
    """The Internet checksum (RFC 1071)."""
    if len(octets) % 2:
        octets += b"\0"
    total = sum(struct.unpack(f">{len(octets) // 2}H", octets))
    while total >> 16:
        total = (total & 0xFFFF) + (total >> 16)
    return ~total & 0xFFFF


def station(address: str) -> bytes:
    """The Ethernet address that an edge has in a capture: 02:00 and its IPv4 address."""
    return b"\x02\x00" + ipaddress.IPv4Address(address).packed


def ethernet(source: Any, destination: Any, kind: int, octets: bytes) -> bytes:
    """A frame between two edges, which are named by their IPv4 addresses."""
    return station(destination) + station(source) + struct.pack(">H", kind) + octets


def ipv4(source: Any, destination: Any, protocol: Any, octets: bytes) -> bytes:
    """An IPv4 packet."""
    ends = ipaddress.IPv4Address(source).packed + ipaddress.IPv4Address(destination).packed
    head = struct.pack(">BBHHHBBH", 0x45, 0, 20 + len(octets), 0, 0x4000, 64, protocol, 0) + ends
    return head[:10] + struct.pack(">H", checksum(head)) + head[12:] + octets


def tcp(source: Any, destination: Any, ports: Any, counts: Any, flags: int, octets: bytes = b"") -> bytes:
    """A TCP segment in a frame: `ports` of both ends, `counts` the sequence and the acknowledgment number."""
    head = struct.pack(">HHIIBBHHH", *ports, counts[0] & 0xFFFFFFFF, counts[1] & 0xFFFFFFFF, 0x50, flags, 65535, 0, 0)
    head = head[:16] + struct.pack(">H", checksum(pseudo(source, destination, TCP, head + octets))) + head[18:]
    return ethernet(source, destination, IPV4, ipv4(source, destination, TCP, head + octets))


def udp(source: Any, destination: Any, ports: Any, octets: bytes) -> bytes:
    """A UDP datagram in a frame."""
    head = struct.pack(">HHHH", *ports, 8 + len(octets), 0)
    head = head[:6] + struct.pack(">H", checksum(pseudo(source, destination, UDP, head + octets)))
    return ethernet(source, destination, IPV4, ipv4(source, destination, UDP, head + octets))


def pseudo(source: Any, destination: Any, protocol: Any, octets: bytes) -> bytes:
    """What the checksum of a segment or a datagram is taken over (RFC 9293 section 3.1, RFC 768)."""
    ends = ipaddress.IPv4Address(source).packed + ipaddress.IPv4Address(destination).packed
    return ends + struct.pack(">BBH", 0, protocol, len(octets)) + octets
