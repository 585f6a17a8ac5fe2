"""Writes captures in the format pcapng, which Wireshark reads: sections, interfaces with names, packets with times and comments.

`text2pcap` makes no handshake and one interface a file, so these few blocks are written here.
"""

from __future__ import annotations

import struct

TYPE_CHECKING = False
if TYPE_CHECKING:
    from typing import Any

ETHERNET = 1
INBOUND, OUTBOUND = 1, 2


def block(kind: int, body: bytes) -> bytes:
    """A block: its type, its length twice, and its body, filled up to four octets."""
    body += bytes(-len(body) % 4)
    length = len(body) + 12
    return struct.pack("<II", kind, length) + body + struct.pack("<I", length)


def option(code: Any, octets: bytes) -> bytes:
    """An option of a block, filled up to four octets."""
    return struct.pack("<HH", code, len(octets)) + octets + bytes(-len(octets) % 4)


def section() -> bytes:
    """The head of a file."""
    return block(0x0A0D0D0A, struct.pack("<IHHq", 0x1A2B3C4D, 1, 0, -1))


def interface(name: str) -> bytes:
    """An interface with its name, whose times are microseconds."""
    return block(1, struct.pack("<HHI", ETHERNET, 0, 0) + option(2, name.encode()) + option(0, b""))


def packet(number: int, time: Any, octets: bytes, direction: Any, comment: str) -> bytes:
    """A packet at an interface, at a time in microseconds."""
    head = struct.pack("<IIIII", number, time >> 32, time & 0xFFFFFFFF, len(octets), len(octets))
    options = option(1, comment.encode()) + option(2, struct.pack("<I", direction)) + option(0, b"")
    return block(6, head + octets + bytes(-len(octets) % 4) + options)
