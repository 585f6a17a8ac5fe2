"""One end of an LDP session with a real speaker: Hellos, the connection, messages in their turn, KeepAlives."""

from __future__ import annotations

import contextlib
import ipaddress
import select
import socket
import struct
import time

from .command import Fault
from .program import decode

TYPE_CHECKING = False
if TYPE_CHECKING:
    from collections.abc import Iterator
    from typing import Any

    from .report import Report

PORT = 646
HELLO_EVERY, HELLO_HOLD, TARGETED = 5, 45, 0xC000
NOTIFICATION, HELLO, INITIALIZATION, KEEP_ALIVE, ADDRESS, MAPPING = 0x0001, 0x0100, 0x0200, 0x0201, 0x0300, 0x0400
FEC_TLV, PWID_FEC = 0x0100, 0x80
FATAL = 0x80000000


def message(kind: int, number: int, body: bytes) -> bytes:
    """The octets of a message."""
    return struct.pack(">HHI", kind, len(body) + 4, number) + body


def tlv(kind: int, value: bytes) -> bytes:
    """The octets of a TLV."""
    return struct.pack(">HH", kind, len(value)) + value


def pdu(address: bytes, octets: bytes) -> bytes:
    """The octets of a PDU with these messages (RFC 5036 section 3.1)."""
    return struct.pack(">HH", 1, len(octets) + 6) + address + b"\0\0" + octets


def messages_of(octets: bytes) -> Any:
    """The messages of a PDU: their types, and their octets."""
    place, found = 10, []
    while place + 8 <= len(octets):
        kind, size = struct.unpack_from(">HH", octets, place)
        found.append((kind & 0x7FFF, octets[place : place + 4 + size]))
        place += 4 + size
    return found


def key_of(kind: int, octets: bytes) -> tuple[Any, ...]:
    """By what a message is known again: its type, and of one with a PWid FEC element the PW ID (RFC 8077 section 6.1)."""
    place = 8
    while place + 4 <= len(octets):
        number, size = struct.unpack_from(">HH", octets, place)
        if number & 0x3FFF == FEC_TLV and size >= 12 and octets[place + 4] == PWID_FEC:
            return kind, octets[place + 12 : place + 16]
        if number & 0x3FFF == FEC_TLV and size and octets[place + 4] != PWID_FEC:
            return kind, None
        place += 4 + size
    return kind, b""


def exchange_of(report: Report, edge: str, peer: str) -> Any:
    """What two edges said to each other in the first connection of a report, in its order: who, and the octets of the PDU."""
    found: list[tuple[str, bytes]] = []
    for event in report.events:
        if found and (event.kind == "connect" and {edge, peer} == set(event.words) and not event.is_idle()):
            break
        for entry in event.entries:
            if entry.kind == "said" and set(entry.words[:2]) == {edge, peer}:
                found.append((entry.words[0], bytes.fromhex(entry.words[2])))
    return found


class Speaker:
    """This end of the session."""

    def __init__(self, own: Any, other: Any, seconds: float) -> None:
        self.own, self.other, self.seconds = own["address"], other["address"], seconds
        self.address = ipaddress.IPv4Address(self.own).packed
        self.every = max(1, own["keepalive"] / 3)
        # The sockets, once they are there.
        self.hellos: Any = None
        self.listener: Any = None
        self.session: Any = None
        self.next_hello = self.next_keep_alive = 0.0
        self.number, self.said_addresses = 0x7000_0000, False
        self.buffer = b""
        self.waiting: list[tuple[bytes, int, bytes]] = []
        self.difference: str | None = None
        self.besides = 0

    def meet(self) -> None:
        """Sends Hellos until the session's connection stands."""
        self.hellos = socket.socket(socket.AF_INET, socket.SOCK_DGRAM)
        self.hellos.setsockopt(socket.SOL_SOCKET, socket.SO_REUSEADDR, 1)
        self.hellos.bind((self.own, PORT))
        is_active = self.address > ipaddress.IPv4Address(self.other).packed
        if not is_active:
            self.listener = socket.socket(socket.AF_INET, socket.SOCK_STREAM)
            self.listener.setsockopt(socket.SOL_SOCKET, socket.SO_REUSEADDR, 1)
            self.listener.bind((self.own, PORT))
            self.listener.listen()
        end = time.monotonic() + self.seconds
        while self.session is None:
            if time.monotonic() > end:
                raise Fault(f"{self.other} opens no session within {self.seconds:g} s")
            self.hello()
            heard, _, _ = select.select([self.hellos, *([self.listener] if self.listener else [])], [], [], 1)
            if self.listener in heard:
                self.session, _ = self.listener.accept()
            elif self.hellos in heard and self.hellos.recvfrom(4096)[1][0] == self.other and is_active:
                self.connect()

    def connect(self) -> None:
        """Opens the connection, where the other end takes it by now."""
        session = socket.socket(socket.AF_INET, socket.SOCK_STREAM)
        session.bind((self.own, 0))
        session.settimeout(5)
        try:
            session.connect((self.other, PORT))
            self.session = session
        except (ConnectionError, TimeoutError):
            session.close()
            time.sleep(1)

    def hello(self) -> None:
        """A targeted Hello, every few seconds (RFC 5036 section 3.5.2)."""
        if time.monotonic() >= self.next_hello:
            self.next_hello = time.monotonic() + HELLO_EVERY
            body = tlv(0x0400, struct.pack(">HH", HELLO_HOLD, TARGETED)) + tlv(0x0401, self.address)
            self.hellos.sendto(pdu(self.address, message(HELLO, self.next_number(), body)), (self.other, PORT))

    def next_number(self) -> Any:
        """A Message ID that the report has not."""
        self.number += 1
        return self.number

    def put(self, octets: bytes) -> None:
        """Says a PDU."""
        self.session.sendall(octets)
        self.next_keep_alive = time.monotonic() + self.every

    def turn(self, seconds: float) -> None:
        """Waits for what comes, while Hellos and KeepAlives go out."""
        self.hello()
        if self.said_addresses and time.monotonic() >= self.next_keep_alive:
            self.put(pdu(self.address, message(KEEP_ALIVE, self.next_number(), b"")))
        heard, _, _ = select.select([self.session, self.hellos], [], [], min(1, seconds))
        if self.hellos in heard:
            self.hellos.recvfrom(4096)
        if self.session in heard:
            octets = self.session.recv(65536)
            if not octets:
                raise Fault(f"{self.other} has closed the session")
            self.hear(octets)

    def hear(self, octets: bytes) -> None:
        """Takes whole PDUs out of what came."""
        self.buffer += octets
        while len(self.buffer) >= 4 and len(self.buffer) >= 4 + struct.unpack_from(">H", self.buffer, 2)[0]:
            size = 4 + struct.unpack_from(">H", self.buffer, 2)[0]
            whole, self.buffer = self.buffer[:size], self.buffer[size:]
            self.waiting += [(whole[:10], kind, one) for kind, one in messages_of(whole)]

    def play(self, exchange: Any, edge: str, peer: str) -> Iterator[Any]:
        """Says each message of the edge in its turn, and tells what the peer says beside what the report has of it."""
        for who, octets in exchange:
            if who == edge:
                yield from (f"{edge} {peer}: {line}" for line in lines_of(octets))
                self.put(octets)
                continue
            for kind, one in messages_of(octets):
                if kind == KEEP_ALIVE and self.said_addresses:
                    continue
                came = self.wait_for(key_of(kind, one), peer)
                here, there = lines_of(came)[0], lines_of(octets[:2] + struct.pack(">H", len(one) + 6) + octets[4:10] + one)[0]
                yield f"{peer} {edge}: {here}"
                if without_number(here) != without_number(there):
                    yield f"  in the report: {there}"
                    self.difference = self.difference or difference(here, there)
                if kind == KEEP_ALIVE:
                    self.say_addresses()

    def say_addresses(self) -> None:
        """The address of this end, and a label for it: the implicit null (RFC 5036 sections 3.5.5 and 3.4.1)."""
        self.said_addresses = True
        addresses = tlv(0x0101, b"\0\1" + self.address)
        prefix = tlv(FEC_TLV, b"\2\0\1\40" + self.address) + tlv(0x0200, struct.pack(">I", 3))
        for kind, body in ((ADDRESS, addresses), (MAPPING, prefix)):
            self.put(pdu(self.address, message(kind, self.next_number(), body)))

    def wait_for(self, key: Any, peer: str) -> Any:
        """The first message with this key, as a PDU of its own; what comes before it is counted."""
        end = time.monotonic() + self.seconds
        while True:
            while self.waiting:
                head, kind, octets = self.waiting.pop(0)
                if key_of(kind, octets) == key:
                    return head[:2] + struct.pack(">H", len(octets) + 6) + head[4:10] + octets
                if kind == NOTIFICATION and struct.unpack_from(">I", octets, 12)[0] & FATAL:
                    raise Fault(f"{peer} ends the session: {lines_of(head[:2] + struct.pack('>H', len(octets) + 6) + head[4:10] + octets)[0]}")
                self.besides += kind not in (KEEP_ALIVE, HELLO)
            left = end - time.monotonic()
            if left <= 0:
                raise Fault(f"{peer} says no message of type 0x{key[0]:04x} within {self.seconds:g} s, as it did in the report")
            self.turn(left)

    def stay(self, seconds: float) -> None:
        """Keeps the session for a while, or until an interrupt."""
        end = time.monotonic() + seconds
        with contextlib.suppress(KeyboardInterrupt):
            while time.monotonic() < end:
                self.turn(end - time.monotonic())
        self.besides += sum(kind not in (KEEP_ALIVE, HELLO) for _, kind, _ in self.waiting)

    def close(self) -> None:
        """Ends it."""
        for one in (self.session, self.listener, self.hellos):
            if one is not None:
                one.close()


def lines_of(octets: bytes) -> list[Any]:
    """The messages of a PDU as `decode` tells them."""
    return [line.partition(" ")[2] for line in decode(octets)] or ["what decode refuses"]


def without_number(line: Any) -> list[Any]:
    """A message without its Message ID."""
    return [part for part in line.split(" ") if not part.startswith("id=")]


def difference(here: Any, there: Any) -> str:
    """The first parts in which two messages differ."""
    came, told = without_number(here), without_number(there)
    for a, b in zip(came, told):
        if a != b:
            return f"{came[0]} came with {a}, and has {b} in the report"
    more = (came + told)[min(len(came), len(told)) :]
    return f"{came[0]} {'came with' if len(came) > len(told) else 'came without'} {(came if len(came) > len(told) else told)[min(len(came), len(told))]}" if more else ""
