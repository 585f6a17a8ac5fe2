"""The LDP of a capture, as tshark tells it: who spoke, and the segments of each connection."""

from __future__ import annotations

import subprocess
from typing import NamedTuple

from . import command

TYPE_CHECKING = False
if TYPE_CHECKING:
    import pathlib

LDP = "tcp.port == 646"


class Segment(NamedTuple):
    """A segment that has octets: its connection, its packet and time in seconds, both addresses, the place of its octets in what its
    sender says, and these."""

    stream: int
    packet: int
    time: float
    source: str
    destination: str
    place: int
    octets: bytes


def tshark(*words: str | pathlib.Path) -> str:
    """What tshark writes of a capture. A captured frame that is cut is no fault."""
    program = command.external("tshark", "tshark")
    done = subprocess.run([program, *words], stdin=subprocess.DEVNULL, capture_output=True, text=True, check=False)
    if done.returncode != 0:
        said = [line for line in done.stderr.splitlines() if line.startswith("tshark:")]
        raise command.Fault((said or ["tshark: it ended with a fault"])[0])
    return done.stdout


def segments(path: str | pathlib.Path) -> list[Segment]:
    """The segments of LDP with octets, in the order of the capture."""
    keys = ["tcp.stream", "frame.number", "frame.time_relative", "ip.src", "ip.dst", "tcp.seq", "tcp.payload"]
    fields = [word for key in keys for word in ("-e", key)]
    found = []
    for line in tshark("-r", path, "-Y", f"{LDP} && tcp.len > 0", "-T", "fields", "-E", "occurrence=f", *fields).splitlines():
        stream, packet, time, source, destination, place, octets = line.split("\t")
        if octets:
            found.append(Segment(int(stream), int(packet), float(time), source, destination, int(place), bytes.fromhex(octets.replace(":", ""))))
    return found


def speakers(path: str | pathlib.Path) -> list[str]:
    """The addresses that say something by TCP with port 646."""
    return list(dict.fromkeys(tshark("-r", path, "-Y", f"{LDP} && tcp.len > 0", "-T", "fields", "-E", "occurrence=f", "-e", "ip.src").split()))


def whole(octets: bytes) -> int:
    """How many octets of a stream the whole PDUs at its front take (RFC 5036 section 3.1)."""
    end = 0
    while end + 4 <= len(octets) and end + 4 + int.from_bytes(octets[end + 2 : end + 4], "big") <= len(octets):
        end += 4 + int.from_bytes(octets[end + 2 : end + 4], "big")
    return end
