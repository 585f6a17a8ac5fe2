"""The tables of a scenario, of both versions: their keys, the values that are allowed, and the defaults (docs/FORMATS.md)."""

from __future__ import annotations

TYPE_CHECKING = False
if TYPE_CHECKING:
    from typing import Any


class Key:
    """A key of a row: its kind, the least and the largest number or length, and the default, None where it is needed or
    where nothing is told."""

    __slots__ = ("name", "kind", "least", "most", "default", "needed")

    def __init__(self, name: str, kind: str, least: int = 0, most: int = 0, default: object = None, needed: bool = False) -> None:
        self.name, self.default, self.needed = name, default, needed
        self.kind = kind  # name, address, number, text, flag, path, class, mode or table
        self.least, self.most = least, most

    def as_far(self) -> Key:
        """The key of version 1 by which the last edge of the path offers something else."""
        return Key(f"far_{self.name}", self.kind, self.least, self.most)


NAME = Key("name", "name", needed=True)
EDGE = [
    NAME,
    Key("address", "address", needed=True),
    Key("first_label", "number", 16, 1048575, default=16),
    Key("keepalive", "number", 3, 65535, default=180),
    Key("max_pdu", "number", 256, 4096, default=4096),
]
SERVICE = [NAME, Key("mtu", "number", 64, 9198, default=1500), Key("age", "number", 1, 1000000, default=300)]
GROUP = [NAME, Key("number", "number", 1, 4294967295, needed=True)]
CIRCUIT = [
    NAME,
    Key("edge", "name", needed=True),
    Key("service", "name", needed=True),
    Key("tag", "number", 1, 4094),
]
WIRE = [
    NAME,
    Key("service", "name", needed=True),
    Key("class", "class", needed=True),
    Key("path", "path", needed=True),
    Key("pw_id", "number", 1, 4294967295, needed=True),
    Key("priority", "number", 0, 255, default=100),
]
# What a terminal edge of a wire offers, as a table `near` or `far` of version 2 has it. An absent MTU is the service's.
OFFER = [
    Key("mode", "mode", default="raw"),
    Key("control_word", "flag", default=True),
    Key("mtu", "number", 0, 65535),
    Key("vlan", "number", 0, 4095),
    Key("vccv", "number", 0, 7, default=0),
    Key("status", "flag", default=True),
    Key("group", "name"),
    Key("description", "text", 0, 80, default=""),
]
# The same as keys of a wire of version 1, where a group is a number. With the prefix far_ they hold for the last edge of the path.
PLAIN_OFFER = [Key("group", "number", 0, 4294967295, default=0) if key.name == "group" else key for key in OFFER]
FAR_OFFER = [key.as_far() for key in PLAIN_OFFER]
ENDS = ("near", "far")
NEWEST = 2
# The tables of each version, in the order in which their rows are looked at.
TABLES = {
    1: {"edge": EDGE, "service": SERVICE, "circuit": CIRCUIT, "wire": [*WIRE, *PLAIN_OFFER, *FAR_OFFER]},
    2: {
        "edge": EDGE,
        "service": SERVICE,
        "group": GROUP,
        "circuit": CIRCUIT,
        "wire": [*WIRE, *(Key(end, "table") for end in ENDS)],
    },
}
MOST_ROWS = {"events": 100_000, "edge": 64, "service": 64, "group": 2048, "circuit": 512, "wire": 1024}
MOST_PORTS = 512
MOST_PLAYS = 4


def allowed(key: Key) -> str:
    """The values that a key takes, in words."""
    return {
        "name": "1 to 32 characters of a to z, 0 to 9 and _, in quotes",
        "address": "a dotted quad without leading zeros, and not 0.0.0.0, in quotes",
        "number": f"a number from {key.least} to {key.most}",
        "text": f"a text of at most {key.most} octets, in quotes",
        "flag": "true or false",
        "path": 'an array of the names of 2 to 5 edges, such as ["a", "b"]',
        "class": '"mesh" or "spoke"',
        "mode": '"raw" or "tagged"',
        "table": "a table of what that end offers, such as { mtu = 1400 }",
    }[key.kind]


def arrays(version: int) -> list[Any]:
    """The arrays of a version, in the order in which their kinds and numbers of rows are looked at."""
    return ["events", *TABLES[version]]
