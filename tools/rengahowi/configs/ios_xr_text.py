"""A plan as configurations of Cisco IOS XR."""

from __future__ import annotations

from .ios_xr import MEANINGS
from .text import End, Part, Port, Text

TYPE_CHECKING = False
if TYPE_CHECKING:
    from typing import Any


class IosXrText(Text):
    """The configurations of IOS XR."""

    unsaid = ("vlan", "vccv", "group")
    shared = ("mtu", "description")
    meanings = MEANINGS
    least_keepalive = 15

    def router(self, edge: str, parts: list[Part]) -> str:
        """The configuration of an edge."""
        address, keepalive = self.plan.edges[edge]["address"], self.keepalive(edge)
        lines = ["!! IOS XR Configuration", f"hostname {edge}", "interface Loopback0", f" ipv4 address {address} 255.255.255.255", "!"]
        lines += [line for part in parts for port in part.circuits for line in interface(port)]
        lines += ["mpls ldp", f" router-id {address}", *([f" session holdtime {keepalive}"] if keepalive else []), "!", "l2vpn"]
        lines += self.status(edge, parts)
        lines += [line for name, offer in self.classes(parts).items() for line in pw_class(name, offer)]
        if parts:
            lines += [" bridge group customers", *(line for part in parts for line in self.domain(part)), " !"]
        return "\n".join([*lines, "!", "end", ""])

    def status(self, edge: str, parts: list[Part]) -> list[str]:
        """Whether statuses are told, which a router does for all or for none."""
        ends = [end for part in parts for end in part.ends()]
        for end in ends:
            if end.offer["status"] != ends[0].offer["status"]:
                self.leave(f"wire {end.wire.name} at {edge}: status is left out, since a router has one")
        return [" pw-status disable"] if ends and not ends[0].offer["status"] else []

    def classes(self, parts: list[Part]) -> dict[str, dict[str, Any]]:
        """The classes of all ends, by their names."""
        return {name: end.offer for part in parts for end in part.ends() if (name := class_of(end)) is not None}

    def domain(self, part: Part) -> list[str]:
        """A service."""
        lines = [f"  bridge-domain {part.service}"]
        description, mtu, age = self.one(part, "description"), self.one(part, "mtu"), self.age(part)
        lines += [f"   description {description}"] if description else []
        lines += [f"   mtu {mtu}"] if mtu != MEANINGS["mtu"].value else []
        lines += ["   mac", "    aging", f"     time {age}", "    !", "   !"] if age else []
        lines += [line for port in part.circuits for line in (f"   interface {name_of(port)}", "   !")]
        for end in part.hubs:
            lines += neighbor(end, 3)
        for end in part.starts[:1]:
            lines += neighbor(end, 3, [line for backup in part.starts[1:] for line in neighbor(backup, 4, word="backup neighbor")])
        if part.mesh:
            lines += [f"   vfi {part.service}", *(line for end in part.mesh for line in neighbor(end, 4)), "   !"]
        return [*lines, "  !"]


def name_of(port: Port) -> str:
    """The interface of a circuit."""
    return f"GigabitEthernet0/0/0/{port.number}" + (f".{port.tag}" if port.tag is not None else "")


def interface(port: Port) -> list[str]:
    """The lines of a circuit."""
    if port.tag is None:
        return [f"interface {name_of(port)}", f" description {port.name}", " l2transport", " !", "!"]
    tagged = [f" encapsulation dot1q {port.tag}", " rewrite ingress tag pop 1 symmetric", "!"]
    return [f"interface {name_of(port)} l2transport", f" description {port.name}", *tagged]


def class_of(end: End) -> str | None:
    """The name of an end's class; None where it needs none."""
    words = [word for word, is_so in (("word", end.offer["control_word"]), ("tagged", end.offer["mode"] == "tagged")) if is_so]
    return "_".join(words) or None


def pw_class(name: str, offer: dict[str, Any]) -> list[str]:
    """The lines of a class."""
    lines = [f" pw-class {name}", "  encapsulation mpls"]
    lines += ["   control-word"] if offer["control_word"] else []
    lines += ["   transport-mode vlan"] if offer["mode"] == "tagged" else []
    return [*lines, "  !", " !"]


def neighbor(end: End, depth: int, inner: list[str] | None = None, word: str = "neighbor") -> list[str]:
    """The lines of a pseudowire."""
    front, name = " " * depth, class_of(end)
    lines = [f"{front}{word} {end.far} pw-id {end.wire.pw_id}"] + ([f"{front} pw-class {name}"] if name else [])
    return [*lines, *(inner or []), f"{front}!"]
