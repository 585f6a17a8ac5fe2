"""A plan as configurations of Cisco IOS XE."""

from __future__ import annotations

from .ios import CHANNELS, MEANINGS
from .text import End, Part, Port, Text

TYPE_CHECKING = False
if TYPE_CHECKING:
    from typing import Any


class IosText(Text):
    """The configurations of IOS XE."""

    unsaid = ("vlan", "group")
    shared = ("description",)
    meanings = MEANINGS
    most_spokes = 4
    least_keepalive = 15

    def __init__(self, plan: Any) -> None:
        super().__init__(plan)
        self.classes: dict[tuple[Any, ...], str] = {}
        self.fronts: dict[str, None] = {}

    def router(self, edge: str, parts: list[Part]) -> str:
        """The configuration of an edge."""
        self.classes, self.fronts = {}, {}
        keepalive = self.keepalive(edge)
        services = [line for part in parts for line in self.service(edge, part)]
        lines = ["!", "version 17.3", "!", f"hostname {edge}", "!"]
        for key, name in self.classes.items():
            for front in self.fronts:
                if front.endswith(f" {name}"):
                    lines += [front, " encapsulation mpls", *offer_lines(dict(zip(KEYS, key))), "!"]
        lines += [*services, "interface Loopback0", f" ip address {self.plan.edges[edge]['address']} 255.255.255.255", "!"]
        lines += [line for part in parts for port in part.circuits for line in self.interface(part, port)]
        lines += [f"mpls ldp holdtime {keepalive}"] if keepalive else []
        return "\n".join([*lines, "mpls ldp router-id Loopback0 force", "!", "end", ""])

    def name_of_class(self, end: End, word: str) -> str:
        """The name of the class that offers what an end does, which begins with this word."""
        name = self.classes.setdefault(tuple(end.offer[key] for key in KEYS), f"class{len(self.classes) + 1}")
        self.fronts[f"{word} {name}"] = None
        return name

    def crosses(self, part: Part) -> bool:
        """Whether a service is a cross-connect here, as spokes that are several have to be."""
        return len(part.starts) > 1

    def choose(self, edge: str, part: Part) -> None:
        """Of a cross-connect, the first spoke has the priority 0, and there is one circuit."""
        if len(part.starts) > 1 and len(part.circuits) != 1:
            for end in sorted(part.starts, key=lambda end: end.wire.priority)[1:]:
                why = f"spokes that are several are those of one circuit, and there are {len(part.circuits)}"
                self.leave(f"wire {end.wire.name} at {edge} is left out: {why}")
            part.starts = sorted(part.starts, key=lambda end: end.wire.priority)[:1]
        super().choose(edge, part)

    def ranks_of(self, priorities: list[int]) -> list[int]:
        """The first one is no backup, and has no number: it is 0, and no other one is."""
        said = priorities[0] == 0 and all(0 < priority < 17 for priority in priorities[1:])
        return priorities if said else list(range(len(priorities)))

    def service(self, edge: str, part: Part) -> list[str]:
        """A service and its bridge domain. One that is a cross-connect stands in its interface."""
        if self.crosses(part):
            return self.cross(edge, part)
        first = part.number * 1000
        inside, outside = [*part.mesh, *part.starts], part.hubs
        description = self.one(part, "description")
        lines = [f"l2vpn vfi context {part.service}", *([f" description {description}"] if description else []), f" vpn id {part.number}"]
        if not part.ends():
            mtu = self.plan.services[part.service]["mtu"]
            lines += [f" mtu {mtu}"] if mtu != MEANINGS["mtu"].value else []
        lines += [f" member pseudowire{first + place}" for place in range(len(inside))]
        age = self.age(part)
        lines += ["!", f"bridge-domain {part.number}", *([f" mac aging-time {age}"] if age else []), f" member vfi {part.service}"]
        lines += [f" member GigabitEthernet0/0/{port.number} service-instance {port.tag or 1}" for port in part.circuits]
        lines += [f" member pseudowire{first + len(inside) + place}" for place in range(len(outside))]
        lines += ["!"]
        for place, end in enumerate([*inside, *outside]):
            lines += [f"interface pseudowire{first + place}", f" source template type pseudowire {self.name_of_class(end, 'template type pseudowire')}", " encapsulation mpls"]
            lines += [f" neighbor {end.far} {end.wire.pw_id}", "!"]
        return lines

    def cross(self, edge: str, part: Part) -> list[str]:
        """A cross-connect: what it lacks is told, its classes are named."""
        if self.one(part, "description"):
            self.leave(f"service {part.service} at {edge}: its description is left out, since a cross-connect has none")
        if self.age(part):
            self.leave(f"service {part.service} at {edge}: its age {self.age(part)} is left out, since a cross-connect has none")
        for end in part.ends():
            self.name_of_class(end, "pseudowire-class")
        return []

    def interface(self, part: Part, port: Port) -> list[str]:
        """The lines of a circuit."""
        lines = [f"interface GigabitEthernet0/0/{port.number}", " no ip address", f" service instance {port.tag or 1} ethernet", f"  description {port.name}"]
        lines += ["  encapsulation default"] if port.tag is None else [f"  encapsulation dot1q {port.tag}", "  rewrite ingress tag pop 1 symmetric"]
        if self.crosses(part):
            for place, (end, rank) in enumerate(zip(part.starts, part.ranks)):
                front = "  xconnect" if place == 0 else "   backup peer"
                more = "encapsulation mpls " if place == 0 else ""
                last = f" priority {rank}" if place > 0 else ""
                lines += [f"{front} {end.far} {end.wire.pw_id} {more}pw-class {self.name_of_class(end, 'pseudowire-class')}{last}"]
        return [*lines, " !", "!"]


# What a class says, in this order.
KEYS = ("mode", "control_word", "mtu", "vccv", "status")


def offer_lines(offer: dict[str, Any]) -> list[str]:
    """The lines of a class."""
    lines = [" interworking vlan"] if offer["mode"] == "tagged" else []
    lines += [" control-word include" if offer["control_word"] else " control-word exclude"]
    lines += [f" mtu {offer['mtu']}"] if offer["mtu"] != MEANINGS["mtu"].value else []
    lines += [f" vccv {word}" for word, bit in CHANNELS.items() if offer["vccv"] & bit]
    return [*lines, *([] if offer["status"] else [" no status"])]
