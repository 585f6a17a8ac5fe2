"""The grammar of Cisco IOS XR: `l2vpn` with its bridge domains, and `mpls ldp`."""

from __future__ import annotations

from .grammar import Level
from .parts import MESH, POINT, SPOKE, Instance, Pseudowire, Router, Said
from .reading import (
    Interface, Meaning, Reader, aged, attached, described, discovered, hostname, identified, instance_of, kept_alive, of_class, offers, offers_mtu, offers_one,
    own_address, pops_tag, pseudowire_to, pw_class, refused, shut_instance, shut_interface, shut_wire, static, tagged, told_of_circuit,
)

TYPE_CHECKING = False
if TYPE_CHECKING:
    from collections.abc import Callable
    from typing import Any

    from .blocks import Block

GUIDE = "Cisco ASR 9000, L2VPN and Ethernet Services Command Reference"
MEANINGS = {
    "mode": Meaning("raw", f"{GUIDE}, transport-mode: a pseudowire of a bridge domain has type Ethernet where nothing is said"),
    "control_word": Meaning(False, f"{GUIDE}, control-word: disabled where nothing is said"),
    "mtu": Meaning(1500, f"{GUIDE}, mtu: 1500 octets of payload in a bridge domain where nothing is said"),
    "status": Meaning(True, f"{GUIDE}, pw-status: pw-status disable takes away what stands by itself"),
    "keepalive": Meaning(180, "Cisco ASR 9000, MPLS Command Reference, session holdtime: 180"),
    "age": Meaning(300, f"{GUIDE}, mac aging time: 300"),
    "priority": Meaning((0, 1), "own: the neighbor comes before its backup, to which no number is given"),
}


def interface(layer2: bool) -> Callable[..., Interface]:
    """The lines of an interface; one of layer 2 keeps its tag where nothing takes it off."""

    def does(reader: Reader, _router: Router, block: Block, name: str) -> Interface:
        made = reader.interface(name, block.line)
        made.keeps_tag = layer2
        return made

    return does


def bridge_group(reader: IosXr, _router: Router, _block: Block, name: str) -> None:
    """The bridge group of the domains within it."""
    reader.bridge_group = name


def bridge_domain(reader: IosXr, router: Router, block: Block, name: str) -> Instance:
    """A service. Of two domains with one name the later one has that of its group, too."""
    group: str = reader.bridge_group
    taken = any(instance.name == name for instance in router.instances)
    return instance_of(reader, block, f"{group}_{name}" if taken else name, group, name)


def point(reader: Reader, _router: Router, block: Block, _name: str) -> Instance:
    """A cross-connect of one circuit."""
    made = instance_of(reader, block, None)
    made.point = True
    return made


def wired(kind: str) -> Callable[..., Pseudowire]:
    """A pseudowire of a service."""

    def does(reader: IosXr, within: Instance, block: Block, address: str, pw_id: str) -> Pseudowire:
        made = pseudowire_to(reader, block, address, pw_id, kind)
        within.pseudowires.append(made)
        reader.instance_of[made] = within
        return made

    return does


def backed_up(reader: IosXr, within: Pseudowire, block: Block, address: str, pw_id: str) -> Pseudowire:
    """The backup of a pseudowire."""
    made: Pseudowire = wired(within.kind)(reader, reader.instance_of[within], block, address, pw_id)
    first, second = MEANINGS["priority"].value
    within.rank, made.rank = Said(first, within.line), Said(second, block.line)
    return made


PORT = Level(
    "kept",
    ("description TEXT", None),
    ("no shutdown", None),
    ("shutdown", shut_interface),
    ("ipv4 address NAME ..", own_address),
    ("encapsulation dot1q NUMBER [exact]", tagged),
    ("dot1q vlan NUMBER", tagged),
    ("encapsulation default", None),
    ("encapsulation untagged", told_of_circuit("a scenario's circuit without a tag takes frames with tags of their own, too")),
    ("encapsulation ..", refused("a scenario's circuit has one tag, or none")),
    ("rewrite ingress tag pop 1 symmetric", pops_tag),
    ("rewrite ..", told_of_circuit("a scenario's circuit takes its tag off where a frame enters, and puts it on where it leaves")),
)
PORT.add("l2transport", None, PORT)
LDP = Level(
    "told",
    ("router-id NAME", identified),
    ("session holdtime NUMBER", kept_alive),
    ("holdtime NUMBER", kept_alive),
    ("interface ..", None, Level("passed")),
    ("discovery ..", None, Level("passed")),
    ("discovery", None, Level("passed")),
    ("log", None, Level("passed")),
    ("log ..", None),
    ("igp ..", None, Level("passed")),
    ("nsr", None),
    ("address-family ipv4", None, Level("passed")),
)
CLASS = Level(
    "told",
    ("encapsulation mpls", None, Level(
        "told",
        ("protocol ldp", None),
        ("control-word", offers("control_word", True)),
        ("control-word disable", offers("control_word", False)),
        ("transport-mode (ethernet|vlan)", offers_one("mode", {"ethernet": "raw", "vlan": "tagged"})),
        ("transport-mode vlan passthrough", offers("mode", "tagged")),
        ("vccv verification-type none", offers("vccv", 0)),
    )),
    ("encapsulation ..", "encapsulation"),
)
WIRE_ROWS: list[Any] = [
    ("pw-class NAME", of_class),
    ("description TEXT", described),
    ("shutdown", shut_wire),
    ("mpls static label ..", static),
    ("split-horizon group", "two spokes and circuits of a scenario always reach each other"),
]
WIRE = Level("told", *WIRE_ROWS, ("backup neighbor ADDRESS pw-id NUMBER", backed_up, Level("told", *WIRE_ROWS)))
VFI = Level(
    "told",
    ("vpn-id NUMBER", None),
    ("description TEXT", described),
    ("shutdown", shut_instance),
    ("neighbor ADDRESS pw-id NUMBER", wired(MESH), Level("told", *WIRE_ROWS)),
    ("autodiscovery bgp", discovered, Level("passed")),
)
AGING = Level("told", ("time NUMBER", aged), ("type inactivity", None))
DOMAIN = Level(
    "told",
    ("description TEXT", described),
    ("shutdown", shut_instance),
    ("mtu NUMBER", offers_mtu),
    ("mac", None, Level("told", ("aging", None, AGING), ("aging time NUMBER", aged))),
    ("mac aging time NUMBER", aged),
    ("interface NAME", attached, Level("told", ("split-horizon group", "circuits of a scenario always reach each other"))),
    ("neighbor ADDRESS pw-id NUMBER", wired(SPOKE), WIRE),
    ("access-vfi NAME", None, Level("told", ("neighbor ADDRESS pw-id NUMBER", wired(SPOKE), WIRE))),
    ("vfi NAME", None, VFI),
)
POINTS = Level(
    "told",
    ("description TEXT", described),
    ("interface NAME", attached),
    ("neighbor [ipv4] ADDRESS pw-id NUMBER", wired(POINT), WIRE),
)
L2VPN = Level(
    "told",
    ("router-id NAME", None),
    ("logging ..", None, Level("passed")),
    ("logging", None, Level("passed")),
    ("pw-status disable", offers("status", False)),
    ("pw-class NAME", pw_class, CLASS),
    ("bridge group NAME", bridge_group, Level("told", ("bridge-domain NAME", bridge_domain, DOMAIN))),
    ("xconnect group NAME", None, Level("told", ("p2p NAME", point, POINTS))),
)
GRAMMAR = Level(
    "passed",
    ("hostname NAME", hostname),
    ("interface NAME l2transport", interface(True), PORT),
    ("interface NAME", interface(False), PORT),
    ("mpls ldp", None, LDP),
    ("l2vpn", None, L2VPN),
)


class IosXr(Reader):
    """A configuration of Cisco IOS XR."""

    vendor, title = "ios-xr", "Cisco IOS XR"
    grammar, meanings = GRAMMAR, MEANINGS

    def __init__(self, path: str, text: str) -> None:
        self.bridge_group = ""
        self.instance_of: dict[Pseudowire, Instance] = {}
        super().__init__(path, text)

    def finish(self) -> None:
        """The router's address, and cross-connects that are switching points."""
        self.use_loopbacks("loopback")
        for instance in self.router.instances:
            wires = [wire for wire in instance.pseudowires if wire.kind == POINT and (wire.rank is None or wire.rank.value == 0)]
            if len(wires) > 1:
                for wire in wires:
                    wire.left_out = True
                self.tell(wires[1].line, "two neighbors of one cross-connect make a switching point, which is not read: both are left out", "switching")
