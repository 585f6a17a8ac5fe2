"""The grammar of Cisco IOS and IOS XE: `l2 vfi`, `l2vpn vfi context`, `xconnect`, and the ports that belong to them."""

from __future__ import annotations

from .blocks import Block
from .grammar import Level
from .parts import MESH, POINT, SPOKE, Circuit, Instance, Pseudowire, Router, Said
from .reading import (
    Class, Interface, Meaning, Reader, described, hostname, identified, instance_of, kept_alive, of_class, offers, offers_mtu, offers_one, own_address,
    pops_tag, pseudowire_to, pw_class, pw_id_of, refused, says, shut_instance, shut_interface, shut_wire, tagged, told_of_circuit,
)

TYPE_CHECKING = False
if TYPE_CHECKING:
    from collections.abc import Callable, Iterator
    from typing import Any


GUIDE = "Cisco IOS Multiprotocol Label Switching Command Reference"
WIDE = "Cisco IOS Wide-Area Networking Command Reference"
MEANINGS = {
    "mode": Meaning("raw", f"{GUIDE}, l2 vfi: the VC type of a VFI is Ethernet, 5"),
    "mode of a subinterface": Meaning("tagged", f"{WIDE}, xconnect: the VC type of a VLAN subinterface is Ethernet VLAN, 4"),
    "control_word": Meaning(True, f"{WIDE}, control-word: wanted where nothing is said"),
    "mtu": Meaning(1500, f"{WIDE}, mtu: 1500, that of the interface"),
    "status": Meaning(True, f"{WIDE}, status: no status takes away what stands by itself"),
    "keepalive": Meaning(180, f"{GUIDE}, mpls ldp holdtime: 180"),
    "age": Meaning(300, "Cisco IOS LAN Switching Command Reference, mac address-table aging-time: 300"),
    "priority": Meaning((0, 1), f"{WIDE}, backup peer: priority 0 to 16, 1 where nothing is said; own: xconnect comes before all of them, as 0"),
}
# The control channels of RFC 5085 section 5.3.1 by the words of `vccv`.
CHANNELS = {"control-word": 1, "router-alert": 2, "ttl": 4}


def interface(reader: Reader, _router: Router, block: Block, name: str) -> Interface:
    """An interface."""
    return reader.interface(name, block.line)


def service_instance(reader: Reader, within: Interface, block: Block, number: str, _name: str | None) -> Interface:
    """A service instance of a port, which keeps its tag where nothing takes it off."""
    made = reader.interface(f"{within.name}.{number}", block.line)
    made.keeps_tag = True
    made.said["service instance"] = Said(number, block.line)
    return made


def to_neighbour(_reader: Reader, within: Interface, block: Block, address: str, pw_id: str) -> None:
    """The neighbour and the PW ID of an interface that is a pseudowire."""
    within.said["neighbor"] = Said((address, pw_id), block.line)


def channel(_reader: Reader, within: Class, block: Block, word: str) -> None:
    """A type of control channel, beside those before."""
    before = within.offer.get("vccv", Said(0, 0)).value
    within.offer["vccv"] = Said(before | CHANNELS[word], block.line)


def vfi(reader: Reader, _router: Router, block: Block, name: str) -> Instance:
    """A service."""
    return instance_of(reader, block, name)


def numbered(reader: Reader, within: Instance, block: Block, text: str) -> None:
    """The PW ID of all neighbours that have none of their own."""
    within.pw_id = pw_id_of(reader, block, text)


def wired(kind: str) -> Callable[..., Pseudowire]:
    """A neighbour of a service, perhaps with a PW ID and a class of its own."""

    def does(reader: Reader, within: Instance, block: Block, address: str, pw_id: str | None, name: str | None = None, word: str | None = None) -> Pseudowire:
        made = pseudowire_to(reader, block, address, pw_id, SPOKE if word == "no-split-horizon" else kind)
        within.pseudowires.append(made)
        if name is not None:
            of_class(reader, made, block, name)
        return made

    return does


def member(kind: str) -> Callable[..., Pseudowire]:
    """A pseudowire whose lines stand in an interface of their own."""

    def does(reader: Ios, within: Instance, block: Block, name: str) -> Pseudowire:
        made = Pseudowire(name, block.line, kind)
        within.pseudowires.append(made)
        reader.members.append((made, Said(name, block.line)))
        return made

    return does


def cross_connect(reader: Ios, within: Interface, block: Block, address: str, pw_id: str, name: str | None = None) -> Pseudowire:
    """A cross-connect of an interface: a service of one circuit."""
    made = instance_of(reader, block, None)
    made.point = True
    reader.waiting.append((made, within.name, block.line))
    wire = wired(POINT)(reader, made, block, address, pw_id, name)
    reader.points[wire] = (made, within)
    return wire


def backed_up(reader: Ios, within: Pseudowire, block: Block, address: str, pw_id: str, name: str | None, priority: str | None) -> None:
    """A backup of a cross-connect."""
    made: Pseudowire = wired(POINT)(reader, reader.points[within][0], block, address, pw_id, name)
    first, second = MEANINGS["priority"].value
    within.rank = within.rank or Said(first, within.line)
    rank = second if priority is None else reader.number(block, priority, 0, 255, "priority")
    made.rank = Said(second if rank is None else rank, block.line)
    if name is None:
        made.classes = within.classes


def context(reader: Reader, _router: Router, block: Block, _name: str) -> Instance:
    """A cross-connect that stands by itself."""
    made = instance_of(reader, block, None)
    made.point = True
    return made


def connected(reader: Reader, within: Instance, block: Block, address: str, pw_id: str, _group: str | None, priority: str | None) -> Pseudowire:
    """A pseudowire of a cross-connect that stands by itself, of which several have ranks."""
    made: Pseudowire = wired(POINT)(reader, within, block, address, pw_id)
    first, second = MEANINGS["priority"].value
    if priority is not None or len(within.pseudowires) > 1:
        rank = reader.number(block, priority, 0, 255, "priority") if priority is not None else second
        made.rank = Said(second if rank is None else rank, block.line)
        within.pseudowires[0].rank = within.pseudowires[0].rank or Said(first, within.pseudowires[0].line)
    return made


def joined(reader: Reader, within: Instance, block: Block, name: str, number: str | None) -> None:
    """A circuit of a cross-connect that stands by itself."""
    reader.waiting.append((within, name if number is None else f"{name}.{number}", block.line))


def in_bridge(reader: Ios, within: Instance, _block: Block, number: str) -> None:
    """The bridge domain of a service."""
    reader.inner_bridges.append((number, within))


def bridge(reader: Ios, _router: Router, block: Block, number: str) -> Bridge:
    """A bridge domain."""
    found: Bridge = reader.bridges.setdefault(number, Bridge(block.line))
    return found


class Bridge:
    """A bridge domain: the service that it is of, what belongs to it, and access pseudowires."""

    def __init__(self, line: int) -> None:
        self.line = line
        self.vfi: Said | None = None
        self.ports: list[Said] = []
        self.spokes = Instance(None, line)
        self.age: Said | None = None


def bridged_vfi(_reader: Reader, within: Bridge, block: Block, name: str) -> None:
    """The service of a bridge domain."""
    within.vfi = Said(name, block.line)


def bridged_port(reader: Reader, within: Bridge, block: Block, name: str, number: str | None) -> None:
    """A port of a bridge domain, or an access pseudowire whose lines stand in an interface of its own."""
    if name.startswith("pseudowire"):
        member(SPOKE)(reader, within.spokes, block, name)
    else:
        within.ports.append(Said(name if number is None else f"{name}.{number}", block.line))


def bridged_wire(reader: Reader, within: Bridge, block: Block, address: str, pw_id: str) -> Pseudowire:
    """An access pseudowire of a bridge domain."""
    return wired(SPOKE)(reader, within.spokes, block, address, pw_id)


def bridged_age(reader: Reader, within: Bridge, block: Block, text: str) -> None:
    """After how long a bridge domain forgets."""
    number = reader.number(block, text, 1, 1000000, "age")
    within.age = Said(number, block.line) if number is not None else None


def trunk(_reader: Reader, within: Interface, block: Block, word: str | None, text: str) -> None:
    """The VLANs of a trunk; `add` goes on with those before."""
    before = within.said.get("trunk", Said([], 0)).value if word == "add" else []
    within.said["trunk"] = Said([*before, text], block.line)


BACKUP = Level(
    "told",
    ("backup peer ADDRESS NUMBER [pw-class NAME] [priority NUMBER]", backed_up),
    ("mtu NUMBER", offers_mtu),
)
XCONNECT: list[Any] = [
    ("xconnect ADDRESS NUMBER encapsulation mpls [pw-class NAME]", cross_connect, BACKUP),
    ("xconnect ADDRESS NUMBER pw-class NAME", cross_connect, BACKUP),
    ("xconnect ADDRESS NUMBER encapsulation ..", "encapsulation"),
]
SERVICE = Level(
    "kept",
    ("description TEXT", None),
    ("shutdown", shut_interface),
    ("encapsulation dot1q NUMBER [exact]", tagged),
    ("encapsulation default", None),
    ("encapsulation untagged", told_of_circuit("a scenario's circuit without a tag takes frames with tags of their own, too")),
    ("encapsulation ..", refused("a scenario's circuit has one tag, or none")),
    ("rewrite ingress tag pop 1 symmetric", pops_tag),
    ("rewrite ..", told_of_circuit("a scenario's circuit takes its tag off where a frame enters, and puts it on where it leaves")),
    ("bridge-domain NUMBER", says("bridge")),
    *XCONNECT,
)
PORT = Level(
    "kept",
    ("description TEXT", None),
    ("no shutdown", None),
    ("shutdown", shut_interface),
    ("no ip address", None),
    ("ip address NAME ..", own_address),
    ("mtu NUMBER", offers_mtu),
    ("encapsulation dot1Q NUMBER [native]", tagged),
    ("encapsulation dot1Q ..", refused("a scenario's circuit has one tag, or none")),
    ("service instance NUMBER ethernet [NAME]", service_instance, SERVICE),
    ("switchport", None),
    ("switchport mode ..", None),
    ("switchport trunk encapsulation dot1q", None),
    ("switchport access vlan NUMBER", says("access")),
    ("switchport trunk allowed vlan [(add)] NAME", trunk),
    ("xconnect vfi NAME", says("vfi")),
    *XCONNECT,
    # The lines of an interface that is a pseudowire.
    ("encapsulation mpls", None),
    ("neighbor ADDRESS NUMBER", to_neighbour),
    ("source template type pseudowire NAME", says("class")),
    ("control-word include", offers("control_word", True)),
    ("control-word exclude", offers("control_word", False)),
    ("signaling protocol ldp", None),
)
CLASS = Level(
    "told",
    ("encapsulation mpls", None),
    ("encapsulation ..", "encapsulation"),
    ("protocol ldp", None),
    ("signaling protocol ldp", None),
    ("control-word [include]", offers("control_word", True)),
    ("no control-word", offers("control_word", False)),
    ("control-word exclude", offers("control_word", False)),
    ("interworking (ethernet|vlan)", offers_one("mode", {"ethernet": "raw", "vlan": "tagged"})),
    ("vc type (ethernet|vlan)", offers_one("mode", {"ethernet": "raw", "vlan": "tagged"})),
    ("mtu NUMBER", offers_mtu),
    ("status", offers("status", True)),
    ("no status", offers("status", False)),
    ("vccv (control-word|router-alert|ttl)", channel),
)
VFI = Level(
    "told",
    ("vpn id NUMBER", numbered),
    ("description TEXT", described),
    ("shutdown", shut_instance),
    ("mtu NUMBER", offers_mtu),
    ("bridge-domain NUMBER [vlan]", in_bridge),
    ("neighbor ADDRESS [NUMBER] encapsulation mpls [pw-class NAME] [(no-split-horizon)]", wired(MESH)),
    ("neighbor ADDRESS [NUMBER] pw-class NAME [(no-split-horizon)]", wired(MESH)),
    ("member ADDRESS [NUMBER] encapsulation mpls", wired(MESH), Level("told", ("shutdown", shut_wire))),
    ("member ADDRESS [NUMBER] template NAME", wired(MESH)),
    ("member NAME", member(MESH)),
    ("autodiscovery bgp signaling ldp ..", "fec129"),
    ("autodiscovery bgp ..", "discovery"),
)
CONTEXT = Level(
    "told",
    ("description TEXT", described),
    ("member ADDRESS NUMBER encapsulation mpls [group NAME] [priority NUMBER]", connected),
    ("member NAME [service-instance NUMBER]", joined),
)
BRIDGE = Level(
    "told",
    ("member vfi NAME", bridged_vfi),
    ("member ADDRESS NUMBER encapsulation mpls", bridged_wire),
    ("member NAME [service-instance NUMBER]", bridged_port),
    ("mac aging-time NUMBER", bridged_age),
    ("description TEXT", None),
)
GRAMMAR = Level(
    "passed",
    ("hostname NAME", hostname),
    ("interface NAME", interface, PORT),
    ("mpls ldp router-id NAME [force]", identified),
    ("mpls ldp holdtime NUMBER", kept_alive),
    ("mpls ldp (discovery|igp|logging) ..", None),
    ("mpls ldp ..", "subject"),
    ("pseudowire-class NAME", pw_class, CLASS),
    ("template type pseudowire NAME", pw_class, CLASS),
    ("l2 vfi NAME manual", vfi, VFI),
    ("l2 vfi NAME autodiscovery", "discovery"),
    ("l2 vfi NAME point-to-point", "switching"),
    ("l2 vfi ..", "subject"),
    ("l2vpn vfi context NAME", vfi, VFI),
    ("l2vpn xconnect context NAME", context, CONTEXT),
    ("bridge-domain NUMBER", bridge, BRIDGE),
)


class Ios(Reader):
    """A configuration of Cisco IOS or IOS XE."""

    vendor, title = "ios", "Cisco IOS"
    grammar, meanings = GRAMMAR, MEANINGS

    def __init__(self, path: str, text: str) -> None:
        self.members: list[tuple[Pseudowire, Said]] = []
        self.points: dict[Pseudowire, tuple[Instance, Interface]] = {}
        self.bridges: dict[str, Bridge] = {}
        self.inner_bridges: list[tuple[str, Instance]] = []
        super().__init__(path, text)

    def finish(self) -> None:
        """Joins ports, VLANs and bridge domains with their services."""
        self.use_loopbacks("loopback")
        self.instances = {instance.name: instance for instance in self.router.instances if instance.name is not None}
        for wire, said in self.members:
            self.complete(wire, said)
        self.points_offer()
        vlans: dict[str, Instance] = {}
        for number, instance in self.inner_bridges:
            vlans.setdefault(number, instance)
        for number, one in self.bridges.items():
            self.add_bridge(number, one, vlans)
        for port in list(self.interfaces.values()):
            if "vfi" in port.said:
                self.add_vfi_port(port, vlans)
        for port in self.interfaces.values():
            self.add_port(port, vlans)

    def complete(self, wire: Pseudowire, said: Said) -> None:
        """A pseudowire whose lines stand in an interface of its own."""
        port = self.interfaces.get(said.value)
        if port is None or "neighbor" not in port.said:
            self.tell(said.line, f"pseudowire {said.value} is left out: no interface {said.value} names its neighbor", "missing")
            wire.left_out = True
            return
        (address, pw_id), line = port.said["neighbor"]
        found = pseudowire_to(self, Block(address, line), address, pw_id, wire.kind)
        wire.neighbour, wire.pw_id, wire.left_out = found.neighbour, found.pw_id, found.left_out
        wire.offer.update(port.offer)
        if "class" in port.said:
            wire.classes.append(port.said["class"])
        if port.refused is not None:
            shut_wire(self, wire, Block("shutdown", port.refused.line))
        for block in port.kept:
            self.left(block)

    def points_offer(self) -> None:
        """What the interface of a cross-connect has all its pseudowires offer."""
        for instance, port in self.points.values():
            instance.offer.update(port.offer)
            if port.tag is not None and "service instance" not in port.said:
                instance.offer.setdefault("mode", Said(MEANINGS["mode of a subinterface"].value, port.tag.line))

    def found(self, said: Said) -> Instance | None:
        """The service of a name."""
        if said.value not in self.instances:
            self.tell(said.line, f"there is no VFI {said.value!r}", "missing")
        return self.instances.get(said.value)

    def add_bridge(self, number: str, one: Bridge, vlans: dict[str, Instance]) -> None:
        """A bridge domain, which is a service of its own where it has access pseudowires and no VFI."""
        instance = vlans.get(number) or (self.found(one.vfi) if one.vfi is not None else None)
        if instance is None and one.spokes.pseudowires:
            instance = one.spokes
            instance.name = f"bridge_domain_{number}"
            self.router.instances.append(instance)
        elif instance is not None:
            instance.pseudowires += one.spokes.pseudowires
        if instance is None:
            return
        vlans[number] = instance
        instance.age = one.age or instance.age
        self.waiting += [(instance, said.value, said.line) for said in one.ports]

    def add_vfi_port(self, port: Interface, vlans: dict[str, Instance]) -> None:
        """An interface that names its service: that of a VLAN, or a circuit."""
        instance = self.found(port.said["vfi"])
        if instance is None:
            return
        instance.offer.update({key: said for key, said in port.offer.items() if key not in instance.offer})
        if port.name.lower().startswith("vlan"):
            vlans[port.name[4:].strip()] = instance
            if port.refused is not None:
                self.tell(port.refused.line, f"{port.name} is shut down, and service {instance.name} with it: it is left out", "shut")
                instance.shut = True
        else:
            self.waiting.append((instance, port.name, port.said["vfi"].line))

    def add_port(self, port: Interface, vlans: dict[str, Instance]) -> None:
        """The circuits of a port: by the bridge domain of a service instance, and by the VLANs of a switch."""
        for key in ("bridge", "access"):
            if key in port.said and port.said[key].value in vlans:
                self.waiting.append((vlans[port.said[key].value], port.name, port.said[key].line))
        for vlan, line in vlans_of(port):
            if vlan in vlans:
                if port.refused is not None:
                    self.tell(line, f"{port.name} with tag {vlan} is left out: {port.refused.value}")
                else:
                    self.tell_kept(port)
                    vlans[vlan].circuits.append(Circuit(f"{port.name}.{vlan}", line, int(vlan)))


def vlans_of(port: Interface) -> Iterator[tuple[str, int]]:
    """The VLANs of a trunk, each with its line."""
    parts, line = port.said.get("trunk", Said([], 0))
    for part in ",".join(parts).split(","):
        first, _, last = part.partition("-")
        if first.isdigit() and (last or first).isdigit() and len(part) <= 9:
            yield from ((str(vlan), line) for vlan in range(max(1, int(first)), min(4094, int(last or first)) + 1))
