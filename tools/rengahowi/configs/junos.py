"""The grammar of Juniper Junos, in braces and as lines that begin with `set`: `routing-instances` of type `vpls`, `l2circuit`, and `ldp`."""

from __future__ import annotations

from .blocks import Block, braced, lines_of
from .grammar import Level
from .parts import MESH, POINT, SPOKE, Instance, Pseudowire, Router, Said
from .reading import (
    Interface, Meaning, Reader, aged, described, hostname, identified, kept_alive, offers, offers_mtu, offers_one, own_address, plain, pops_tag,
    pseudowire_to, pw_id_of, refused, shut_interface, static, tagged,
)

TYPE_CHECKING = False
if TYPE_CHECKING:
    from typing import Any

GUIDE = "Juniper Junos OS, Layer 2 VPNs and VPLS User Guide"
MEANINGS = {
    "mode": Meaning("raw", f"{GUIDE}, encapsulation-type: ethernet where nothing is said"),
    "control_word": Meaning(False, f"{GUIDE}, control-word: none in a VPLS where nothing is said"),
    "control word of a circuit": Meaning(True, f"{GUIDE}, control-word: one in a Layer 2 circuit where nothing is said"),
    "mtu": Meaning(1500, f"{GUIDE}, mtu (VPLS): 1500 where nothing is said, whatever the interfaces have"),
    "status": Meaning(False, f"{GUIDE}, pseudowire-status-tlv: none where nothing is said"),
    "keepalive": Meaning(30, "Juniper Junos OS, MPLS Applications User Guide, keepalive-timeout: 30"),
    "age": Meaning(300, f"{GUIDE}, mac-table-aging-time: 300"),
    "priority": Meaning((0, 1), "own: a neighbor comes before its backup-neighbor, to which no number is given"),
}
# The control channels of RFC 5085 section 5.3.1 by the words of `control-channel`.
CHANNELS = {"pwe3-control-word": 1, "router-alert-label": 2, "pw-label-ttl-1": 4}
# Why lines of a VPLS that begin so are not used.
FRONTS = {"l2vpn-id": "fec129", "vrf-target": "discovery", "route-distinguisher": "discovery"}


class Group:
    """The neighbours of an instance that are in split horizon with each other, unless they are switched locally."""

    def __init__(self, name: str, instance: JunosInstance, line: int) -> None:
        self.name, self.instance, self.line = name, instance, line
        self.switched = False
        self.pw_id: Said | None = None
        self.offer: dict[str, Said] = {}
        self.wires: dict[str, JunosWire] = {}


class JunosWire(Pseudowire):
    """A pseudowire with its backups."""

    def __init__(self, name: str, line: int, kind: str) -> None:
        super().__init__(name, line, kind)
        self.backups: dict[str, JunosWire] = {}
        self.inner_pw_id: Said | None = None


class JunosInstance(Instance):
    """A routing instance, of whose lines it is known at its end whether they matter."""

    def __init__(self, name: str | None, line: int) -> None:
        super().__init__(name, line)
        self.type: Said | None = None
        self.kept: list[Block] = []
        self.own = Group("", self, line)
        self.groups: dict[str, Group] = {}
        self.ports: dict[str, int] = {}
        self.untagged = False


def interface(reader: Reader, _within: Any, block: Block, name: str) -> Interface:
    """An interface."""
    return reader.interface(name, block.line)


def unit(reader: Reader, within: Interface, block: Block, number: str) -> Interface:
    """A logical interface, which keeps its tag where nothing takes it off."""
    name = f"{within.name}.{number}"
    if name not in reader.interfaces:
        reader.interface(name, block.line).keeps_tag = True
    return reader.interface(name, block.line)


def instance(reader: Junos, _router: Router, block: Block, name: str) -> JunosInstance:
    """A routing instance."""
    found: dict[str, JunosInstance] = reader.instances
    return found.setdefault(name, JunosInstance(plain(name), block.line))


def typed(_reader: Reader, within: JunosInstance, block: Block, word: str) -> None:
    """The type of an instance."""
    within.type = Said(word, block.line)


def ported(_reader: Reader, within: JunosInstance, block: Block, name: str) -> None:
    """A circuit of an instance."""
    within.ports.setdefault(name, block.line)


def untagged(_reader: Reader, within: JunosInstance, _block: Block) -> None:
    """All circuits of an instance have their tags taken off."""
    within.untagged = True


def numbered(reader: Reader, within: JunosInstance | Group, block: Block, text: str) -> None:
    """The PW ID of the neighbours of an instance or a group."""
    within.pw_id = pw_id_of(reader, block, text)


def mesh_group(_reader: Reader, within: JunosInstance, block: Block, name: str) -> Group:
    """A group of neighbours."""
    return within.groups.setdefault(name, Group(name, within, block.line))


def switched(_reader: Reader, within: Group, _block: Block) -> None:
    """Frames pass between the neighbours of a group."""
    within.switched = True


def neighbour(reader: Reader, within: JunosInstance | Group, block: Block, address: str) -> JunosWire:
    """A neighbour of an instance, or of a group."""
    group = within.own if isinstance(within, JunosInstance) else within
    return wire_in(reader, group.wires, block, address, MESH)


def wire_in(reader: Reader, found: dict[str, JunosWire], block: Block, address: str, kind: str) -> JunosWire:
    """The pseudowire to a neighbour, whose lines may stand in several places."""
    if address not in found:
        made = pseudowire_to(reader, block, address, None, kind)
        wire = JunosWire(made.name, block.line, kind)
        wire.neighbour, wire.left_out = made.neighbour, made.left_out
        found[address] = wire
    return found[address]


def backed_up(reader: Reader, within: JunosWire, block: Block, address: str) -> JunosWire:
    """A backup of a pseudowire."""
    return wire_in(reader, within.backups, block, address, within.kind)


def channel(_reader: Reader, within: Any, block: Block, word: str) -> None:
    """A type of control channel, beside those before."""
    before = within.offer.get("vccv", Said(0, 0)).value
    within.offer["vccv"] = Said(before | CHANNELS[word], block.line)


def circuit_neighbour(_reader: Reader, _within: Any, _block: Block, address: str) -> str:
    """The neighbour of Layer 2 circuits."""
    return address


def circuit(reader: Junos, within: str, block: Block, name: str) -> JunosWire:
    """A Layer 2 circuit: an interface and its pseudowire."""
    found: dict[tuple[str, str], JunosWire] = reader.circuits
    if (within, name) not in found:
        wire = wire_in(reader, {}, block, within, POINT)
        wire.offer["control_word"] = Said(MEANINGS["control word of a circuit"].value, block.line)
        found[within, name] = wire
    return found[within, name]


def circuit_number(reader: Reader, within: JunosWire, block: Block, text: str) -> None:
    """The PW ID of a Layer 2 circuit."""
    within.inner_pw_id = pw_id_of(reader, block, text)
    within.left_out = within.left_out or within.inner_pw_id is None


OFFERS: list[Any] = [
    ("encapsulation-type (ethernet-vlan|ethernet)", offers_one("mode", {"ethernet": "raw", "ethernet-vlan": "tagged"})),
    ("control-word", offers("control_word", True)),
    ("no-control-word", offers("control_word", False)),
    ("mtu NUMBER", offers_mtu),
    ("pseudowire-status-tlv", offers("status", True), Level("told", ("hot-standby-vc-on", None))),
    ("oam", None, Level("told", ("control-channel", None, Level("told", ("(pwe3-control-word|router-alert-label|pw-label-ttl-1)", channel))))),
    ("description TEXT", described),
]
BACKUP = Level("told", ("standby", None), ("hot-standby", None), ("virtual-circuit-id NUMBER", circuit_number), *OFFERS)
NEIGHBOUR = Level("told", ("static", static, Level("passed")), ("backup-neighbor ADDRESS", backed_up, BACKUP), *OFFERS)
GROUP = Level("told", ("vpls-id NUMBER", numbered), ("local-switching", switched), ("neighbor ADDRESS", neighbour, NEIGHBOUR), *OFFERS)
VPLS = Level(
    "told",
    ("no-tunnel-services", None),
    ("tunnel-services", None, Level("passed")),
    ("vpls-id NUMBER", numbered),
    ("mac-table-aging-time NUMBER", aged),
    ("neighbor ADDRESS", neighbour, NEIGHBOUR),
    ("mesh-group NAME", mesh_group, GROUP),
    ("interface NAME", ported),
    ("(site-range|site|automatic-site-id) ..", "bgp"),
    *OFFERS,
)
INSTANCE = Level(
    "kept",
    ("instance-type NAME", typed),
    ("description TEXT", described),
    ("vlan-id none", untagged),
    ("interface NAME", ported),
    ("protocols", None, Level("kept", ("vpls", None, VPLS))),
)
UNIT = Level(
    "kept",
    ("description TEXT", None),
    ("disable", shut_interface),
    ("encapsulation (vlan-vpls|ethernet-vpls|vlan-ccc|ethernet-ccc)", None),
    ("vlan-id NUMBER", tagged),
    ("(vlan-tags|vlan-id-range|vlan-id-list) ..", refused("a scenario's circuit has one tag, or none")),
    ("input-vlan-map pop", pops_tag),
    ("input-vlan-map", None, Level("told", ("pop", pops_tag))),
    ("output-vlan-map push", None),
    ("output-vlan-map", None, Level("told", ("push", None))),
    ("family (vpls|ccc)", None),
    ("family inet", None, Level("passed", ("address NAME", own_address, Level("passed")))),
    ("family ..", None, Level("passed")),
)
LDP = Level(
    "told",
    ("keepalive-timeout NUMBER", kept_alive),
    ("keepalive-interval NUMBER", None),
    ("(interface|track-igp-metric|deaggregate|transport-address|targeted-hello|igp-synchronization|traceoptions) ..", None, Level("passed")),
)
CIRCUIT = Level("told", ("virtual-circuit-id NUMBER", circuit_number), ("backup-neighbor ADDRESS", backed_up, BACKUP), *OFFERS)
CIRCUITS = Level("told", ("neighbor ADDRESS", circuit_neighbour, Level("told", ("interface NAME", circuit, CIRCUIT))))
GRAMMAR = Level(
    "passed",
    ("system", None, Level("passed", ("host-name NAME", hostname))),
    ("interfaces", None, Level("passed", ("NAME", interface, Level("passed", ("unit NUMBER", unit, UNIT))))),
    ("routing-options", None, Level("passed", ("router-id NAME", identified))),
    ("protocols", None, Level("passed", ("ldp", None, LDP), ("l2circuit", None, CIRCUITS))),
    ("routing-instances", None, Level("told", ("NAME", instance, INSTANCE))),
    ("apply-groups ..", "groups are not applied: give the configuration as `display inheritance` shows it"),
)


class Junos(Reader):
    """A configuration of Juniper Junos."""

    vendor, title = "junos", "Juniper Junos"
    grammar, meanings = GRAMMAR, MEANINGS

    def __init__(self, path: str, text: str) -> None:
        self.instances: dict[str, JunosInstance] = {}
        self.circuits: dict[tuple[str, str], JunosWire] = {}
        self.paths = "{\n" not in text.replace("\r", "\n").replace(" \n", "\n")
        super().__init__(path, text)

    def blocks(self, text: str) -> list[Block]:
        """The blocks of the text: those in braces, or a block for each line that begins with `set`."""
        if not self.paths:
            return braced(text, lambda line, why: self.tell(line, why, "form"))
        lines = [Block(" ".join(raw.split()), number) for number, raw in enumerate(lines_of(text), 1)]
        gone = [block for block in lines if block.text.startswith("deactivate ")]
        for block in gone:
            self.tell(block.line, f"{block.text[:80]!r}: what is not active is left out", "shut")
        ends = tuple(block.text.removeprefix("deactivate ") + " " for block in gone)
        made = [Block(block.text.removeprefix("set "), block.line) for block in lines if block.text.startswith("set ")]
        return [block for block in made if not ends or not (block.text + " ").startswith(ends)]

    def unknown(self, mode: str, within: Any, block: Block) -> None:
        """A line that the grammar does not have, or that is not active."""
        if mode == "told" and block.text.startswith("inactive: "):
            self.left(block, "what is not active is left out")
        else:
            super().unknown(mode, within, block)

    def finish(self) -> None:
        """The instances that are VPLS, with their groups and backups, and Layer 2 circuits."""
        for one in self.interfaces.values():
            one.addresses = [(address, line) for address, line in one.addresses if not address.startswith("127.")]
        self.use_loopbacks("lo0.")
        for made in self.instances.values():
            if made.type is not None and made.type.value == "vpls":
                self.add_instance(made)
            elif made.type is not None and made.type.value in ("l2vpn", "virtual-switch", "evpn"):
                self.tell(made.type.line, f"instance {made.name} of type {made.type.value} is left out: a VPLS has the type vpls")
        for (_, name), wire in self.circuits.items():
            self.add_point(name, wire)

    def add_instance(self, made: JunosInstance) -> None:
        """A VPLS."""
        for block in made.kept:
            self.left(block, next((why for front, why in FRONTS.items() if block.text.startswith(front)), "subject"))
        self.router.instances.append(made)
        for name, line in made.ports.items():
            if made.untagged and name in self.interfaces:
                self.interfaces[name].keeps_tag = False
            self.waiting.append((made, name, line))
        named = [group for group in made.groups.values() if group.wires]
        for group in [made.own, *named]:
            alone = group is made.own or (not made.own.wires and not group.switched and sum(not one.switched for one in named) == 1)
            if not alone and not group.switched and len(group.wires) > 1:
                text = f"mesh-group {group.name} is no local-switching: its neighbours do not reach each other, and spokes of a scenario do"
                self.tell(group.line, text, "differs")
            for wire in group.wires.values():
                wire.kind = MESH if alone else SPOKE
                wire.offer = {**group.offer, **wire.offer}
                self.add_wire(made, wire, group.pw_id or made.pw_id)

    def add_wire(self, made: Instance, wire: JunosWire, pw_id: Said | None) -> None:
        """A pseudowire and its backups."""
        first, second = MEANINGS["priority"].value
        wire.pw_id = wire.inner_pw_id or pw_id
        made.pseudowires.append(wire)
        for place, backup in enumerate(wire.backups.values()):
            wire.rank = Said(first, wire.line)
            backup.rank, backup.kind = Said(second + place, backup.line), wire.kind
            backup.pw_id = backup.inner_pw_id or wire.pw_id
            for key in ("mode", "control_word", "mtu"):
                if key in wire.offer:
                    backup.offer.setdefault(key, wire.offer[key])
            made.pseudowires.append(backup)

    def add_point(self, name: str, wire: JunosWire) -> None:
        """A Layer 2 circuit."""
        made = Instance(None, wire.line)
        made.point = True
        self.router.instances.append(made)
        self.waiting.append((made, name, wire.line))
        self.add_wire(made, wire, None)
