"""FRR's grammar: `mpls ldp` and `l2vpn NAME type vpls`."""

from __future__ import annotations

from .grammar import Level
from .parts import Circuit, Instance, Pseudowire, Router, Said
from .reading import LEFT_OUT, Meaning, Reader, hostname, identified, instance_of, kept_alive, offers, offers_mtu, offers_one, own_address, pw_id_of

TYPE_CHECKING = False
if TYPE_CHECKING:
    from .blocks import Block
    from .reading import Interface

GUIDE = "FRRouting User Guide, LDP"
MEANINGS = {
    "mode": Meaning("raw", f"{GUIDE}, L2VPN: vc type <ethernet|ethernet-tagged>, ethernet where nothing is said"),
    "control_word": Meaning(True, f"{GUIDE}, L2VPN: control-word <exclude|include>, include where nothing is said"),
    "mtu": Meaning(1500, f"{GUIDE}, L2VPN: mtu (64-4294967295), 1500 where nothing is said"),
    "status": Meaning(True, f"{GUIDE}, L2VPN: pw-status disable takes away what stands by itself"),
    "keepalive": Meaning(180, f"{GUIDE}, LDP: session holdtime HOLDTIME, 180 where nothing is said"),
    "age": Meaning(300, "a bridge of Linux, which no line of FRR sets"),
}


def loopback(reader: Reader, _router: Router, block: Block) -> Interface:
    """The loopback."""
    return reader.interface("lo", block.line)


def instance(reader: Reader, _router: Router, block: Block, name: str) -> Instance:
    """A service."""
    return instance_of(reader, block, name)


def attached(reader: Reader, within: Instance, block: Block, name: str) -> None:
    """A circuit. A VLAN interface of Linux has its tag behind the dot, and takes it off."""
    port, _, tag = name.rpartition(".")
    if port and tag.isdigit() and reader.number(block, tag, 1, 4094, "tag") is None:
        return
    within.circuits.append(Circuit(name, block.line, int(tag) if port and tag.isdigit() else None))


def wired(_reader: Reader, within: Instance, block: Block, name: str) -> Pseudowire:
    """A pseudowire."""
    made = Pseudowire(name, block.line)
    within.pseudowires.append(made)
    return made


def to_router(reader: Reader, within: Pseudowire, block: Block, text: str) -> None:
    """The neighbour's identifier."""
    within.neighbour = reader.address(block, text, LEFT_OUT)
    within.left_out = within.left_out or within.neighbour is None


def to_address(reader: Frr, within: Pseudowire, block: Block, text: str) -> None:
    """The neighbour's transport address, which is kept until its identifier is known."""
    address = reader.address(block, text)
    if address is not None:
        reader.transports[within] = Said(address, block.line)


def numbered(reader: Reader, within: Pseudowire, block: Block, text: str) -> None:
    """The PW ID."""
    within.pw_id = pw_id_of(reader, block, text)
    within.left_out = within.left_out or within.pw_id is None


INTERFACE = Level("passed", ("ip address NAME", own_address))
FAMILY = Level(
    "told",
    ("discovery ..", None),
    ("interface NAME", None, Level("told", ("exit", None), ("discovery ..", None))),
    ("session holdtime NUMBER", kept_alive),
    ("(exit|exit-address-family)", None),
)
LDP = Level(
    "told",
    ("router-id NAME", identified),
    ("address-family ipv4", None, FAMILY),
    ("session holdtime NUMBER", kept_alive),
    ("discovery ..", None),
    ("interface NAME", None),
    ("(exit|exit-address-family)", None),
)
PSEUDOWIRE = Level(
    "told",
    ("neighbor lsr-id NAME", to_router),
    ("neighbor address NAME", to_address),
    ("pw-id NUMBER", numbered),
    ("control-word include", offers("control_word", True)),
    ("control-word exclude", offers("control_word", False)),
    ("pw-status disable", offers("status", False)),
    ("pw-status enable", offers("status", True)),
    ("exit", None),
)
L2VPN = Level(
    "told",
    ("bridge NAME", None),
    ("mtu NUMBER", offers_mtu),
    ("vc type (ethernet-tagged|ethernet)", offers_one("mode", {"ethernet": "raw", "ethernet-tagged": "tagged"})),
    ("member interface NAME", attached),
    ("member pseudowire NAME", wired, PSEUDOWIRE),
    ("exit", None),
)
GRAMMAR = Level(
    "passed",
    ("hostname NAME", hostname),
    ("interface lo", loopback, INTERFACE),
    ("mpls ldp", None, LDP),
    ("l2vpn NAME type vpls", instance, L2VPN),
    ("l2vpn ..", "no VPLS"),
)


class Frr(Reader):
    """A configuration of FRR."""

    vendor, title = "frr", "FRR"
    grammar, meanings = GRAMMAR, MEANINGS

    def __init__(self, path: str, text: str) -> None:
        self.transports: dict[Pseudowire, Said] = {}
        super().__init__(path, text)

    def finish(self) -> None:
        """An address of a neighbour beside its identifier, and an interface that joins a service."""
        self.use_loopbacks("lo")
        for wire, said in self.transports.items():
            if said.value != wire.neighbour:
                self.tell(said.line, f"neighbor address {said.value}: an edge has one address, its router-id")
