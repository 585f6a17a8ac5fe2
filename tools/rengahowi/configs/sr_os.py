"""The grammar of Nokia SR OS, classic and model-driven: `vpls`, `epipe`, `sdp`, and `ldp`."""

from __future__ import annotations

from .blocks import Block, braced, indented
from .grammar import Level
from .parts import MESH, POINT, SPOKE, Circuit, Instance, Pseudowire, Router, Said
from .reading import (
    LEFT_OUT, Interface, Meaning, Reader, aged, described, hostname, identified, instance_of, kept_alive, offers, offers_number, offers_one,
    own_address, plain, pw_id_of, shut_instance, shut_wire, static,
)

TYPE_CHECKING = False
if TYPE_CHECKING:
    from collections.abc import Callable
    from typing import Any

GUIDE = "Nokia SR OS, Layer 2 Services and EVPN Guide"
MEANINGS = {
    "mode": Meaning("raw", f"{GUIDE}, vc-type: ether where nothing is said"),
    "control_word": Meaning(False, f"{GUIDE}, control-word: none where nothing is said"),
    "mtu": Meaning(1500, f"{GUIDE}, service-mtu: 1514 with the Ethernet header, of which LDP tells 14 less"),
    "status": Meaning(True, f"{GUIDE}, pw-status-signaling: stands by itself"),
    "keepalive": Meaning(40, "Nokia SR OS, MPLS Guide, targeted-session keepalive: 40"),
    "age": Meaning(300, f"{GUIDE}, local-age: 300"),
    "precedence": Meaning(4, f"{GUIDE}, precedence: primary, or 0 to 4, and 4 where nothing is said; primary comes first, as 0"),
}
ETHERNET_HEADER = 14
MODES = {"ether": "raw", "vlan": "tagged"}


class SrWire(Pseudowire):
    """A pseudowire of an SDP, with its endpoint and its split horizon group."""

    def __init__(self, name: str, line: int, kind: str, sdp: str) -> None:
        super().__init__(name, line, kind)
        self.sdp = sdp
        self.endpoint: str | None = None
        self.group: str | None = None


class Sdp:
    """A tunnel to a far end."""

    def __init__(self, line: int) -> None:
        self.line = line
        self.far_end: Said | None = None
        self.unused: Said | None = None


class Sap:
    """A circuit."""

    def __init__(self, name: str, line: int, instance: Instance) -> None:
        self.name, self.line, self.instance = name, line, instance
        self.shut: int | None = None


def interface(reader: Reader, _router: Router, block: Block, name: str) -> Interface:
    """An interface of the router."""
    return reader.interface(plain(name), block.line)


def sdp(reader: SrOs, _router: Router, block: Block, number: str, _kind: str | None) -> Sdp:
    """A tunnel."""
    found: dict[str, Sdp] = reader.sdps
    return found.setdefault(number, Sdp(block.line))


def far_end(_reader: Reader, within: Sdp, block: Block, text: str) -> None:
    """The far end of a tunnel."""
    within.far_end = Said(text, block.line)


def unused(why: str) -> Callable[..., None]:
    """A line by which the pseudowires of a tunnel are left out."""

    def does(_reader: Reader, within: Sdp, block: Block) -> None:
        within.unused = Said(why, block.line)

    return does


def vpls(reader: Reader, _router: Router, block: Block, number: str, name: str | None = None, _customer: str | None = None) -> Instance:
    """A service."""
    made = instance_of(reader, block, plain(name) if name is not None else f"vpls_{number}", number)
    made.pw_id = pw_id_of(reader, block, number)
    return made


def named_vpls(reader: Reader, _router: Router, block: Block, name: str) -> Instance:
    """A service whose number stands within it."""
    return instance_of(reader, block, plain(name))


def epipe(reader: Reader, router: Router, block: Block, *words: str) -> Instance:
    """A service of one circuit."""
    made = vpls(reader, router, block, words[0]) if words[0].isdigit() else named_vpls(reader, router, block, words[0])
    made.name, made.point = None, True
    return made


def service_id(reader: Reader, within: Instance, block: Block, number: str) -> None:
    """The number of a service, which is the PW ID of what has none of its own."""
    within.pw_id = pw_id_of(reader, block, number)


def renamed(_reader: Reader, within: Instance, _block: Block, name: str) -> None:
    """The name of a service."""
    within.name = within.name and plain(name)


def wired(kind: str) -> Callable[..., SrWire]:
    """A pseudowire of a tunnel, with the words behind it."""

    def does(reader: Reader, within: Instance, block: Block, name: str, text: str | None) -> SrWire:
        number, _, pw_id = name.partition(":")
        made = SrWire(name, block.line, POINT if within.point else kind, number)
        if pw_id:
            made.pw_id = pw_id_of(reader, block, pw_id) if pw_id.isdigit() else None
            made.left_out = made.pw_id is None
            if not pw_id.isdigit():
                reader.tell(block.line, f"{name!r} is no SDP and PW ID{LEFT_OUT}", "range")
        within.pseudowires.append(made)
        words = (text or "").replace(" create", "").removesuffix("create").split()
        while words:
            word, value = words.pop(0), words.pop(0) if words else ""
            if word == "vc-type" and value in MODES:
                made.offer["mode"] = Said(MODES[value], block.line)
            elif word == "endpoint":
                made.endpoint = plain(value)
            elif word == "split-horizon-group":
                made.group = plain(value)
            else:
                reader.tell(block.line, f"'{word} {value}' of {name} has no counterpart in a scenario")
        return made

    return does


def endpointed(_reader: Reader, within: SrWire, _block: Block, name: str) -> None:
    """The endpoint of a pseudowire."""
    within.endpoint = plain(name)


def grouped(_reader: Reader, within: SrWire, _block: Block, name: str) -> None:
    """The split horizon group of a pseudowire."""
    within.group = plain(name)


def preceding(reader: Reader, within: SrWire, block: Block, text: str) -> None:
    """The precedence of a pseudowire within its endpoint."""
    rank = 0 if text == "primary" else reader.number(block, text, 0, 255, "precedence") if text.isdigit() else None
    if rank is not None:
        within.rank = Said(rank, block.line)


def by_hand(reader: Reader, within: SrWire, block: Block, _text: str) -> None:
    """A pseudowire with labels of its own."""
    if not within.left_out:
        static(reader, within, block)


def sap(reader: SrOs, within: Instance, block: Block, name: str, text: str | None) -> Sap:
    """A circuit."""
    made = Sap(name, block.line, within)
    reader.saps.append(made)
    if text is not None and text.removesuffix("create").strip():
        reader.tell(block.line, f"'{text.removesuffix('create').strip()}' of sap {name} has no counterpart in a scenario")
    return made


def shut_sap(_reader: Reader, within: Sap, block: Block) -> None:
    """A circuit that is shut down."""
    within.shut = block.line


UP: list[Any] = [("no shutdown", None), ("admin-state enable", None)]
DOWN = ("shutdown", "admin-state disable")
OFF = Level("told", *((word, None) for word in DOWN))
LABEL = Level("told", ("vc-label NUMBER", by_hand))
ENDPOINT = Level("told", ("description TEXT", None), ("no suppress-standby-signaling", None), ("suppress-standby-signaling false", None))
WIRE = Level(
    "told",
    *UP,
    *((word, shut_wire) for word in DOWN),
    ("description TEXT", described),
    ("control-word [true]", offers("control_word", True)),
    ("no control-word", offers("control_word", False)),
    ("control-word false", offers("control_word", False)),
    ("vc-type (ether|vlan)", offers_one("mode", MODES)),
    ("vlan-vc-tag NUMBER", offers_number("vlan", 4095)),
    ("no pw-status-signaling", offers("status", False)),
    ("pw-status-signaling", offers("status", True)),
    ("pw-status signaling (true|false)", offers_one("status", {"true": True, "false": False})),
    ("pw-status", None, Level("told", ("signaling (true|false)", offers_one("status", {"true": True, "false": False})))),
    ("precedence NAME", preceding),
    ("endpoint NAME", endpointed),
    ("endpoint", None, Level("told", ("name NAME", endpointed), ("precedence NAME", preceding))),
    ("split-horizon-group NAME", grouped),
    ("(ingress|egress)", None, LABEL),
)
SAP = Level("told", *UP, *((word, shut_sap) for word in DOWN), ("description TEXT", None))
AGES: list[Any] = [("local-age NUMBER", aged)]
VPLS = Level(
    "told",
    *UP,
    *((word, shut_instance) for word in DOWN),
    ("description TEXT", described),
    ("service-name NAME", renamed),
    ("service-id NUMBER", service_id),
    ("customer NAME", None),
    ("service-mtu NUMBER", offers_number("mtu", 65535, ETHERNET_HEADER)),
    *AGES,
    ("fdb", None, Level("told", *AGES, ("mac-learning", None, Level("told", *AGES)))),
    ("stp", None, OFF),
    ("split-horizon-group NAME [create]", None, Level("told", ("description TEXT", None))),
    ("endpoint NAME [create]", None, ENDPOINT),
    ("sap NAME [TEXT]", sap, SAP),
    ("mesh-sdp NAME [TEXT]", wired(MESH), WIRE),
    ("spoke-sdp NAME [TEXT]", wired(SPOKE), WIRE),
    ("bgp", "discovery"),
    ("bgp-ad", "fec129"),
    ("bgp-vpls", "bgp"),
    ("vc-switching [true]", "switching"),
)
SDP = Level(
    "told",
    *UP,
    *((word, unused("it is shut down")) for word in DOWN),
    ("description TEXT", None),
    ("far-end ADDRESS", far_end),
    ("far-end", None, Level("told", ("ip-address ADDRESS", far_end))),
    ("(ldp|sr-isis|sr-ospf|bgp-tunnel) [(true)]", None),
    ("lsp NAME", None, Level("passed")),
    ("delivery-type ..", None),
    ("signaling tldp", None),
    ("signaling off", unused("its labels are set by hand")),
    ("signaling bgp", unused("its labels are told by BGP")),
    ("keep-alive", None, Level("passed")),
)
SERVICE = Level(
    "passed",
    ("sdp NUMBER [(mpls|gre)] [create]", sdp, SDP),
    ("vpls NUMBER [name NAME] [customer NAME] ..", vpls, VPLS),
    ("vpls NAME", named_vpls, VPLS),
    ("epipe NUMBER ..", epipe, VPLS),
    ("epipe NAME", epipe, VPLS),
)
KEEPALIVE: list[Any] = [
    ("keepalive NUMBER [NUMBER]", kept_alive),
    ("keepalive", None, Level("told", ("timeout NUMBER", kept_alive), ("factor NUMBER", None))),
    ("hello ..", None, Level("passed")),
    ("hello", None, Level("passed")),
]
LDP = Level(
    "told",
    *UP,
    ("interface-parameters", None, Level("passed")),
    ("targeted-session", None, Level("told", *UP, *KEEPALIVE, ("ipv4", None, Level("told", *KEEPALIVE)))),
)
ADDRESSES = Level(
    "passed",
    ("address NAME", own_address),
    ("ipv4", None, Level("passed", ("primary", None, Level("passed", ("address NAME", own_address))))),
)
ROUTER = Level("passed", ("interface NAME", interface, ADDRESSES), ("router-id NAME", identified), ("ldp", None, LDP))
CONFIGURE = Level(
    "passed",
    ("system", None, Level("passed", ("name NAME", hostname))),
    ("router [NAME]", None, ROUTER),
    ("service", None, SERVICE),
)
GRAMMAR = Level("passed", ("configure", None, CONFIGURE))


class SrOs(Reader):
    """A configuration of Nokia SR OS."""

    vendor, title = "sr-os", "Nokia SR OS"
    grammar, meanings = GRAMMAR, MEANINGS

    def __init__(self, path: str, text: str) -> None:
        self.sdps: dict[str, Sdp] = {}
        self.saps: list[Sap] = []
        super().__init__(path, text)

    def blocks(self, text: str) -> list[Block]:
        """The blocks of the text: those in braces, or by their indentation."""
        if "configure {" in text:
            return braced(text, lambda line, why: self.tell(line, why, "form"))
        return indented(text, ("#", "exit", "echo "))

    def finish(self) -> None:
        """The far ends of pseudowires, their endpoints and groups, and the tags of circuits."""
        self.use_loopbacks("system", "loopback")
        for made in self.router.instances:
            if not made.shut:
                for wire in made.pseudowires:
                    assert isinstance(wire, SrWire)
                    self.find_far_end(wire)
                self.use_endpoints([wire for wire in made.pseudowires if isinstance(wire, SrWire)])
                self.use_groups([wire for wire in made.pseudowires if isinstance(wire, SrWire)])
        for one in self.saps:
            if not one.instance.shut:
                self.add_sap(one)

    def find_far_end(self, wire: SrWire) -> None:
        """The neighbour of a pseudowire is the far end of its tunnel."""
        found = self.sdps.get(wire.sdp)
        if found is None or found.far_end is None:
            self.tell(wire.line, f"pseudowire {wire.name} is left out: there is no sdp {wire.sdp} with a far-end", "missing")
            wire.left_out = True
        elif found.unused is not None:
            self.tell(wire.line, f"pseudowire {wire.name} is left out with sdp {wire.sdp}, line {found.unused.line}: {found.unused.value}", "static")
            wire.left_out = True
        else:
            wire.neighbour = self.address(Block("", found.far_end.line), found.far_end.value, LEFT_OUT)
            wire.left_out = wire.left_out or wire.neighbour is None

    def use_endpoints(self, wires: list[SrWire]) -> None:
        """The ranks of pseudowires that are several of one endpoint. Others have none."""
        members: dict[str, list[SrWire]] = {}
        for wire in wires:
            if wire.endpoint is not None:
                members.setdefault(wire.endpoint, []).append(wire)
        for wire in wires:
            if wire.endpoint is None or len(members[wire.endpoint]) < 2:
                wire.rank = None
            else:
                wire.rank = wire.rank or Said(MEANINGS["precedence"].value, wire.line)
        several = [found for found in members.values() if len(found) > 1]
        for found in several[1:]:
            text = f"endpoint {found[0].endpoint} is not the only one here: a scenario's spoke edge uses one spoke of a service at a time"
            self.tell(found[0].line, text, "differs")

    def use_groups(self, wires: list[SrWire]) -> None:
        """Spokes in one split horizon group are a mesh, where nothing else is."""
        members: dict[str, list[SrWire]] = {}
        for wire in wires:
            if wire.group is not None and wire.kind == SPOKE:
                members.setdefault(wire.group, []).append(wire)
        alone = len(members) == 1 and not any(wire.kind == MESH for wire in wires)
        for name, found in members.items():
            if len(found) > 1 and alone:
                for wire in found:
                    wire.kind = MESH
            elif len(found) > 1:
                self.tell(found[0].line, f"the pseudowires of split-horizon-group {name} do not reach each other, and spokes of a scenario do", "differs")

    def add_sap(self, one: Sap) -> None:
        """A circuit, with the tag behind its colon."""
        _, colon, tag = one.name.partition(":")
        if one.shut is not None:
            self.tell(one.shut, f"sap {one.name} is left out: it is shut down", "shut")
        elif not colon or tag == "*":
            one.instance.circuits.append(Circuit(one.name, one.line))
        elif not tag.isdigit() or len(tag) > 4:
            self.tell(one.line, f"sap {one.name} is left out: a scenario's circuit has one tag, or none")
        elif tag == "0":
            text = f"sap {one.name} takes frames without a tag, and a scenario's circuit without a tag takes those with tags of their own, too"
            self.tell(one.line, text, "differs")
            one.instance.circuits.append(Circuit(one.name, one.line))
        elif self.number(Block("", one.line), tag, 1, 4094, "tag") is not None:
            one.instance.circuits.append(Circuit(one.name, one.line, int(tag)))
