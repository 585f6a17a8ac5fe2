"""The grammar of Huawei VRP: `vsi`, `mpls l2vc`, and `mpls ldp`."""

from __future__ import annotations

from .blocks import Block, indented
from .grammar import Level
from .parts import MESH, POINT, SPOKE, Circuit, Instance, Pseudowire, Router, Said
from .reading import (
    LEFT_OUT, Class, Interface, Meaning, Reader, described, hostname, identified, instance_of, kept_alive, of_class, offers, offers_mtu, offers_one,
    own_address, plain, pseudowire_to, pw_class, pw_id_of, refused, says, shut_instance, shut_interface, tagged,
)

TYPE_CHECKING = False
if TYPE_CHECKING:
    from collections.abc import Iterator

GUIDE = "Huawei VRP, Configuration Guide - VPN, VPLS Configuration"
MEANINGS = {
    "mode": Meaning("tagged", f"{GUIDE}, encapsulation (VSI): vlan where nothing is said"),
    "mode of a line": Meaning("raw", f"{GUIDE}, mpls l2vc: raw at an Ethernet interface, tagged at one with a VLAN, where nothing is said"),
    "control_word": Meaning(False, f"{GUIDE}, control-word: none where nothing is said"),
    "mtu": Meaning(1500, f"{GUIDE}, mtu (VSI): 1500 where nothing is said"),
    "status": Meaning(True, f"{GUIDE}: the status of a PW is told where nothing is said"),
    "keepalive": Meaning(45, "Huawei VRP, Configuration Guide - MPLS, mpls ldp timer keepalive-hold: 45"),
    "age": Meaning(300, "Huawei VRP, Configuration Guide - LAN, mac-address aging-time: 300"),
    "preference": Meaning((0, 1), "own: a line comes before the one that is secondary, to which no number is given"),
}


class Protected:
    """A protect-group: several pseudowires of which one is used, by their preferences."""

    def __init__(self, name: str, instance: Instance, line: int) -> None:
        self.name, self.instance, self.line = name, instance, line
        self.members: list[tuple[str, str | None, Said]] = []


def vsi(reader: Reader, _router: Router, block: Block, name: str, word: str | None) -> Instance:
    """A service."""
    if word == "auto":
        reader.left(block, "discovery")
    return instance_of(reader, block, plain(name))


def numbered(reader: Reader, within: Instance, block: Block, text: str) -> None:
    """The PW ID of all peers that have none of their own."""
    within.pw_id = pw_id_of(reader, block, text)


def peer(reader: Reader, within: Instance, block: Block, address: str, text: str | None) -> Pseudowire:
    """A peer, with the words behind it."""
    words = (text or "").split()
    pw_id = words[words.index("negotiation-vc-id") + 1] if "negotiation-vc-id" in words[:-1] else None
    number = pw_id if pw_id is not None and pw_id.isdigit() and len(pw_id) < 12 else None
    made = pseudowire_to(reader, block, address, number, SPOKE if "upe" in words else MESH)
    within.pseudowires.append(made)
    if pw_id != number:
        made.left_out = True
        reader.tell(block.line, f"{pw_id!r} is no PW ID{LEFT_OUT}", "range")
    if "static-upe" in words or "static-npe" in words:
        made.left_out = True
        reader.left(block, "labels that are set by hand: a scenario has those of LDP")
    rest = iter(words)
    for word in rest:
        if word in ("negotiation-vc-id", "pw", "static-upe", "static-npe"):
            next(rest, None)
        elif word not in ("upe", "trans", "recv") and not word.isdigit():
            more = f" {next(rest, '')}" if word == "tnl-policy" else ""
            reader.tell(block.line, f"'{word}{more}' of peer {address} has no counterpart in a scenario")
    return made


def protect_group(reader: Vrp, within: Instance, block: Block, name: str) -> Protected:
    """A group of peers of which one is used."""
    made = Protected(name, within, block.line)
    reader.protected.append(made)
    return made


def preferred(reader: Reader, within: Protected, block: Block, address: str, pw_id: str | None, text: str) -> None:
    """The preference of a peer, of which the least is used."""
    number = reader.number(block, text, 0, 255, "preference")
    if number is not None:
        within.members.append((address, pw_id, Said(number, block.line)))


def line_to(reader: Vrp, within: Interface, block: Block, address: str, pw_id: str, text: str | None) -> None:
    """A line of an interface: its neighbour, its PW ID, and the words behind them."""
    words = (text or "").split()
    if "secondary" in words and within in reader.lines:
        made = reader.lines[within]
    else:
        made = instance_of(reader, block, None)
        made.point = True
        reader.lines[within] = made
        reader.waiting.append((made, within.name, block.line))
    wire = pseudowire_to(reader, block, address, pw_id, POINT)
    made.pseudowires.append(wire)
    wire.offer.update(offers_of(reader, block, words))
    first, second = MEANINGS["preference"].value
    if "secondary" in words:
        wire.rank = Said(second, block.line)
        made.pseudowires[0].rank = Said(first, made.pseudowires[0].line)


def line_by(reader: Vrp, within: Interface, block: Block, name: str, pw_id: str, text: str | None) -> None:
    """A line of an interface whose neighbour stands in a template."""
    reader.templated.append((within, block, name, pw_id, text))


def offers_of(reader: Reader, block: Block, words: list[str]) -> dict[str, Said]:
    """What the words of a line offer."""
    found: dict[str, Said] = {}
    rest = iter(words)
    for word in rest:
        if word in ("control-word", "no-control-word"):
            found["control_word"] = Said(word == "control-word", block.line)
        elif word in ("raw", "tagged"):
            found["mode"] = Said(word, block.line)
        elif word in ("mtu", "group-id"):
            text = next(rest, "")
            number = reader.number(block, text, 0, 65535 if word == "mtu" else 4294967295, word) if text.isdigit() else None
            if number:
                found["mtu" if word == "mtu" else "group"] = Said(number, block.line)
        elif word != "secondary":
            reader.tell(block.line, f"{word!r} has no counterpart in a scenario")
    return found


def interface(reader: Reader, _router: Router, block: Block, name: str) -> Interface:
    """An interface."""
    return reader.interface(name, block.line)


def peer_address(_reader: Reader, within: Class, block: Block, text: str) -> None:
    """The neighbour of a template."""
    within.offer["neighbour"] = Said(text, block.line)


def bridge(reader: Reader, _router: Router, block: Block, number: str) -> Interface:
    """A bridge domain, which is to a service what an interface of a VLAN is."""
    return reader.interface(f"bridge-domain {number}", block.line)


def passed_vlans(_reader: Reader, within: Interface, block: Block, text: str) -> None:
    """The VLANs of a trunk."""
    before = within.said.get("trunk", Said("", 0)).value
    within.said["trunk"] = Said(f"{before} {text}", block.line)


SIGNALLED = Level(
    "told",
    ("vsi-id NUMBER", numbered),
    ("mac-withdraw enable", None),
    ("(interface-status-change|upe-npe|npe-upe|upe-upe) mac-withdraw enable", None),
    ("control-word enable", offers("control_word", True)),
    ("peer ADDRESS [TEXT]", peer, Level("told", ("control-word enable", offers("control_word", True)), ("description TEXT", described))),
    ("protect-group NAME", protect_group, Level(
        "told",
        ("protect-mode pw-redundancy (master|independent)", None),
        ("peer ADDRESS [negotiation-vc-id NUMBER] preference NUMBER", preferred),
    )),
)
VSI = Level(
    "told",
    ("description TEXT", described),
    ("shutdown", shut_instance),
    ("undo shutdown", None),
    ("pwsignal ldp", None, SIGNALLED),
    ("pwsignal bgp", "bgp"),
    ("bgp-ad", "fec129"),
    ("mtu NUMBER", offers_mtu),
    ("encapsulation (ethernet|vlan)", offers_one("mode", {"ethernet": "raw", "vlan": "tagged"})),
    ("isolate spoken", "spokes and circuits of a scenario always reach each other"),
)
PORT = Level(
    "kept",
    ("description TEXT", None),
    ("undo shutdown", None),
    ("shutdown", shut_interface),
    ("ip address NAME ..", own_address),
    ("vlan-type dot1q NUMBER", tagged),
    ("dot1q termination vid NUMBER", tagged),
    ("encapsulation dot1q vid NUMBER", tagged),
    ("encapsulation default", None),
    ("(qinq|encapsulation|dot1q|vlan-type) ..", refused("a scenario's circuit has one tag, or none")),
    ("rewrite pop single", None),
    ("l2 binding vsi NAME", says("vsi")),
    ("bridge-domain NUMBER", says("bridge")),
    ("mpls l2vc pw-template NAME NUMBER [TEXT]", line_by),
    ("mpls l2vc ADDRESS NUMBER [TEXT]", line_to),
    ("portswitch", None),
    ("port link-type (access|trunk)", None),
    ("port default vlan NUMBER", says("access")),
    ("port trunk allow-pass vlan TEXT", passed_vlans),
)
TEMPLATE = Level("told", ("peer-address ADDRESS", peer_address), ("control-word", offers("control_word", True)), ("mtu NUMBER", offers_mtu))
REMOTE = Level("told", ("remote-ip ADDRESS", None), ("mpls ldp timer keepalive-hold NUMBER", kept_alive), ("mpls ldp timer keepalive-send NUMBER", None))
GRAMMAR = Level(
    "passed",
    ("sysname NAME", hostname),
    ("mpls lsr-id ADDRESS", identified),
    ("mpls ldp", None, Level("told", ("ipv4-family", None), ("graceful-restart", "subject"), ("lsr-id ADDRESS", None))),
    ("mpls ldp remote-peer NAME", None, REMOTE),
    ("vsi NAME [(static|auto|bd-mode)]", vsi, VSI),
    ("pw-template NAME", pw_class, TEMPLATE),
    ("interface NAME [mode l2]", interface, PORT),
    ("bridge-domain NUMBER", bridge, Level("kept", ("l2 binding vsi NAME", says("vsi")))),
)


class Vrp(Reader):
    """A configuration of Huawei VRP."""

    vendor, title = "vrp", "Huawei VRP"
    grammar, meanings = GRAMMAR, MEANINGS

    def __init__(self, path: str, text: str) -> None:
        self.protected: list[Protected] = []
        self.lines: dict[Interface, Instance] = {}
        self.templated: list[tuple[Interface, Block, str, str, str | None]] = []
        super().__init__(path, text)

    def blocks(self, text: str) -> list[Block]:
        """The blocks of the text."""
        return indented(text, ("#", "!", "return"))

    def finish(self) -> None:
        """Protect-groups, lines by a template, and the ports of each service."""
        self.use_loopbacks("loopback")
        for port, block, name, pw_id, more in self.templated:
            self.add_templated(port, block, name, pw_id, more)
        for port, made in self.lines.items():
            if "." in port.name and port.tag is not None:
                made.offer["mode"] = Said("tagged", port.tag.line)
            else:
                made.offer["mode"] = Said(MEANINGS["mode of a line"].value, made.line)
        for one in self.protected:
            self.use_preferences(one)
        self.add_ports()

    def add_templated(self, port: Interface, block: Block, name: str, pw_id: str, more: str | None) -> None:
        """A line whose neighbour stands in a template."""
        offer = self.router.classes.get(plain(name), {})
        if "neighbour" not in offer:
            self.tell(block.line, f"no pw-template {name} names a peer-address{LEFT_OUT}", "missing")
            return
        line_to(self, port, block, offer["neighbour"].value, pw_id, more)
        of_class(self, self.lines[port].pseudowires[-1], block, name)

    def use_preferences(self, one: Protected) -> None:
        """The ranks of the peers of a protect-group."""
        for address, pw_id, said in one.members:
            found = [
                wire for wire in one.instance.pseudowires
                if wire.neighbour == address and (pw_id is None or getattr(wire.pw_id or one.instance.pw_id, "value", None) == int(pw_id))
            ]
            for wire in found[:1]:
                wire.rank = said
            if not found:
                self.tell(said.line, f"protect-group {one.name} has a peer {address} that the VSI has not", "missing")

    def add_ports(self) -> None:
        """The circuits: interfaces that name their service, and ports of VLANs and bridge domains that do."""
        instances = {made.name: made for made in self.router.instances if made.name is not None}
        vlans: dict[str, Instance] = {}
        for port in self.interfaces.values():
            if "vsi" not in port.said:
                continue
            made, name = instances.get(port.said["vsi"].value), port.name.lower()
            if made is None:
                self.tell(port.said["vsi"].line, f"there is no VSI {port.said['vsi'].value!r}", "missing")
            elif name.startswith(("vlanif", "bridge-domain ")):
                vlans[name.removeprefix("vlanif")] = made
                self.tell_kept(port)
            else:
                self.waiting.append((made, port.name, port.said["vsi"].line))
        for port in self.interfaces.values():
            for key, before in (("access", ""), ("bridge", "bridge-domain ")):
                if key in port.said and before + port.said[key].value in vlans:
                    self.waiting.append((vlans[before + port.said[key].value], port.name, port.said[key].line))
            for vlan, line in vlans_of(port):
                if vlan in vlans:
                    self.tell_kept(port)
                    vlans[vlan].circuits.append(Circuit(f"{port.name}.{vlan}", line, int(vlan)))


def vlans_of(port: Interface) -> Iterator[tuple[str, int]]:
    """The VLANs of a trunk, each with its line."""
    text, line = port.said.get("trunk", Said("", 0))
    words = text.split()
    for place, word in enumerate(words):
        if word.isdigit() and len(word) < 5 and (place == 0 or words[place - 1] != "to"):
            last = words[place + 2] if words[place + 1 : place + 2] == ["to"] and place + 2 < len(words) else word
            if last.isdigit() and len(last) < 5:
                yield from ((str(vlan), line) for vlan in range(max(1, int(word)), min(4094, int(last)) + 1))
