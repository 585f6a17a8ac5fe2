"""What all readers of configurations have in common: how a line is used, and how a planner is told of one that is not."""

from __future__ import annotations

import re
from typing import NamedTuple

from ..plan import is_address
from .blocks import Block, indented
from .grammar import walk
from .parts import Circuit, Instance, Pseudowire, Router, Said, Told

TYPE_CHECKING = False
if TYPE_CHECKING:
    from collections.abc import Callable
    from typing import Any

    from .grammar import Level

# Why a line is not used, by the kind under which a program finds it.
REASONS = {
    "subject": "has no counterpart in a scenario",
    "discovery": "neighbours that BGP finds: a scenario names each of them",
    "bgp": "labels that BGP tells: a scenario has those of LDP",
    "fec129": "FEC 129 (generalized PWid): a scenario has FEC 128, with a PW ID",
    "switching": "a switching point: it is not read, and the pseudowires of both its sides end here",
    "encapsulation": "no pseudowire over MPLS",
}
SHOWN = 80
# What stands behind such a word is not repeated.
SECRET, HIDDEN = re.compile(r"(\S*(?:password|secret|authentication-key)\S*) .*"), r"\1 .."
LEFT_OUT = ": the pseudowire is left out"
LONGEST_DESCRIPTION = 80


class Meaning(NamedTuple):
    """What a vendor's words, or their absence, mean to a scenario, and by which guide."""

    value: Any
    source: str


class Interface:
    """An interface or a logical part of it: its tag, its addresses, and the lines that matter only where it is a circuit."""

    def __init__(self, name: str, line: int) -> None:
        self.name, self.line = name, line
        self.tag: Said | None = None
        self.refused: Said | None = None
        self.keeps_tag = False
        self.offer: dict[str, Said] = {}
        self.addresses: list[tuple[str, int]] = []
        self.said: dict[str, Said] = {}
        self.kept: list[Block] = []
        self.told: list[tuple[Block, str]] = []
        self.is_circuit = False


class Reader:
    """Reads a configuration by its vendor's grammar. The vendor's own part says how the text is cut into blocks and what is looked up
    at its end."""

    vendor, title = "", ""
    comments: tuple[str, ...] = ("!",)
    grammar: Level
    meanings: dict[str, Meaning]
    paths = False

    def __init__(self, path: str, text: str) -> None:
        self.path = path
        self.router = Router(path, self.vendor, text.count("\n") + (not text.endswith("\n")))
        self.router.defaults = {key: self.meanings[key].value for key in ("mode", "control_word", "mtu", "status")}
        self.router.keepalive = self.meanings["keepalive"].value
        self.router.age = self.meanings["age"].value
        self.interfaces: dict[str, Interface] = {}
        self.identifier: Said | None = None
        self.sections: dict[tuple[str | None, ...], Instance] = {}
        self.waiting: list[tuple[Instance, str, int]] = []
        walk(self, self.grammar, self.router, self.blocks(text), self.paths)
        self.finish()
        for instance, name, line in self.waiting:
            if not instance.shut:
                self.attach(instance, name, line)
        self.router.instances = [instance for instance in self.router.instances if not instance.shut]
        for instance in self.router.instances:
            instance.circuits.sort(key=lambda circuit: circuit.line)
        self.check_classes()

    def blocks(self, text: str) -> list[Block]:
        """The blocks of the text."""
        return indented(text, self.comments)

    def finish(self) -> None:
        """Looks up what a line says of lines elsewhere."""

    def check_classes(self) -> None:
        """Tells of classes that pseudowires name, and that are not there."""
        for instance in self.router.instances:
            for wire in instance.pseudowires:
                for said in wire.classes:
                    if said.value not in self.router.classes:
                        self.tell(said.line, f"there is no class {said.value!r}: pseudowire {wire.name} is read without it", "missing")

    def tell(self, line: int, text: str, kind: str = "subject") -> None:
        """Tells something of a line."""
        self.router.told.append(Told(self.path, line, kind, text))

    def left(self, block: Block, why: str = "subject") -> None:
        """Tells that a line is not used, with what stands in it, and why: one of the reasons, or in words of its own."""
        more = block.count()
        what = f"{SECRET.sub(HIDDEN, block.text)[:SHOWN]!r}" + (f" and the {more} lines in it" if more > 1 else " and the line in it" if more else "")
        if why == "subject":
            self.tell(block.line, f"{what} {'have' if more else 'has'} no counterpart in a scenario")
        else:
            self.tell(block.line, f"{what}: {REASONS.get(why, why)}", why if why in REASONS else "subject")

    def unknown(self, mode: str, within: Any, block: Block) -> None:
        """A line that the grammar does not have."""
        if mode == "told":
            self.left(block)
        elif mode == "kept":
            within.kept.append(block)

    def number(self, block: Block, text: str, least: int, most: int, what: str, then: str = "") -> int | None:
        """A number of a line; None where it is told as none that a scenario takes, and what then is so."""
        if least <= int(text) <= most:
            return int(text)
        self.tell(block.line, f"{what} {text}: a scenario has {least} to {most}{then}", "range")
        return None

    def address(self, block: Block, text: str, then: str = "") -> str | None:
        """An address of a line; None where it is told as none, and what then is so."""
        if is_address(text):
            return text
        self.tell(block.line, f"{text[:SHOWN]!r} is no IPv4 address{then}", "range")
        return None

    def add_address(self, block: Block, text: str, of_router: bool = False) -> None:
        """An address by which neighbours find this router; of its own where it is the router's identifier."""
        address = self.address(block, text.partition("/")[0])
        if address is not None:
            self.router.addresses.setdefault(address, block.line)
            if of_router:
                self.router.address = address

    def interface(self, name: str, line: int) -> Interface:
        """An interface by its name."""
        return self.interfaces.setdefault(name, Interface(name, line))

    def use_loopbacks(self, *begins: str) -> None:
        """Takes the address of the interface that is named as the router's, else of the first loopback, and then those of all others."""
        named = self.interfaces.get(self.identifier.value) if self.identifier is not None and self.router.address is None else None
        for address, line in named.addresses[:1] if named is not None else ():
            if is_address(address):
                self.router.addresses[address], self.router.address = line, address
        loopbacks = sorted((one for one in self.interfaces.values() if one.name.lower().startswith(begins)), key=lambda one: natural(one.name))
        for one in [*loopbacks, *self.interfaces.values()]:
            for address, line in one.addresses:
                if is_address(address):
                    self.router.addresses.setdefault(address, line)
                    self.router.address = self.router.address or (address if one in loopbacks else None)

    def tell_kept(self, one: Interface) -> None:
        """Tells the lines of an interface that matter since it is a circuit; once."""
        for block in one.kept:
            self.left(block)
        for block, why in one.told:
            self.left(block, why)
        one.kept.clear()
        one.told.clear()

    def attach(self, instance: Instance, name: str, line: int) -> None:
        """A circuit of a service: an interface, with its tag."""
        one = self.interfaces.get(name)
        if one is None:
            instance.circuits.append(Circuit(name, line))
            return
        if one.is_circuit:
            self.tell(line, f"{name} is a circuit of another service already: it is left out here", "differs")
            return
        one.is_circuit = True
        self.tell_kept(one)
        if one.refused is not None:
            self.tell(one.refused.line, f"{name} is left out: {one.refused.value}")
            return
        if one.tag is not None and one.keeps_tag:
            self.tell(one.tag.line, f"{name} keeps its tag {one.tag.value} on the way, and a scenario's circuit takes its tag off", "differs")
        instance.circuits.append(Circuit(name, line, one.tag.value if one.tag is not None else None))


def natural(name: str) -> list[Any]:
    """A name as people sort them: numbers by their value."""
    return [(0, int(part), "") if part.isdigit() else (1, 0, part) for part in re.split(r"(\d+)", name)]


def plain(word: str) -> str:
    """A word without its quotes."""
    return word[1:-1] if len(word) > 1 and word[0] == word[-1] == '"' else word


def hostname(reader: Reader, _router: Router, _block: Block, name: str) -> None:
    """The router's name."""
    reader.router.name = plain(name)


def offers(key: str, value: Any) -> Callable[..., None]:
    """A line that says what is offered."""

    def does(_reader: Reader, within: Any, block: Block) -> None:
        within.offer[key] = Said(value, block.line)

    return does


def offers_one(key: str, values: dict[str, Any]) -> Callable[..., None]:
    """A line whose word says what is offered."""

    def does(_reader: Reader, within: Any, block: Block, word: str) -> None:
        within.offer[key] = Said(values[word], block.line)

    return does


def offers_number(key: str, most: int, less: int = 0) -> Callable[..., None]:
    """A line whose number says what is offered, which is less by so much."""

    def does(reader: Reader, within: Any, block: Block, text: str) -> None:
        number = reader.number(block, text, less, most + less, key)
        if number is not None:
            within.offer[key] = Said(number - less, block.line)

    return does


offers_mtu = offers_number("mtu", 65535)


def described(reader: Reader, within: Any, block: Block, text: str) -> None:
    """A description, which LDP tells as far as a scenario has room for it."""
    said = plain(text)
    cut = said.encode()[:LONGEST_DESCRIPTION].decode(errors="ignore")
    if cut != said:
        reader.tell(block.line, f"the description is cut to {LONGEST_DESCRIPTION} octets", "range")
    within.offer["description"] = Said(cut, block.line)


def aged(reader: Reader, within: Any, block: Block, text: str) -> None:
    """After how long a service forgets."""
    number = reader.number(block, text, 1, 1000000, "age")
    if number is not None:
        within.age = Said(number, block.line)


def kept_alive(reader: Reader, _within: Any, block: Block, text: str, *_words: str | None) -> None:
    """The session's KeepAlive time."""
    number = reader.number(block, text, 3, 65535, "keepalive")
    if number is not None:
        reader.router.keepalive = number


class Class:
    """What all pseudowires of a class offer."""

    def __init__(self, offer: dict[str, Said]) -> None:
        self.offer = offer


def pw_class(_reader: Reader, router: Router, _block: Block, name: str) -> Class:
    """A class of pseudowires."""
    return Class(router.classes.setdefault(plain(name), {}))


def pw_id_of(reader: Reader, block: Block, text: str) -> Said | None:
    """A PW ID of a line."""
    number = reader.number(block, text, 1, 4294967295, "PW ID", LEFT_OUT)
    return None if number is None else Said(number, block.line)


def pseudowire_to(reader: Reader, block: Block, address: str, pw_id: str | None, kind: str) -> Pseudowire:
    """The pseudowire of a line that names its neighbour, and perhaps its PW ID."""
    wire = Pseudowire(f"to {address}", block.line, kind)
    wire.neighbour = reader.address(block, address, LEFT_OUT)
    wire.left_out = wire.neighbour is None
    if pw_id is not None:
        wire.pw_id = pw_id_of(reader, block, pw_id)
        wire.left_out = wire.left_out or wire.pw_id is None
    return wire


def instance_of(reader: Reader, block: Block, name: str | None, *key: str) -> Instance:
    """A service of the router: a new one, or that of a section with this key, or else this name, that stood before."""
    place = key or (name,)
    made = reader.sections.get(place) if name is not None or key else None
    if made is None:
        made = reader.sections[place] = Instance(name, block.line)
        reader.router.instances.append(made)
    return made


def own_address(_reader: Reader, within: Interface, block: Block, text: str) -> None:
    """An address of an interface."""
    within.addresses.append((text.partition("/")[0], block.line))


def identified(reader: Reader, _within: Any, block: Block, text: str) -> None:
    """The router's identifier: an address, or the interface that has it."""
    if text[:1].isdigit():
        reader.add_address(block, text, of_router=True)
    else:
        reader.identifier = Said(text, block.line)


def says(key: str) -> Callable[..., None]:
    """A line of an interface that is looked up when all lines are read."""

    def does(_reader: Reader, within: Interface, block: Block, text: str) -> None:
        within.said[key] = Said(plain(text), block.line)

    return does


def tagged(reader: Reader, within: Interface, block: Block, text: str) -> None:
    """The tag of a circuit's frames."""
    number = reader.number(block, text, 1, 4094, "tag")
    if number is None:
        within.refused = Said(f"its tag is {text}", block.line)
    else:
        within.tag = Said(number, block.line)


def refused(why: str) -> Callable[..., None]:
    """A line of an interface by which it is no circuit of a scenario."""

    def does(_reader: Reader, within: Interface, block: Block, *_words: str) -> None:
        within.refused = Said(why, block.line)

    return does


def told_of_circuit(why: str) -> Callable[..., None]:
    """A line that is told where its interface is a circuit."""

    def does(_reader: Reader, within: Interface, block: Block, *_words: str) -> None:
        within.told.append((block, why))

    return does


def pops_tag(_reader: Reader, within: Interface, _block: Block) -> None:
    """The tag is taken off where a frame enters, and put on where it leaves."""
    within.keeps_tag = False


def of_class(_reader: Reader, within: Pseudowire, block: Block, name: str) -> None:
    """A pseudowire that offers what its class says."""
    within.classes.append(Said(plain(name), block.line))


def shut_wire(reader: Reader, within: Pseudowire, block: Block) -> None:
    """A pseudowire that is shut down."""
    within.left_out = True
    reader.tell(block.line, f"pseudowire {within.name} is shut down: it is left out", "shut")


def shut_interface(_reader: Reader, within: Interface, block: Block) -> None:
    """A circuit that is shut down."""
    within.refused = Said("it is shut down", block.line)


def shut_instance(reader: Reader, within: Instance, block: Block) -> None:
    """A service that is shut down."""
    within.shut = True
    reader.tell(block.line, f"service {within.name} is shut down: it is left out", "shut")


def attached(reader: Reader, within: Instance, block: Block, name: str) -> Instance:
    """A circuit, which is looked up when all interfaces are read."""
    reader.waiting.append((within, plain(name), block.line))
    return within


def static(reader: Reader, within: Pseudowire, block: Block) -> None:
    """A pseudowire with labels of its own."""
    within.left_out = True
    reader.tell(block.line, f"pseudowire {within.name} has labels that are set by hand, and a scenario's are of LDP: it is left out", "static")


def discovered(reader: Reader, _within: Any, block: Block) -> None:
    """Neighbours that BGP finds, and how their labels are told."""
    reader.left(block, "discovery")
    for one in block.inner:
        if one.text.startswith(("signaling-protocol ldp", "signaling-protocol bgp")):
            reader.left(one, "fec129" if one.text.startswith("signaling-protocol ldp") else "bgp")
