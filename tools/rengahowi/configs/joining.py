"""The rows of a scenario that the configurations of several routers come to."""

from __future__ import annotations

import pathlib

from ..command import Fault
from ..keys import MOST_ROWS, OFFER
from .agreeing import tell_differences
from .names import Names, short
from .parts import MESH, SPOKE, Instance, Pseudowire, Router, Said, Told
from .spokes import End, Joined, Spokes

TYPE_CHECKING = False
if TYPE_CHECKING:
    from typing import Any

SERVICE_MTU = (64, 9198)
USUAL_AGE = 300
USUAL: dict[str, Any] = {key.name: key.default for key in OFFER}


class Service:
    """A service: its name, its instances with their routers, its row, and the pseudowires that have both ends."""

    def __init__(self, router: Router, instance: Instance) -> None:
        self.name = instance.name
        self.members = [(router, instance)]
        self.row: dict[str, Any] = {}
        self.wires: list[Joined] = []


class Joining:
    """Joins routers: two pseudowires are the ends of one wire where each names the other's router, with one PW ID. A router that is
    named, and of which there is no configuration, becomes an edge of which the rest is guessed, or is left out where `known` says so."""

    def __init__(self, routers: list[Router], known: bool = False) -> None:
        self.routers, self.known, self.names = routers, known, Names()
        self.told = [told for router in routers for told in router.told]
        self.rows: dict[str, list[dict[str, Any]]] = {"edge": [], "service": [], "group": [], "circuit": [], "wire": []}
        self.edge: dict[Router, str] = {}
        self.by_address: dict[str, Router] = {}
        self.guessed: dict[str, Router] = {}
        self.service_of: dict[Instance, Service] = {}
        self.groups: dict[int, str] = {}

    def make(self) -> dict[str, list[dict[str, Any]]]:
        """All rows."""
        self.add_addresses()
        for router in self.routers:
            self.add_edge(router)
        self.gather()
        joined = self.joined()
        for wire in joined:
            self.service_of[wire.near.instance].wires.append(wire)
        for service in dict.fromkeys(self.service_of.values()):
            if self.is_point(service):
                continue
            self.add_service(service)
            Spokes(service.wires, self.tell_end).sort()
        for router in self.routers:
            self.add_circuits(router)
        taken: set[tuple[str, frozenset[Router]]] = set()
        for wire in joined:
            self.add_wire(self.service_of[wire.near.instance].row, wire, taken)
        places = {router.path: place for place, router in enumerate(self.routers)}
        self.told.sort(key=lambda told: (places[told.path], told.line))
        return self.rows

    def is_point(self, service: Service) -> bool:
        """Whether no instance of a service is a VPLS, nor perhaps one at an edge that is guessed; its circuits and wires are left out."""
        if not all(instance.point for _, instance in service.members) or any(wire.far.guessed for wire in service.wires):
            return False
        for router, instance in service.members:
            self.tell(router, instance.line, "this cross-connect is left out: there is no VPLS at its other end", "subject")
            instance.circuits.clear()
        return True

    def tell(self, router: Router, line: int, text: str, kind: str = "subject") -> None:
        """Tells something of a line."""
        self.told.append(Told(router.path, line, kind, text))

    def tell_end(self, end: End, text: str, kind: str) -> None:
        """Tells something of an end of a pseudowire."""
        self.tell(end.router, end.wire.line, f"pseudowire {end.wire.name} {text}", kind)

    def add_row(self, table: str, row: dict[str, Any], router: Router, line: int) -> None:
        """A row, as long as there is room for it."""
        if len(self.rows[table]) == MOST_ROWS[table]:
            raise Fault(f"{router.path}, line {line}: this is one {table} too many: a scenario has at most {MOST_ROWS[table]}")
        self.rows[table].append(row)

    def add_addresses(self) -> None:
        """Which router has an address: first the identifiers of all, then all others."""
        for router in self.routers:
            if router.address is None:
                continue
            other = self.by_address.setdefault(router.address, router)
            if other is not router:
                line = router.addresses[router.address]
                raise Fault(f"{router.path}, line {line}: {other.path} has the address {router.address} too: routers have an address each")
        for router in self.routers:
            for address in router.addresses if router.address is not None else ():
                self.by_address.setdefault(address, router)

    def add_edge(self, router: Router) -> None:
        """The row of a router; of one without an address all is left out."""
        if router.address is None:
            for instance in router.instances:
                self.tell(router, instance.line, f"{named(instance)} is left out: its router has no address, neither an identifier nor a loopback", "missing")
            if not router.instances:
                self.tell(router, router.lines, "the file ends, with neither an address nor a VPLS", "missing")
            router.instances.clear()
            return
        row: dict[str, Any] = {"name": self.names.give(router.name or stem(router.path)), "address": router.address}
        if router.keepalive != 180:
            row["keepalive"] = router.keepalive
        self.edge[router] = row["name"]
        self.add_row("edge", row, router, router.addresses[router.address])

    def gather(self) -> None:
        """Instances of one name are one service."""
        found: dict[str, Instance] = {}
        for router in self.routers:
            here: set[str] = set()
            for instance in router.instances:
                self.service_of[instance] = Service(router, instance)
                if instance.name is not None and instance.name not in here:
                    self.join(found.setdefault(instance.name, instance), instance)
                    here.add(instance.name)

    def join(self, near: Instance, far: Instance) -> None:
        """Two instances are of one service, which has the name of the first one."""
        one, other = self.service_of[near], self.service_of[far]
        if one is other:
            return
        one.name = one.name or other.name
        one.members += other.members
        for _, instance in other.members:
            self.service_of[instance] = one

    def joined(self) -> list[Joined]:
        """The pseudowires of which there are both ends, in the order of their first ones."""
        ends: dict[tuple[Router, Router, int], End] = {}
        for router in self.routers:
            for instance in router.instances:
                for wire in instance.pseudowires:
                    self.add_end(ends, End(router, instance, wire))
        found, alone = [], {}
        places = {router: place for place, router in enumerate([*self.routers, *self.guessed.values()])}
        for (router, neighbour, pw_id), near in ends.items():
            far = ends.get((neighbour, router, pw_id))
            if neighbour in self.guessed.values():
                far = End(neighbour, near.instance, near.wire, guessed=True)
            if far is None:
                alone[router, neighbour, pw_id] = near
            elif places[router] < places[neighbour]:
                found.append(Joined(near, far))
                self.tell_names(near, far)
                self.join(near.instance, far.instance)
        self.tell_alone(alone)
        return found

    def tell_names(self, near: End, far: End) -> None:
        """Two instances with names of their own are one service."""
        old, new = self.service_of[far.instance].name, self.service_of[near.instance].name
        if old != new and old is not None and new is not None:
            text = f"{named(far.instance)} is a part of service {new}, with which pseudowire {far.wire.name} joins it"
            self.tell(far.router, far.instance.line, text, "names")

    def add_end(self, ends: dict[tuple[Router, Router, int], End], end: End) -> None:
        """An end that has what it needs, and whose number was not there."""
        wire, pw_id = end.wire, end.wire.pw_id or end.instance.pw_id
        if wire.left_out:
            return
        if wire.neighbour is None or pw_id is None:
            self.tell_end(end, f"is left out: it has no {'neighbour' if wire.neighbour is None else 'PW ID'}", "missing")
            return
        wire.pw_id = pw_id
        neighbour = self.by_address.get(wire.neighbour) or self.guess(end)
        if neighbour is end.router:
            self.tell_end(end, f"is left out: its neighbour {wire.neighbour} is its own router", "differs")
        elif neighbour is not None and ends.setdefault((end.router, neighbour, pw_id.value), end) is not end:
            self.tell_end(end, f"is left out: PW ID {pw_id.value} to {wire.neighbour} stood before", "differs")

    def guess(self, end: End) -> Router | None:
        """The edge of an address of which there is no configuration."""
        address = end.wire.neighbour
        assert address is not None
        if self.known:
            self.tell_end(end, f"is left out: its neighbour {address} is the router of none of the files", "missing")
            return None
        if address not in self.guessed:
            router = Router(end.router.path, "", 0)
            router.address, router.addresses = address, {address: end.wire.line}
            self.guessed[address] = router
            self.edge[router] = self.names.give("guessed", address)
            self.add_row("edge", {"name": self.edge[router], "address": address}, end.router, end.wire.line)
            text = f"no file is the configuration of {address}: {self.edge[router]} is guessed, and offers what its neighbours do"
            self.tell(end.router, end.wire.line, text, "guessed")
        return self.guessed[address]

    def tell_alone(self, alone: dict[tuple[Router, Router, int], End]) -> None:
        """Ends without another one. Two that lack each other have PW IDs that differ; those of one service go together first."""
        waiting: dict[tuple[Router, Router], list[End]] = {}
        for (router, neighbour, _), end in alone.items():
            waiting.setdefault((router, neighbour), []).append(end)
        for (router, neighbour), ends in waiting.items():
            others = waiting.get((neighbour, router), [])
            while ends:
                near = ends.pop(0)
                same = [end for end in others if self.service_of[end.instance] is self.service_of[near.instance]] or others[:1]
                if same:
                    others.remove(same[0])
                    self.tell_pw_ids(near, same[0])
                else:
                    pw_id = near.wire.pw_id.value if near.wire.pw_id is not None else 0
                    self.tell_end(near, f"is left out: {neighbour.path} has no such pseudowire back, with PW ID {pw_id}", "missing")

    def tell_pw_ids(self, near: End, far: End) -> None:
        """Two ends that name each other's router, with PW IDs that differ."""
        here, there = near.wire.pw_id, far.wire.pw_id
        assert here is not None and there is not None
        text = f"PW ID {here.value}, and {there.value} at {far.router.path}, line {there.line}: pseudowire {near.wire.name} is left out"
        self.told.append(Told(near.router.path, here.line, "differs", text, far.router.path, there.line))

    def add_service(self, service: Service) -> None:
        """The row of a service, with the largest MTU and the first age of its instances."""
        mtus = []
        for router, instance in service.members:
            wires = [wire for wire in instance.pseudowires if not wire.left_out] or [Pseudowire("", instance.line)]
            mtus += [(router.offered(instance, wire)["mtu"], router) for wire in wires]
        mtu, router = max(mtus, key=lambda found: int(found[0].value))
        least, most = SERVICE_MTU
        service.row = {"name": self.names.give(service.name or f"vc_{self.any_pw_id(service)}"), "mtu": min(max(mtu.value, least), most)}
        if service.row["mtu"] != mtu.value:
            self.tell(router, mtu.line, f"MTU {mtu.value}: a scenario's service has {least} to {most}", "range")
        self.add_age(service)
        first, instance = service.members[0]
        self.add_row("service", service.row, first, instance.line)

    def add_age(self, service: Service) -> None:
        """The age of a service, and what its instances say otherwise; that two of them stand at one router."""
        (first, _), (age, *others) = service.members[0], [instance.age or Said(router.age, instance.line) for router, instance in service.members]
        if age.value != USUAL_AGE:
            service.row["age"] = age.value
        here = {first: service.members[0][1]}
        for (router, instance), other in zip(service.members[1:], others):
            if other.value != age.value:
                text = f"forgets after {other.value}, and after {age.value} by {first.path}, line {age.line}: a service has one age, the first"
                self.told.append(Told(router.path, other.line, "differs", text, first.path, age.line))
            if here.setdefault(router, instance) is not instance:
                text = f"{named(instance)} and that of line {here[router].line} are one service by their pseudowires, and two bridges here"
                self.tell(router, instance.line, text, "differs")

    def any_pw_id(self, service: Service) -> int | str:
        """A PW ID of a service without a name."""
        return next((wire.pw_id.value for _, one in service.members for wire in one.pseudowires if wire.pw_id is not None), "")

    def add_circuits(self, router: Router) -> None:
        """A row for each circuit of a router."""
        for instance in router.instances:
            for circuit in instance.circuits:
                row: dict[str, Any] = {"name": self.names.give(self.edge[router], short(circuit.interface)), "edge": self.edge[router]}
                row["service"] = self.service_of[instance].row["name"]
                self.add_row("circuit", {**row, **({"tag": circuit.tag} if circuit.tag is not None else {})}, router, circuit.line)

    def add_wire(self, service: dict[str, Any], wire: Joined, taken: set[tuple[str, frozenset[Router]]]) -> None:
        """The row of a wire, unless there is a mesh wire between the two edges in this service. What both ends offer stands once."""
        if wire.kind is None:
            return
        near, far = wire.near, wire.far
        a, b = self.edge[near.router], self.edge[far.router]
        pair = (service["name"], frozenset(wire.routers()))
        if wire.kind == MESH and pair in taken:
            self.tell_end(near, f"is left out: service {service['name']} has a mesh wire from {a} to {b}", "differs")
            return
        if wire.kind == MESH:
            taken.add(pair)
        assert near.wire.pw_id is not None
        pw_id = near.wire.pw_id.value
        row = {"name": self.names.give(a, b, str(pw_id)), "service": service["name"], "class": wire.kind, "path": [a, b], "pw_id": pw_id}
        if wire.kind == SPOKE and near.wire.rank is not None:
            row["priority"] = near.wire.rank.value
        offers = [self.offer(near, far), self.offer(far, near)]
        tell_differences(self.told, (near, far), offers)
        ends = [self.told_of(offer, service) for offer in offers]
        if ends[0]:
            row["near"] = ends[0]
        if ends[1] != ends[0]:
            row["far"] = ends[1]
        self.add_row("wire", row, near.router, near.wire.line)

    def offer(self, end: End, other: End) -> dict[str, Said]:
        """What an end offers; one that is guessed offers what the other one does."""
        known = other if end.guessed else end
        return known.router.offered(known.instance, known.wire)

    def told_of(self, offer: dict[str, Said], service: dict[str, Any]) -> dict[str, Any]:
        """What an end offers, as far as it is not what a row without it says."""
        usual = {**USUAL, "mtu": service["mtu"]}
        found = {key: offer[key].value for key in USUAL if key in offer and offer[key].value != usual[key]}
        if "group" in found:
            found["group"] = self.group(found["group"])
        return found

    def group(self, number: int) -> str:
        """The name of a group of this number."""
        if number not in self.groups:
            self.groups[number] = f"g{number}"
            self.rows["group"].append({"name": self.groups[number], "number": number})
        return self.groups[number]


def named(instance: Instance) -> str:
    """An instance as it is told."""
    return f"service {instance.name}" if instance.name is not None else "this service"


def stem(path: str) -> str:
    """The name of a file without its last ending."""
    return pathlib.PurePath(path).stem
