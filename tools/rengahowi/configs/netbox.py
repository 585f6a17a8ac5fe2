"""The L2VPNs of an export of NetBox as the rows of a scenario."""

from __future__ import annotations

from ..command import Fault
from ..plan import is_address
from .names import Names, short

TYPE_CHECKING = False
if TYPE_CHECKING:
    from collections.abc import Iterator
    from typing import Any

    Object = dict[str, Any]

# The types of L2VPN that are a VPLS with LDP; others are told.
TYPES = ("vpls",)
INTERFACE, VLAN = "dcim.interface", "ipam.vlan"


class NetBox:
    """An export: its objects by kind and number."""

    def __init__(self, export: Any) -> None:
        if not isinstance(export, dict):
            raise Fault("the export is no object with l2vpns and l2vpn_terminations")
        self.told: list[str] = []
        self.names = Names()
        self.lists = {key.rpartition(".")[2].replace("-", "_"): self.listed(key, value) for key, value in export.items()}
        self.devices = self.numbered("devices")
        self.interfaces = self.numbered("interfaces")
        self.vlans = self.numbered("vlans")
        self.edges: dict[int, str] = {}
        self.found: dict[str, list[Object]] = {"edge": [], "service": [], "circuit": [], "wire": []}

    def listed(self, key: str, value: Any) -> list[Object]:
        """The objects of a list of the API, of which only the first page may be there."""
        if isinstance(value, dict) and value.get("next"):
            self.told.append(f"{key} has a next page, which is not in the file")
        objects = value.get("results", []) if isinstance(value, dict) else value
        return [one for one in objects if isinstance(one, dict)] if isinstance(objects, list) else []

    def numbered(self, key: str) -> dict[int, Object]:
        """Objects by their numbers."""
        return {one["id"]: one for one in self.lists.get(key, []) if isinstance(one.get("id"), int)}

    def rows(self) -> dict[str, list[Object]]:
        """The rows of the scenario: a full mesh of the edges of each service."""
        ends: dict[int, list[Object]] = {}
        for one in self.lists.get("l2vpn_terminations", []):
            ends.setdefault(number_of(one.get("l2vpn")), []).append(one)
        services = []
        for l2vpn in self.lists.get("l2vpns", []):
            kind = text_of(l2vpn.get("type"))
            if kind not in TYPES:
                self.tell(l2vpn, f"its type is {kind or 'absent'}, and that of a service vpls")
                continue
            circuits = [circuit for end in ends.get(number_of(l2vpn), []) for circuit in self.circuits(l2vpn, end)]
            if circuits:
                services.append((l2vpn, circuits))
            else:
                self.tell(l2vpn, "it ends at no interface of a device with an address")
        for l2vpn, circuits in services:
            self.add_service(l2vpn, circuits)
        return self.found

    def tell(self, one: Object, why: str) -> None:
        """Tells why an object is left out."""
        self.told.append(f"{name_of(one)} is left out: {why}")

    def circuits(self, l2vpn: Object, end: Object) -> Iterator[tuple[int, str, int | None]]:
        """The circuits of a termination: its device, its interface and its tag."""
        kind, target = text_of(end.get("assigned_object_type")), end.get("assigned_object")
        target = target if isinstance(target, dict) else {}
        number = number_of(target) or number_of(end.get("assigned_object_id"))
        if kind == INTERFACE:
            yield from self.at_interface(l2vpn, {**target, **self.interfaces.get(number, {})}, None)
        elif kind == VLAN:
            vlan = {**target, **self.vlans.get(number, {})}
            for interface in self.interfaces.values():
                if any(number_of(one) == number for one in tagged_of(interface)):
                    yield from self.at_interface(l2vpn, interface, vlan.get("vid"))
                elif number_of(interface.get("untagged_vlan")) == number:
                    yield from self.at_interface(l2vpn, interface, None)
        else:
            self.tell(l2vpn, f"a termination at {kind or 'nothing'} is no circuit")

    def at_interface(self, l2vpn: Object, interface: Object, tag: int | None) -> Iterator[tuple[int, str, int | None]]:
        """The circuit of an interface, whose device has to have an address. A logical interface has its tag behind its dot."""
        name = str(interface.get("name", ""))
        device = interface.get("device")
        number = number_of(device)
        if not number or not name:
            self.tell(l2vpn, f"interface {name or number_of(interface)} is of no device")
            return
        if self.edge(number, device) is None:
            return
        inner = name.rpartition(".")[2] if "." in name else ""
        if tag is None and text_of(interface.get("type")) == "virtual" and inner.isdigit() and 0 < int(inner) < 4095:
            tag = int(inner)
        if tag is not None and not (isinstance(tag, int) and 0 < tag < 4095):
            self.tell(l2vpn, f"{name} has the tag {tag}")
            return
        yield number, name, tag

    def edge(self, number: int, device: Any) -> str | None:
        """The edge of a device; None where it has no address."""
        if number not in self.edges:
            whole = {**(device if isinstance(device, dict) else {}), **self.devices.get(number, {})}
            address = text_of(whole.get("primary_ip4") or whole.get("primary_ip"), "address").partition("/")[0]
            if not is_address(address):
                self.tell(whole or {"id": number}, "its device has no primary IPv4 address")
                self.edges[number] = ""
            elif any(row["address"] == address for row in self.found["edge"]):
                self.tell(whole, f"another device has the address {address}")
                self.edges[number] = ""
            else:
                self.edges[number] = self.names.give(name_of(whole))
                self.found["edge"].append({"name": self.edges[number], "address": address})
        return self.edges[number] or None

    def add_service(self, l2vpn: Object, circuits: list[tuple[int, str, int | None]]) -> None:
        """The rows of a service."""
        name = self.names.give(str(l2vpn.get("slug") or name_of(l2vpn)))
        self.found["service"].append({"name": name})
        edges = list(dict.fromkeys(self.edges[device] for device, _, _ in circuits))
        for device, interface, tag in circuits:
            row: Object = {"name": self.names.give(self.edges[device], short(interface)), "edge": self.edges[device], "service": name}
            self.found["circuit"].append({**row, **({"tag": tag} if tag is not None else {})})
        said = l2vpn.get("identifier")
        pw_id = said if isinstance(said, int) and 0 < said < 2**32 else number_of(l2vpn) or 1
        if pw_id != said:
            self.told.append(f"{name_of(l2vpn)} has no identifier that is a PW ID: {pw_id} stands for it")
        used = {(frozenset(wire["path"]), wire["pw_id"]) for wire in self.found["wire"]}
        for place, near in enumerate(edges):
            for far in edges[place + 1 :]:
                if (frozenset((near, far)), pw_id) in used:
                    self.told.append(f"{name_of(l2vpn)}: {near} and {far} have PW ID {pw_id} already: their wire is left out")
                    continue
                row = {"name": self.names.give(near, far, str(pw_id)), "service": name, "class": "mesh", "path": [near, far], "pw_id": pw_id}
                self.found["wire"].append(row)


def number_of(one: Any) -> int:
    """The number of an object, or of a reference to it; 0 where there is none."""
    found = one.get("id") if isinstance(one, dict) else one
    return found if isinstance(found, int) and not isinstance(found, bool) else 0


def text_of(one: Any, key: str = "value") -> str:
    """A text, or that of an object that stands for it."""
    found = one.get(key) if isinstance(one, dict) else one
    return found if isinstance(found, str) else ""


def name_of(one: Object) -> str:
    """The name of an object."""
    return str(one.get("name") or one.get("display") or f"object {one.get('id')}")


def tagged_of(interface: Object) -> list[Any]:
    """The VLANs that an interface carries with a tag."""
    found = interface.get("tagged_vlans")
    return found if isinstance(found, list) else []
