"""A plan as configurations of Juniper Junos, in braces."""

from __future__ import annotations

from .junos import CHANNELS, MEANINGS
from .text import End, Part, Port, Text

TYPE_CHECKING = False
if TYPE_CHECKING:
    from typing import TypeAlias

    # A statement, or the front of a block and what stands in it.
    Statement: TypeAlias = "str | tuple[str, list[Statement]]"


class JunosText(Text):
    """The configurations of Junos."""

    ending = ".conf"
    unsaid = ("vlan", "group")
    meanings = MEANINGS

    def router(self, edge: str, parts: list[Part]) -> str:
        """The configuration of an edge."""
        address, keepalive = self.plan.edges[edge]["address"], self.keepalive(edge)
        loopback: Statement = ("lo0", [("unit 0", [("family inet", [f"address {address}/32"])])])
        ldp: list[Statement] = [f"keepalive-timeout {keepalive}"] if keepalive else []
        blocks: list[Statement] = [
            ("system", [f"host-name {edge}"]),
            ("interfaces", [*(interface(port) for part in parts for port in part.circuits), loopback]),
            ("routing-options", [f"router-id {address}"]),
            ("protocols", [("ldp", [*ldp, "interface lo0.0"])]),
        ]
        if parts:
            blocks.append(("routing-instances", [self.instance(edge, part) for part in parts]))
        return "\n".join(line for block in blocks for line in written(block, 0)) + "\n"

    def instance(self, edge: str, part: Part) -> Statement:
        """A service."""
        vpls: list[Statement] = ["no-tunnel-services"]
        age = self.age(part)
        vpls += [f"mac-table-aging-time {age}"] if age else []
        vpls += self.together(edge, part)
        for end in part.hubs:
            vpls.append((f"mesh-group spoke{part.hubs.index(end) + 1}", [f"vpls-id {end.wire.pw_id}", "local-switching", neighbor(end)]))
        inner: list[Statement] = ["instance-type vpls", *(f"interface {name_of(port)}" for port in part.circuits), ("protocols", [("vpls", vpls)])]
        return part.service, inner

    def together(self, edge: str, part: Part) -> list[Statement]:
        """The neighbours of the mesh, or those of the spokes that start here: all with one PW ID."""
        ends = part.mesh or part.starts
        if not ends:
            mtu = self.plan.services[part.service]["mtu"]
            return [f"mtu {mtu}"] if mtu != MEANINGS["mtu"].value and not part.hubs else []
        pw_id = ends[0].wire.pw_id
        for end in ends:
            if end.wire.pw_id != pw_id:
                self.leave(f"wire {end.wire.name} at {edge} is left out: its PW ID {end.wire.pw_id} is not {pw_id}, and neighbours in one mesh have one")
        ends = [end for end in ends if end.wire.pw_id == pw_id]
        found: list[Statement] = [f"vpls-id {pw_id}"]
        if part.mesh:
            return [*found, *(neighbor(end) for end in ends)]
        backups: list[Statement] = []
        for end in ends[1:]:
            name, inner = neighbor(end, "backup-neighbor")
            backups.append((name, [*inner, "standby"]))
        name, inner = neighbor(ends[0])
        return [*found, (name, [*inner, *backups])]


def name_of(port: Port) -> str:
    """The logical interface of a circuit."""
    return f"ge-0/0/{port.number}.{port.tag or 0}"


def interface(port: Port) -> Statement:
    """The lines of a circuit."""
    if port.tag is None:
        return f"ge-0/0/{port.number}", ["encapsulation ethernet-vpls", ("unit 0", [f'description "{port.name}"', "family vpls"])]
    unit: list[Statement] = [f'description "{port.name}"', "encapsulation vlan-vpls", f"vlan-id {port.tag}", "input-vlan-map pop", "output-vlan-map push"]
    return f"ge-0/0/{port.number}", ["vlan-tagging", "encapsulation vlan-vpls", (f"unit {port.tag}", [*unit, "family vpls"])]


def neighbor(end: End, word: str = "neighbor") -> tuple[str, list[Statement]]:
    """The lines of a pseudowire: all that it offers, so that a backup takes nothing over."""
    offer = end.offer
    inner: list[Statement] = ["encapsulation-type " + ("ethernet-vlan" if offer["mode"] == "tagged" else "ethernet")]
    inner += ["control-word" if offer["control_word"] else "no-control-word", f"mtu {offer['mtu']}"]
    inner += ["pseudowire-status-tlv"] if offer["status"] else []
    inner += [f'description "{offer["description"]}"'] if offer["description"] else []
    channels: list[Statement] = [channel for channel, bit in CHANNELS.items() if offer["vccv"] & bit]
    inner += [("oam", [("control-channel", channels)])] if channels else []
    return f"{word} {end.far}", inner


def written(statement: Statement, depth: int) -> list[str]:
    """The lines of a statement, each level by four blanks further in."""
    front = "    " * depth
    if isinstance(statement, str):
        return [f"{front}{statement};"]
    name, inner = statement
    return [f"{front}{name} {{", *(line for one in inner for line in written(one, depth + 1)), f"{front}}}"]
