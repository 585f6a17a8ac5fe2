"""A plan as configurations of Nokia SR OS, of the classic kind."""

from __future__ import annotations

from .sr_os import ETHERNET_HEADER, MEANINGS
from .text import End, Part, Text

MARK = "#" + "-" * 50


class SrOsText(Text):
    """The configurations of SR OS."""

    unsaid = ("vccv", "group")
    shared = ("mtu",)
    meanings = MEANINGS
    most_spokes = 4
    ranks = range(5)

    def router(self, edge: str, parts: list[Part]) -> str:
        """The configuration of an edge."""
        keepalive = self.keepalive(edge)
        lines = ["# TiMOS", "", "exit all", "configure", MARK, 'echo "System Configuration"', MARK, "    system", f'        name "{edge}"', "    exit"]
        lines += [MARK, 'echo "Router (Network Side) Configuration"', MARK, "    router Base", '        interface "system"']
        lines += [f"            address {self.plan.edges[edge]['address']}/32", "            no shutdown", "        exit", "        ldp"]
        lines += ["            targeted-session", *([f"                keepalive {keepalive} 4"] if keepalive else []), "            exit"]
        lines += ["            no shutdown", "        exit", "    exit", MARK, 'echo "Service Configuration"', MARK, "    service"]
        lines += ['        customer 1 name "1" create', '            description "Default customer"', "        exit"]
        sdps: dict[str, int] = {}
        for end in (end for part in parts for end in part.ends()):
            sdps.setdefault(end.far, len(sdps) + 1)
        for far, number in sdps.items():
            lines += [f"        sdp {number} mpls create", f"            far-end {far}", "            ldp", "            keep-alive"]
            lines += ["                shutdown", "            exit", "            no shutdown", "        exit"]
        lines += [line for part in parts for line in self.vpls(part, sdps)]
        return "\n".join([*lines, "    exit", "", "exit all", ""])

    def vpls(self, part: Part, sdps: dict[str, int]) -> list[str]:
        """A service."""
        lines = [f'        vpls {part.number} name "{part.service}" customer 1 create']
        mtu, age = self.one(part, "mtu"), self.age(part)
        lines += [f"            service-mtu {mtu + ETHERNET_HEADER}"] if mtu != MEANINGS["mtu"].value else []
        lines += [f"            local-age {age}"] if age else []
        lines += ["            stp", "                shutdown", "            exit"]
        lines += ['            endpoint "cores" create', "                no suppress-standby-signaling", "            exit"] if len(part.starts) > 1 else []
        for port in part.circuits:
            name = f"1/1/{port.number}" + (f":{port.tag}" if port.tag is not None else "")
            lines += [f"            sap {name} create", f'                description "{port.name}"', "                no shutdown", "            exit"]
        for end in part.hubs:
            lines += wire("spoke-sdp", end, sdps)
        for end, rank in zip(part.starts, [*part.ranks, None]):
            lines += wire("spoke-sdp", end, sdps, rank)
        for end in part.mesh:
            lines += wire("mesh-sdp", end, sdps)
        return [*lines, "            no shutdown", "        exit"]


def wire(word: str, end: End, sdps: dict[str, int], rank: int | None = None) -> list[str]:
    """The lines of a pseudowire."""
    offer = end.offer
    tagged = " vc-type vlan" if offer["mode"] == "tagged" else ""
    lines = [f"            {word} {sdps[end.far]}:{end.wire.pw_id}{tagged}" + (' endpoint "cores"' if rank is not None else "") + " create"]
    lines += [f'                description "{offer["description"]}"'] if offer["description"] else []
    lines += [f"                vlan-vc-tag {offer['vlan']}"] if offer["vlan"] is not None else []
    lines += ["                control-word"] if offer["control_word"] else []
    lines += [f"                precedence {rank or 'primary'}"] if rank is not None else []
    lines += [] if offer["status"] else ["                no pw-status-signaling"]
    return [*lines, "                no shutdown", "            exit"]
