"""A plan as configurations of Huawei VRP."""

from __future__ import annotations

from .text import Part, Port, Text
from .vrp import MEANINGS


class VrpText(Text):
    """The configurations of VRP."""

    unsaid = ("vlan", "vccv", "status", "group")
    shared = ("mtu", "mode", "control_word", "description")
    meanings = MEANINGS
    ranks = range(1, 17)
    says_age = False

    def router(self, edge: str, parts: list[Part]) -> str:
        """The configuration of an edge."""
        address, keepalive = self.plan.edges[edge]["address"], self.keepalive(edge)
        lines = ["#", f"sysname {edge}", "#", f"mpls lsr-id {address}", "#", "mpls", "#", "mpls l2vpn", "#"]
        lines += [line for part in parts for line in self.vsi(part)]
        lines += ["mpls ldp", "#"]
        for number, far in enumerate(dict.fromkeys(end.far for part in parts for end in part.ends()), 1):
            lines += [f"mpls ldp remote-peer peer{number}", f" remote-ip {far}"]
            lines += [f" mpls ldp timer keepalive-hold {keepalive}"] if keepalive else []
            lines += ["#"]
        if keepalive and not any(part.ends() for part in parts):
            self.leave(f"edge {edge}: its keepalive {keepalive} is left out, since it has no pseudowire")
        lines += [line for part in parts for port in part.circuits for line in interface(port, part.service)]
        return "\n".join([*lines, "interface LoopBack0", f" ip address {address} 255.255.255.255", "#", "return", ""])

    def vsi(self, part: Part) -> list[str]:
        """A service."""
        lines = [f"vsi {part.service} static"]
        ends, description = part.ends(), self.one(part, "description")
        lines += [f" description {description}"] if description else []
        if ends:
            lines += [" pwsignal ldp", f"  vsi-id {ends[0].wire.pw_id}"]
            lines += ["  control-word enable"] if self.one(part, "control_word") else []
            for end in ends:
                more = f" negotiation-vc-id {end.wire.pw_id}" if end.wire.pw_id != ends[0].wire.pw_id else ""
                lines += [f"  peer {end.far}{more}" + (" upe" if end in part.hubs else "")]
        if len(part.starts) > 1:
            lines += ["  protect-group cores", "   protect-mode pw-redundancy master"]
            for end, rank in zip(part.starts, part.ranks):
                lines += [f"   peer {end.far} negotiation-vc-id {end.wire.pw_id} preference {rank}"]
        mtu = self.one(part, "mtu")
        lines += [f" mtu {mtu}"] if mtu != MEANINGS["mtu"].value else []
        lines += [" encapsulation ethernet"] if self.one(part, "mode") == "raw" else []
        return [*lines, "#"]


def interface(port: Port, service: str) -> list[str]:
    """The lines of a circuit."""
    name = f"GigabitEthernet1/0/{port.number}" + (f".{port.tag}" if port.tag is not None else "")
    tagged = [f" vlan-type dot1q {port.tag}"] if port.tag is not None else []
    return [f"interface {name}", f" description {port.name}", " undo shutdown", *tagged, f" l2 binding vsi {service}", "#"]
