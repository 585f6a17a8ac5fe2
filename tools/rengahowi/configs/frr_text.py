"""A plan as the configurations of FRR routers, and as a lab of containerlab."""

from __future__ import annotations

from ..keys import OFFER
from .frr import MEANINGS
from .text import Text

TYPE_CHECKING = False
if TYPE_CHECKING:
    from ..plan import Plan

IMAGE = "quay.io/frrouting/frr:9.1.0"
DAEMONS = "zebra=yes\nospfd=yes\nldpd=yes\nvtysh_enable=yes\n"
# What no line of an `l2vpn` section tells.
UNTOLD = ("vlan", "vccv", "group", "description")
LEAST_MTU = 64
USUAL = {key.name: key.default for key in OFFER}


class FrrText(Text):
    """The configurations of FRR, and a lab of them."""

    ending = ".conf"
    says_age = False
    meanings = MEANINGS
    least_keepalive = 15

    def __init__(self, plan: Plan) -> None:
        super().__init__(plan)
        self.neighbours: dict[str, list[str]] = {edge: [] for edge in plan.edges}
        for a, b in plan.pairs():
            self.neighbours[a].append(b)
            self.neighbours[b].append(a)
        self.circuits = {edge: [name for name, row in plan.circuits.items() if row["edge"] == edge] for edge in plan.edges}

    def files(self, name: str) -> dict[str, str]:
        """All files, by their names."""
        self.check_services()
        self.leave_out()
        files = {f"{edge}.conf": self.configuration(edge) for edge in self.plan.edges}
        return {**files, "daemons": DAEMONS, "lab.clab.yml": self.lab(name)}

    def leave_out(self) -> None:
        """Tells what FRR cannot say of wires."""
        for wire in self.plan.wires.values():
            if wire.kind == "spoke" and len(wire.path) == 2:
                self.leave(f"spoke {wire.name} becomes a pseudowire of the mesh, without priority {wire.priority}")
            for edge in wire.ends():
                offer = wire.offer(edge)
                if offer["mtu"] < LEAST_MTU:
                    self.leave(f"wire {wire.name} at {edge}: FRR takes no MTU of {offer['mtu']}")
                for key in UNTOLD:
                    if offer[key] != USUAL[key] and not (key == "group" and offer[key] == 0):
                        self.leave(f"wire {wire.name} at {edge}: {key} {offer[key]} is left out")

    def port(self, edge: str, peer: str) -> str:
        """The interface of an edge towards a neighbour."""
        return f"eth{self.neighbours[edge].index(peer) + 1}"

    def circuit_port(self, edge: str, circuit: str) -> str:
        """The interface of a circuit."""
        tag = self.plan.circuits[circuit]["tag"]
        name = f"eth{len(self.neighbours[edge]) + self.circuits[edge].index(circuit) + 1}"
        return f"{name}.{tag}" if tag else name

    def configuration(self, edge: str) -> str:
        """The configuration of an edge."""
        address = self.plan.edges[edge]["address"]
        ports = [self.port(edge, peer) for peer in self.neighbours[edge]]
        lines = [f"hostname {edge}", "!", "interface lo", f" ip address {address}/32", " ip ospf area 0", "exit", "!"]
        for port in ports:
            lines += [f"interface {port}", f" ip address {address}/32", " ip ospf network point-to-point", " ip ospf area 0", "exit", "!"]
        lines += ["router ospf", f" ospf router-id {address}", "exit", "!", "mpls ldp", f" router-id {address}", " address-family ipv4"]
        lines += [f"  discovery transport-address {address}", f"  session holdtime {self.keepalive(edge) or MEANINGS['keepalive'].value}"]
        lines += [line for port in ports for line in (f"  interface {port}", "  exit")]
        lines += [" exit-address-family", "exit", "!"]
        for service in self.plan.services:
            lines += self.section(edge, service)
        return "\n".join(lines) + "\n"

    def section(self, edge: str, service: str) -> list[str]:
        """The `l2vpn` section of a service at an edge: none where it has no circuit and no wire there."""
        wires = [wire for wire in self.plan.wires_of(service) if edge in wire.ends() and len(wire.path) == 2]
        circuits = [name for name in self.circuits[edge] if self.plan.circuits[name]["service"] == service]
        if not wires and not circuits:
            return []
        offers = [wire.offer(edge) for wire in wires] or [{"mtu": self.plan.services[service]["mtu"], "mode": "raw"}]
        lines = [f"l2vpn {service} type vpls", f" bridge br_{service}", f" mtu {offers[0]['mtu']}"]
        lines += [" vc type ethernet-tagged"] if offers[0]["mode"] == "tagged" else []
        lines += [line for name in circuits for line in (f" member interface {self.circuit_port(edge, name)}", " !")]
        for number, (wire, offer) in enumerate(zip(wires, offers)):
            for key in ("mtu", "mode"):
                if offer[key] != offers[0][key]:
                    self.leave(f"wire {wire.name} at {edge}: {key} {offer[key]} is left out, since a section has one, {offers[0][key]}")
            far = wire.path[1] if edge == wire.path[0] else wire.path[0]
            lines += [f" member pseudowire mpw_{service}_{number}", f"  neighbor lsr-id {self.plan.edges[far]['address']}", f"  pw-id {wire.pw_id}"]
            lines += [] if offer["control_word"] else ["  control-word exclude"]
            lines += [] if offer["status"] else ["  pw-status disable"]
            lines += [" !"]
        return [*lines, "exit", "!"]

    def lab(self, name: str) -> str:
        """The file for containerlab."""
        lines = [f"name: {name}", "topology:", "  nodes:"]
        for edge in self.plan.edges:
            lines += [f"    {edge}:", "      kind: linux", f"      image: {IMAGE}", "      binds:"]
            lines += [f"        - {edge}.conf:/etc/frr/frr.conf", "        - daemons:/etc/frr/daemons"]
            bridges = [service for service in self.plan.services if self.section(edge, service)]
            commands = [f"ip link add br_{service} type bridge" for service in bridges] + [f"ip link set br_{service} up" for service in bridges]
            commands += [f"sysctl -w net.mpls.conf.{self.port(edge, peer)}.input=1" for peer in self.neighbours[edge]]
            if commands:
                lines += ["      exec:", *(f"        - {command}" for command in ["sysctl -w net.mpls.platform_labels=1048575", *commands])]
        lines += ["  links:"]
        for a, b in self.plan.pairs():
            lines.append(f'    - endpoints: ["{a}:{self.port(a, b)}", "{b}:{self.port(b, a)}"]')
        return "\n".join(lines) + "\n"
