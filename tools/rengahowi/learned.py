"""What the bridges of the edges have learned, as far as a report tells all that they hear (RFC 4762 sections 4.2, 6.2 and 9.1)."""

from __future__ import annotations

TYPE_CHECKING = False
if TYPE_CHECKING:
    from .plan import Plan, Wire

# So many addresses a bridge keeps at most.
MOST = 4096
# The types of the TLVs of an Address Withdraw that a bridge heeds, the U bit of the list among them (RFC 5036 section 3.4.1, RFC 4762
# section 6.2), and of the FEC element of a PW ID (RFC 8077 section 5.1); in hexadecimal, as octets are told.
FEC, MAC_LIST, PW_ID = "0100", "8404", "80"
# Where the first TLV of the only message of a PDU stands (RFC 5036 sections 3.1 and 3.5).
FIRST_TLV = 36


class Learned:
    """The addresses that each bridge has learned: by service and edge each address with its port, a circuit or a wire, and the ticks that
    had passed then."""

    def __init__(self, plan: Plan) -> None:
        self.plan, self.ticks = plan, 0
        self.bridges: dict[str, dict[str, dict[str, tuple[str, int]]]] = {name: {} for name in plan.services}
        # The wire that ends at an edge, by the edge, its neighbour on the wire, and the PW ID.
        self.ending: dict[tuple[str, str, int], Wire] = {}
        for wire in plan.wires.values():
            self.ending[wire.path[0], wire.path[1], wire.pw_id] = self.ending[wire.path[-1], wire.path[-2], wire.pw_id] = wire

    def copy(self) -> Learned:
        """The same, to which other things may happen."""
        made = Learned.__new__(Learned)
        made.plan, made.ticks, made.ending = self.plan, self.ticks, self.ending
        made.bridges = {service: {edge: bridge.copy() for edge, bridge in bridges.items()} for service, bridges in self.bridges.items()}
        return made

    def is_known(self, service: str, address: str) -> bool:
        """Whether a bridge of the service has learned an address."""
        age = self.plan.services[service]["age"]
        found = (bridge[address] for bridge in self.bridges[service].values() if address in bridge)
        return any(self.ticks - since < age for _, since in found)

    def learn(self, service: str, edge: str, address: str, port: str) -> None:
        """A bridge hears an address by a port; a group is none (IEEE 802.3 clause 3.2.3)."""
        if int(address[1], 16) % 2 == 1:
            return
        bridge = self.bridges[service].setdefault(edge, {})
        if address not in bridge and len(bridge) >= MOST:
            self.forget_old(bridge, self.plan.services[service]["age"])
        if address in bridge or len(bridge) < MOST:
            bridge[address] = port, self.ticks

    def forget_old(self, bridge: dict[str, tuple[str, int]], age: int) -> None:
        """What a bridge has not heard for so many ticks is forgotten. It is so from the tick on by which it grew so old."""
        for address in [address for address, (_, since) in bridge.items() if self.ticks - since >= age]:
            del bridge[address]

    def forget_edge(self, edge: str) -> None:
        """An edge forgets all: it restarts."""
        for bridges in self.bridges.values():
            bridges.pop(edge, None)

    def forget_port(self, service: str, edge: str, port: str) -> None:
        """What was learned by a port is forgotten: a circuit that goes off, or a wire that is not up."""
        bridge = self.bridges[service].get(edge, {})
        for address in [address for address, (by, _) in bridge.items() if by == port]:
            del bridge[address]

    def withdraw(self, edge: str, peer: str, octets: str) -> None:
        """An edge hears an Address Withdraw of a neighbour: of a list that is not empty the addresses go that were learned by the wire,
        and of an empty one all that were not (RFC 4762 section 6.2). A switching point of the wire forgets nothing."""
        tlvs = tlvs_of(octets[FIRST_TLV:])
        fec, macs = tlvs.get(FEC, ""), tlvs.get(MAC_LIST)
        wire = self.ending.get((edge, peer, int(fec[16:24] or "0", 16))) if fec[:2] == PW_ID else None
        if wire is None or macs is None:
            return
        bridge = self.bridges[wire.service].get(edge, {})
        listed = {macs[place : place + 12] for place in range(0, len(macs), 12)}
        for address, (port, _) in list(bridge.items()):
            if (port == wire.name and address in listed) if listed else port != wire.name:
                del bridge[address]


def tlvs_of(octets: str) -> dict[str, str]:
    """The TLVs of a message by their types, each with its value."""
    found, place = {}, 0
    while place + 8 <= len(octets):
        end = place + 8 + 2 * int(octets[place + 4 : place + 8], 16)
        found[octets[place : place + 4]] = octets[place + 8 : end]
        place = end
    return found
