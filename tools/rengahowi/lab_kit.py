"""What a lab of a plan needs to be recorded: scripts that bring it up and run it, test frames, and the LAB.toml of its captures."""

from __future__ import annotations

import struct

from .configs.frr_text import FrrText
from .writing import value

TYPE_CHECKING = False
if TYPE_CHECKING:
    from typing import Any

    from .plan import Plan

UP = """#!/usr/bin/env bash
# Brings the lab up by containerlab, joins the ports of the customers to the bridges of the edges, and gives each an interface here.
# CONTAINERLAB names another program than containerlab; `up down` takes the lab down.
cd "$(dirname "$0")" || exit 1
lab={name}
if [[ "$1" == down ]]; then
    for number in {numbers}; do ip link del "site$number" 2>/dev/null; done
    exec "${{CONTAINERLAB:-containerlab}}" destroy -t lab.clab.yml
fi
"${{CONTAINERLAB:-containerlab}}" deploy -t lab.clab.yml || exit 1
# A port: its number, its edge, its interface there, its bridge, and its tag where it has one. What an edge would send by itself is off.
port() {{
    local space="clab-$lab-$2" member="$3"
    ip netns exec "$space" sysctl -qw net.ipv6.conf.all.disable_ipv6=1 net.ipv6.conf.default.disable_ipv6=1
    ip link add "site$1" type veth peer name "$3" netns "$space" || exit 1
    if [[ -n "$5" ]]; then
        member="$3.$5"
        ip -n "$space" link add link "$3" name "$member" type vlan id "$5" || exit 1
        ip -n "$space" link set "$member" up
    fi
    ip -n "$space" link set "$3" up
    ip -n "$space" link set "$4" type bridge mcast_snooping 0
    ip -n "$space" link set "$member" master "$4" || exit 1
    sysctl -qw "net.ipv6.conf.site$1.disable_ipv6=1"
    ip link set "site$1" up
}}
{ports}
"""
RUN = """#!/usr/bin/env bash
# Records the lab: starts every tcpdump, has LDP begin anew, waits for it, sends the test frames, asks the edges for their pseudowires
# meanwhile, and ends. SECONDS_FOR_LDP is how long LDP may take (40). ASK is how an edge is asked (docker exec); what comes behind it are
# the name of the node, and vtysh with its words.
cd "$(dirname "$0")" || exit 1
lab={name}
rm -rf captures tables && mkdir -p captures tables || exit 1
recorders=()
record() {{
    ip netns exec "clab-$lab-$1" tcpdump -i "$2" -U -B 65536 -Z root "${{@:4}}" -w "captures/$3.pcap" 2>"captures/$3.pcap.log" &
    recorders+=($!)
}}
finish() {{ kill -INT "${{recorders[@]}}" 2>/dev/null; wait "${{recorders[@]}}" 2>/dev/null; }}
trap finish EXIT
ask() {{ ${{ASK:-docker exec}} "clab-$lab-$1" vtysh "${{@:2}}"; }}
tables() {{ for edge in {edges}; do ask "$edge" -c 'show l2vpn atom vc json' >"tables/$edge-$(date +%s.%N).json" || exit 1; done; }}
{records}
for recorder in "${{recorders[@]}}"; do kill -0 "$recorder" || exit 1; done
until (($(grep -l '^tcpdump: listening' captures/*.log | wc -l) == ${{#recorders[@]}})); do sleep 0.1; done
date +%s.%N >captures/from
for edge in {edges}; do ask "$edge" -c 'clear mpls ldp neighbor' >/dev/null; done
sleep "${{SECONDS_FOR_LDP:-40}}"
tables
./send || exit 1
tables
sleep 2
date +%s.%N >captures/until
"""
SEND = '''#!/usr/bin/env python3
"""Sends the test frames of each circuit: by scapy (Debian: python3-scapy) where it is there, else by tcpreplay."""

import shutil
import subprocess
import sys

SITES = {sites}

try:
    from scapy.all import rdpcap, sendp
except ImportError:
    if shutil.which("tcpreplay") is None:
        sys.exit("send: scapy and tcpreplay are missing (Debian: python3-scapy, tcpreplay)")
    for circuit, interface in SITES.items():
        subprocess.run(["tcpreplay", "--quiet", "-p", "50", "-i", interface, f"frames/{{circuit}}.pcap"], check=True)
else:
    for circuit, interface in SITES.items():
        sendp(rdpcap(f"frames/{{circuit}}.pcap"), iface=interface, inter=0.02, verbose=False)
'''
# To everybody, and to a station that nobody has.
TARGETS = (b"\xff" * 6, bytes.fromhex("02feffffffff"))
LEAST = 60


class LabKit:
    """The files beside those of FRR."""

    def __init__(self, plan: Plan, name: str, count: int) -> None:
        self.plan, self.name, self.count, self.frr = plan, name, count, FrrText(plan)
        self.number = {circuit: place for place, circuit in enumerate(plan.circuits, 1)}

    def files(self) -> dict[str, bytes]:
        """All files, by their names."""
        texts = {**self.frr.files(self.name), "up": self.up(), "run": self.run(), "send": self.send(), "LAB.toml": self.lab()}
        frames = {f"frames/{circuit}.pcap": self.frames(circuit) for circuit in self.plan.circuits}
        return {**{name: text.encode() for name, text in texts.items()}, **frames}

    def port_of(self, circuit: str) -> tuple[str, str]:
        """The edge of a circuit, and the name of its interface there, without its tag."""
        edge: str = self.plan.circuits[circuit]["edge"]
        return edge, self.frr.circuit_port(edge, circuit).split(".")[0]

    def ends(self) -> list[tuple[str, str, str]]:
        """The ends of the links: both edges, and the one at which it is captured."""
        return [(a, b, at) for a, b in self.plan.pairs() for at in (a, b)]

    def up(self) -> str:
        """The script that brings the lab up."""
        ports = []
        for circuit, row in self.plan.circuits.items():
            edge, port = self.port_of(circuit)
            tag = f" {row['tag']}" if row["tag"] else ""
            ports.append(f"port {self.number[circuit]} {edge} {port} br_{row['service']}{tag} # {circuit}")
        return UP.format(name=self.name, numbers=" ".join(map(str, self.number.values())), ports="\n".join(ports))

    def run(self) -> str:
        """The script that records it."""
        records = []
        for circuit in self.plan.circuits:
            edge, port = self.port_of(circuit)
            records += [f"record {edge} {port} {circuit}-{way} -Q {way}" for way in ("in", "out")]
        for a, b, at in self.ends():
            records.append(f"record {at} {self.frr.port(at, b if at == a else a)} {a}-{b}-at-{at}")
        return RUN.format(name=self.name, edges=" ".join(self.plan.edges), records="\n".join(records))

    def send(self) -> str:
        """The script that sends the test frames."""
        return SEND.format(sites={circuit: f"site{number}" for circuit, number in self.number.items()})

    def lab(self) -> str:
        """LAB.toml."""
        rows: list[tuple[str, dict[str, Any]]] = []
        for circuit in self.plan.circuits:
            rows += [("capture", {"file": f"captures/{circuit}-{way}.pcap", "circuit": circuit, "direction": way}) for way in ("in", "out")]
        rows += [("capture", {"file": f"captures/{a}-{b}-at-{at}.pcap", "link": [a, b], "at": at}) for a, b, at in self.ends()]
        if self.plan.wires:
            rows += [("table", {"file": f"tables/{edge}-*.json", "edge": edge}) for edge in self.plan.edges]
        text = 'plan = "plan.toml"\nfrom = "captures/from"\nuntil = "captures/until"\n'
        return text + "".join(f"\n[[{table}]]\n" + "".join(f"{key} = {value(it)}\n" for key, it in row.items()) for table, row in rows)

    def frames(self, circuit: str) -> bytes:
        """The test frames of a circuit as a capture: each has its circuit and its number within."""
        tag = self.plan.circuits[circuit]["tag"]
        tagged = b"" if tag is None else struct.pack(">HH", 0x8100, tag)
        source = bytes.fromhex("02fe00000000")[:4] + self.number[circuit].to_bytes(2, "big")
        parts = [struct.pack("<IHHiIII", 0xA1B2C3D4, 2, 4, 0, 0, 262144, 1)]
        for number in range(1, self.count + 1):
            text = f"{circuit} {number:06}".encode()
            frame = TARGETS[number % 2 == 0] + source + tagged + b"\x88\xb5" + text
            frame += bytes(max(0, LEAST - len(frame)))
            parts.append(struct.pack("<IIII", number, 0, len(frame), len(frame)) + frame)
        return b"".join(parts)
