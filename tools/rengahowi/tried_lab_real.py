"""A real lab for the checks of `tools/lab` and `tools/from-lab`: two FRR speakers in network namespaces, and a bridge of Linux with three
ports of a customer, which floods rightly, not at one port, and round a loop."""

from __future__ import annotations

import os
import pathlib
import re
import shutil

from .tried_labs import CUSTOMERS
from .trying import PATIENCE, TOP, compare, run, tool

TYPE_CHECKING = False
if TYPE_CHECKING:
    from collections.abc import Iterator
    from typing import Any

DAEMONS = pathlib.Path("/usr/lib/frr")
PLAN = CUSTOMERS + """[[circuit]]
name = "lyon"
edge = "a"
service = "red"
[[circuit]]
name = "metz"
edge = "a"
service = "red"
[[circuit]]
name = "paris"
edge = "a"
service = "red"
[[circuit]]
name = "nice"
edge = "b"
service = "blue"
[[wire]]
name = "w"
service = "blue"
class = "mesh"
path = ["a", "b"]
pw_id = 100
"""
# Does containerlab's part: nodes as namespaces with its names, their links, and FRR with the configurations of the lab.
DEPLOY = """#!/usr/bin/env bash
for edge in a b; do ip netns add "clab-plan-$edge" && ip -n "clab-plan-$edge" link set lo up || exit 9; done
ip link add eth1 netns clab-plan-a type veth peer name eth1 netns clab-plan-b || exit 9
for edge in a b; do
    space="clab-plan-$edge" folder="$PWD/../run-$edge"
    ip -n "$space" link set eth1 up
    for service in red blue; do ip -n "$space" link add "br_$service" type bridge && ip -n "$space" link set "br_$service" up || exit 9; done
    mkdir -p "$folder" && touch "$folder/"{{zebra,ospfd,ldpd}}.conf && chown -R frr:frr "$folder"
    for name in zebra ospfd ldpd; do
        more=(); [[ $name == ldpd ]] && more=(--ctl_socket "$folder")
        ip netns exec "$space" {daemons}/$name -d -f "$folder/$name.conf" -i "$folder/$name.pid" -z "$folder/zserv.api" \\
            --vty_socket "$folder" -u frr -g frr -P 0 "${{more[@]}}" || exit 9
    done
    vtysh --vty_socket "$folder" -f "$edge.conf"
done >/dev/null 2>&1
for turn in $(seq {turns}); do
    vtysh --vty_socket "$PWD/../run-a" -c 'show mpls ldp neighbor' | grep -q OPERATIONAL && exit 0
    sleep 0.2
done
exit 9
"""
ASK = """#!/usr/bin/env bash
node="$1"
shift 2
exec vtysh --vty_socket "$PWD/../run-${node##*-}" "$@"
"""
# All of it has namespaces of its own, of processes and of mounts too, so that nothing is left.
SCRIPT = """mkdir -p /run/netns && mount -t tmpfs tmpfs /run/netns && cd "$1" || exit 9
export CONTAINERLAB="$PWD/deploy" ASK="$PWD/ask"
judge() {{ "{from_lab}" --audit lab/LAB.toml >"$1.said" 2>"$1.told"; echo $? >"$1.status"; }}
lab/up || exit 9
SECONDS_FOR_LDP=12 lab/run || exit 8
judge right
"{from_lab}" lab/LAB.toml >right.report 2>/dev/null
ip netns exec clab-plan-a bridge link set dev eth3 flood off mcast_flood off bcast_flood off || exit 8
SECONDS_FOR_LDP=0 lab/run || exit 8
judge silent
ip netns exec clab-plan-a bridge link set dev eth3 flood on mcast_flood on bcast_flood on
ip link add loop0 netns clab-plan-a type veth peer name loop1 netns clab-plan-a || exit 8
for end in loop0 loop1; do
    # A slow loop, so that a storm is a small one.
    ip netns exec clab-plan-a tc qdisc add dev $end root tbf rate 20kbit burst 1600 latency 50ms || exit 7
    ip -n clab-plan-a link set $end up master br_red || exit 8
done
SECONDS_FOR_LDP=0 lab/run || exit 8
judge loop
"""
NEEDED = ("vtysh", "tcpdump", "bridge", "tc", "unshare")


def labs_real(folder: pathlib.Path, _gone: set[str]) -> Iterator[Any]:
    """A lab of FRR and a bridge, recorded by tcpdump, and judged: rightly, with a port that is not flooded, and with a loop."""
    lacks = [name for name in NEEDED if shutil.which(name) is None] + [name for name in ("zebra", "ospfd", "ldpd") if not (DAEMONS / name).exists()]
    python = pathlib.Path("/usr/bin/python3")
    if lacks or os.geteuid() != 0 or not python.exists() or run([python, "-c", "import dpkt, scapy"], folder).returncode != 0:
        print(f"no real lab is judged: it needs root, FRR, tcpdump, iproute2, python3-dpkt and python3-scapy{' (here without ' if lacks else ''}{', '.join(lacks)}{')' if lacks else ''}")
        return
    folder.chmod(0o755)
    (folder / "plan.toml").write_text(PLAN, encoding="ascii")
    status, said, _ = tool("lab", "--frames", "6", folder / "plan.toml", folder / "lab")
    yield compare("lab", (status, said.split(" files")[0]), (0, "13"))
    send = folder / "lab" / "send"
    send.write_text(send.read_text(encoding="ascii").replace("/usr/bin/env python3", str(python)), encoding="ascii")
    for name, text in (("deploy", DEPLOY.format(daemons=DAEMONS, turns=PATIENCE * 5)), ("ask", ASK)):
        (folder / name).write_text(text, encoding="ascii")
        (folder / name).chmod(0o755)
    script = SCRIPT.format(from_lab=TOP / "tools" / "from-lab")
    done = run(["unshare", "-n", "-m", "-p", "-f", "--mount-proc", "--kill-child", "bash", "-c", script, "lab", str(folder)], folder, text=True)
    if done.returncode == 9:
        print("FRR does not start in network namespaces here, and no real lab is judged")
        return
    yield compare(f"a real lab: {done.stderr[-600:]}", done.returncode, 0)
    yield from verdicts(folder)


def verdicts(folder: pathlib.Path) -> Iterator[Any]:
    """What was said of the three networks. Of each circuit six frames enter, of which those to all and those to nobody are floods."""
    told = {name: (folder / f"{name}.said").read_text(encoding="utf-8") + (folder / f"{name}.told").read_text(encoding="utf-8") for name in ("right", "silent", "loop")}
    status = {name: int((folder / f"{name}.status").read_text(encoding="ascii")) for name in told}
    yield compare(f"a right bridge: {told['right']}", (status["right"], "floods judged: 18 (18 of red)" in told["right"]), (0, True))
    yield compare(f"a port without floods: {told['silent']}", (status["silent"], "it never left at metz: captures/metz-out.pcap" in told["silent"]), (3, True))
    looped = re.search(r"it left at \w+ (\d+ times|where it entered): captures/\w+-out.pcap, packet", told["loop"])
    yield compare(f"a loop: {told['loop']}", (status["loop"], looped is not None), (3, True))
    report = (folder / "right.report").read_text(encoding="ascii")
    lines = report.splitlines()
    said = sum(line.startswith(("said a b ", "said b a ")) for line in lines)
    yield compare("a real lab, LDP", (lines.count("> connect a b") + lines.count("> connect b a") > 0, said >= 8), (True, True))
    # A kernel without MPLS forwards nothing on a pseudowire, and FRR says so; with it the wire is up.
    states = {line.split(" ")[3] for line in lines if line.startswith("wire ")}
    yield compare("a real lab, pseudowires", bool(states & {"up", "LocalFault", "RemoteFault", "Standby", "NoRemote"}), True)
