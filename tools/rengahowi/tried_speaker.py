"""The checks of `tools/speak`: it plays an edge to FRR's ldpd, where that is installed, in a network namespace of its own."""

from __future__ import annotations

import os
import pathlib
import re
import shutil

from .trying import PATIENCE, TOP, compare, run, tool

TYPE_CHECKING = False
if TYPE_CHECKING:
    from collections.abc import Iterator
    from typing import Any

EXAMPLES = TOP / "examples"
DAEMONS = pathlib.Path("/usr/lib/frr")
CONFIGURATION = """hostname b
mpls ldp
 router-id 10.0.0.2
 address-family ipv4
  discovery transport-address 10.0.0.2
  discovery targeted-hello accept
 exit-address-family
exit
l2vpn s type vpls
 bridge br0
 member pseudowire mpw0
  neighbor lsr-id 10.0.0.1
  pw-id 100
 exit
exit
"""
# The addresses of both ends are those of the namespace's loopback. The session is kept until vtysh has told what FRR makes of it.
# Nothing is waited for by a time: each step begins once the one before shows, or once the speaker has ended.
SCRIPT = """set -m  # so that an interrupt reaches the speaker
ip link set lo up && ip address add 10.0.0.1/32 dev lo && ip address add 10.0.0.2/32 dev lo || exit 9
start() {{ "{daemons}/$1" -d -f "$1.conf" -i "$PWD/$1.pid" -z "$PWD/zserv.api" --vty_socket "$PWD" -u frr -g frr -P 0 "${{@:2}}" >/dev/null 2>&1; }}
comes() {{
    for turn in $(seq {turns}); do "$@" && return; [[ -n "$speaker" ]] && ! kill -0 "$speaker" && return 1; sleep 0.1; done 2>/dev/null
    return 1
}}
told() {{ vtysh --vty_socket "$PWD" -c 'show l2vpn atom binding'; }}
is_bound() {{ told | grep -q 'Remote Label: *16'; }}
touch zebra.conf said
start zebra && comes test -S zserv.api && start ldpd --ctl_socket "$PWD" || exit 9
"{speak}" "{scenario}" "{report}" a b --seconds {patience} --stay {patience} >said 2>fault &
speaker=$!
comes grep -q 'a b: LabelMapping' said && comes is_bound
told
kill -INT "$speaker"
wait "$speaker"
status=$?
kill "$(cat zebra.pid)" "$(cat ldpd.pid)"
exit $status
"""


def speakers(folder: pathlib.Path, _gone: set[str]) -> Iterator[Any]:
    """Words of `speak` that are none; and an exchange with FRR."""
    files = EXAMPLES / "pseudowire-comes-up.toml", EXAMPLES / "pseudowire-comes-up.txt"
    for words, right in (((*files, "a", "c"), "no edge 'c'"), ((*files, "a", "a"), "say nothing"), ((files[1], files[0], "a", "b"), "no scenario")):
        status, said, fault = tool("speak", *words)
        yield compare(f"speak {words[2:]}", (status, said, right in fault, fault.count("\n")), (1, "", True, 1))
    needed = all((DAEMONS / name).exists() for name in ("zebra", "ldpd")) and shutil.which("vtysh") and os.geteuid() == 0
    if not needed or run(["unshare", "-n", "true"], folder).returncode != 0:
        print("ldpd is missing (Debian: frr), or this is not root, and speak does not speak to it")
        return
    yield from spoken(folder / "frr", files)


def spoken(folder: pathlib.Path, files: Any) -> Iterator[Any]:
    """The exchange by which a pseudowire comes up: what FRR says, and what it holds then. It binds both labels; a kernel
    without MPLS forwards no frames of a pseudowire, which is the one thing that it then lacks."""
    folder.mkdir()
    shutil.chown(folder, "frr", "frr")
    folder.parent.chmod(0o755)
    (folder / "ldpd.conf").write_text(CONFIGURATION, encoding="ascii")
    more = {"scenario": files[0], "report": files[1], "patience": PATIENCE, "turns": PATIENCE * 10}
    script = SCRIPT.format(daemons=DAEMONS, speak=TOP / "tools" / "speak", **more)
    done = run(["unshare", "-n", "bash", "-c", script], folder, text=True)
    if done.returncode == 9:
        print("FRR does not start in a network namespace here, and speak does not speak to it")
        return
    said = (folder / "said").read_text(encoding="utf-8").splitlines()
    names = [" ".join(line.split()[:3]) for line in said if re.match(r"[ab] [ab]: ", line)]
    right = ["b a: Initialization", "a b: Initialization", "a b: KeepAlive", "b a: KeepAlive", "b a: LabelMapping", "a b: LabelMapping"]
    yield compare("speak", (done.returncode, names, (folder / "fault").read_text(encoding="utf-8")), (0, right, ""))
    yield compare("speak, the first difference", said[-1].startswith("first difference: Initialization came with session="), True)
    told = re.findall(r"(Local Label|Remote Label|Last failure|MTU): *(.*)", done.stdout)
    wanted = [("Local Label", "16"), ("MTU", "1500"), ("Last failure", "local not forwarding"), ("Remote Label", "16"), ("MTU", "1500")]
    yield compare("speak, as FRR tells it", told, wanted)
