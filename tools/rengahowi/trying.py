"""How the checks of examples and tools compare: a call and what it has to say, and what is seen in what a tool made."""

from __future__ import annotations

import base64
import functools
import gzip
import json
import pathlib
import shlex
import shutil
import subprocess
import sys
import time
import xml.etree.ElementTree

TYPE_CHECKING = False
if TYPE_CHECKING:
    from collections.abc import Callable
    from typing import Any

TOP = pathlib.Path(__file__).resolve().parent.parent.parent
PROGRAM = str(TOP / "bin" / "vplsnet")
# External programs that some checks need, and the Debian package of each.
PACKAGES = {"tshark": "tshark", "capinfos": "wireshark-common"}
# The severity of an error of Wireshark's expert.
ERROR = 0x00800000
HTML = "{http://www.w3.org/1999/xhtml}"
SVG = "{http://www.w3.org/2000/svg}"
# Seconds after which nothing is waited for any longer: so many that a machine under load has time for all that is waited for.
PATIENCE = 600


def run(words: Any, folder: str | pathlib.Path, **more: Any) -> Any:
    """Runs a command in a folder, and answers how it ended."""
    return subprocess.run(words, cwd=folder, stdin=subprocess.DEVNULL, capture_output=True, check=False, **more)


def tool(name: str, *words: Any, folder: str | pathlib.Path = TOP) -> tuple[Any, ...]:
    """Runs a tool, and answers its status, its output and its standard error, both as texts."""
    done = run([TOP / "tools" / name, *map(str, words)], folder, text=True)
    return done.returncode, done.stdout, done.stderr


def compare(name: str, got: Any, want: Any) -> bool:
    """Whether two values agree; says where they do not."""
    if got == want:
        return True
    print(f"{name}: got {got!r}, and not {want!r}")
    return False


def comes(is_so: Callable[[], bool]) -> bool:
    """Waits until something is so, and answers whether it came to be so."""
    until = time.monotonic() + PATIENCE
    while not is_so():
        if time.monotonic() > until:
            return False
        time.sleep(0.05)
    return True


@functools.cache
def missing() -> set[str]:
    """The external programs that are missing, each of which is named."""
    gone = {program for program in PACKAGES if shutil.which(program) is None}
    for program in sorted(gone):
        print(f"{program} is missing (Debian: {PACKAGES[program]}), and what needs it is not tried")
    return gone


def driver(what: str) -> Callable[..., str] | None:
    """Runs a module that drives a browser, with its words, and answers what it printed. None where no browser can be driven, which is said."""
    pythons = (sys.executable, "/usr/bin/python3")
    python = next((path for path in pythons if run([path, "-c", "import selenium"], TOP).returncode == 0), None)
    if python is None or not pathlib.Path("/usr/bin/chromedriver").exists():
        print(f"python3-selenium or chromium-driver is missing, and no {what} is opened in a browser")
        return None
    return lambda module, *words: str(run([python, "-m", module, *map(str, words)], TOP / "tools", text=True).stdout)


def boxes_in(picture: Any) -> tuple[Any, ...]:
    """How many nodes and lines a picture has; it has to be XML."""
    groups = xml.etree.ElementTree.fromstring(picture).iter(f"{SVG}g")
    kinds = [group.get("class") for group in groups]
    return kinds.count("node"), kinds.count("edge")


def rows_in(page: Any) -> Any:
    """The rows of a ladder."""
    return ladder_in(page)["rows"]


def ladder_in(page: Any) -> Any:
    """What a ladder has in it; the page has to be XML."""
    scripts = xml.etree.ElementTree.fromstring(page).iter(f"{HTML}script")
    return unpacked(next(script.text or "" for script in scripts if script.get("id") == "data"))


def unpacked(text: str) -> Any:
    """What a page has packed."""
    return json.loads(gzip.decompress(base64.b64decode(text)))


def capture_seen(call: Any, folder: str | pathlib.Path) -> tuple[Any, ...]:
    """What tshark sees in a capture, by the call of Wireshark that `to-pcap` printed: LDP messages, MPLS packets, and packets that
    are malformed or in which its expert finds an error."""
    fields = ["ldp.msg.type", "mpls.label", "_ws.malformed", "_ws.expert.severity"]
    words = ["tshark", *shlex.split(call)[1:], "-T", "fields", *(word for field in fields for word in ("-e", field))]
    messages = packets = faults = 0
    for line in run(words, folder, text=True).stdout.splitlines():
        ldp, label, malformed, severity = line.split("\t")
        messages += len(ldp.split(",")) if ldp else 0
        packets += bool(label)
        faults += bool(malformed) or any(int(one, 0) >= ERROR for one in severity.split(",") if one)
    return messages, packets, faults


def frames_seen(path: str | pathlib.Path, folder: str | pathlib.Path) -> tuple[Any, ...]:
    """How tshark and capinfos end on a capture of frames, and how many frames each of them counts there."""
    seen = run(["tshark", "-r", path], folder, text=True)
    told = run(["capinfos", "-T", "-r", "-c", path], folder, text=True)
    return (seen.returncode, len(seen.stdout.splitlines())), (told.returncode, int(told.stdout.split()[-1]))
