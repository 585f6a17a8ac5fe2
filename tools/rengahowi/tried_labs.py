"""The checks of `tools/from-lab`: captures of random runs and of a small lab, with faults and without, and the lab of the tour."""

from __future__ import annotations

import json
import pathlib
import struct
import xml.etree.ElementTree
import zlib

from . import pcapng
from .rows import Part
from .trying import TOP, compare, run, tool

TYPE_CHECKING = False
if TYPE_CHECKING:
    from collections.abc import Callable, Iterator
    from typing import Any

ROUND = TOP / "tools" / "rengahowi" / "tried_lab_round.py"
# So many runs from this seed on, of each kind one. The same was tried once for 200.
SEED, COUNT = 1000, 8
DEBIAN = "/usr/bin/python3"
# Two edges, and the services of two customers.
CUSTOMERS = """version = 2
events = []
[[edge]]
name = "a"
address = "10.0.0.1"
[[edge]]
name = "b"
address = "10.0.0.2"
[[service]]
name = "red"
[[service]]
name = "blue"
"""
PLAN = CUSTOMERS + """[[service]]
name = "far"
[[wire]]
name = "w"
service = "far"
class = "mesh"
path = ["a", "b"]
pw_id = 100
"""
SITES = {"lyon": ("a", "red", None), "metz": ("a", "red", None), "paris": ("a", "red", 7), "nice": ("b", "blue", None), "rome": ("a", "far", None)}
START = 1_700_000_000_000_000


def has_dpkt() -> bool:
    """Whether captures can be read here; else it is said."""
    if pathlib.Path(DEBIAN).exists() and run([DEBIAN, "-c", "import dpkt"], TOP).returncode == 0:
        return True
    print("dpkt is missing (Debian: python3-dpkt), and no lab is judged")
    return False


def round_trip(folder: pathlib.Path) -> Iterator[Any]:
    """Captures of random runs, as they are and with changes."""
    if not has_dpkt():
        return
    done = run([DEBIAN, ROUND, str(SEED), str(COUNT)], folder, text=True)
    counts = json.loads(done.stdout.splitlines()[-1]) if done.stdout else {}
    yield compare(f"round trip of captures: {done.stdout}", (done.returncode, counts.get("runs")), (0, COUNT))
    yield compare("round trip of captures, changes", all(counts.get(key) for key in ("taken out: Once", "doubled: Once", "moved: Isolated", "sent on: Split")), True)


def of_the_tour(_folder: pathlib.Path) -> Iterator[Any]:
    """The lab of the tour, whose verdict stands there."""
    if has_dpkt():
        status, said, _ = tool("from-lab", "--audit", TOP / "examples" / "silent-port" / "LAB.toml")
        yield compare(f"the lab of the tour: {said}", (status, said in (TOP / "docs" / "TOUR.md").read_text(encoding="utf-8")), (3, True))


class SmallLab:
    """A bridge with three ports of one customer, and others elsewhere: what enters and leaves is written as captures."""

    def __init__(self, folder: pathlib.Path) -> None:
        self.folder = folder
        folder.mkdir()
        text = PLAN
        for site, (edge, service, tag) in SITES.items():
            text += f'[[circuit]]\nname = "{site}"\nedge = "{edge}"\nservice = "{service}"\n' + (f"tag = {tag}\n" if tag else "")
        (folder / "plan.toml").write_text(text, encoding="ascii")

    def frame(self, number: int, tag: int | None, target: str = "ffffffffffff", size: int = 60) -> bytes:
        """A numbered frame, filled up to so many octets."""
        tagged = b"" if tag is None else struct.pack(">HH", 0x8100, tag)
        front = bytes.fromhex(target) + bytes.fromhex("02000000000a") + tagged + b"\x88\xb5" + b"lyon %06d" % number
        return front + bytes(max(0, size - len(front)))

    def usual(self) -> dict[tuple[str, str], list[tuple[int, bytes]]]:
        """Three broadcasts that enter at lyon and leave at metz and paris; a port that nobody uses is there too."""
        found: dict[tuple[str, str], list[tuple[int, bytes]]] = {(site, way): [] for site in SITES for way in ("in", "out")}
        for number in range(1, 4):
            time = START + number * 1_000_000
            found["lyon", "in"].append((time, self.frame(number, None)))
            found["metz", "out"].append((time + 100, self.frame(number, None)))
            found["paris", "out"].append((time + 200, self.frame(number, 7)))
        return found

    def write(self, found: dict[tuple[str, str], list[tuple[int, bytes]]], more: str = "", rows: str = "") -> None:
        """The captures and their LAB.toml."""
        text = f'plan = "plan.toml"\n{more}'
        for (site, way), packets in found.items():
            (self.folder / f"{site}-{way}.pcap").write_bytes(classic(packets))
            text += f'[[capture]]\nfile = "{site}-{way}.pcap"\ncircuit = "{site}"\ndirection = "{way}"\n'
        (self.folder / "LAB.toml").write_text(text + rows, encoding="ascii")

    def judge(self, *words: str) -> tuple[int, str, str]:
        """What from-lab says."""
        status, said, fault = tool("from-lab", "--audit", self.folder / "LAB.toml", *words)
        return status, said, "".join(line for line in fault.splitlines(keepends=True) if "has no packet" not in line and "not proved" not in line)

    def verdict(self, name: str, status: int, *words: str, more: tuple[str, ...] = ()) -> bool:
        """Whether it ends with a status, and says these words on either stream."""
        got, said, fault = self.judge(*more)
        return compare(f"from-lab, {name}: {said}{fault}", (got, [word for word in words if word not in said + fault], "Traceback" in fault), (status, [], False))

    def good(self) -> Iterator[Any]:
        """A lab that does right; one of which nothing is judged; and what enters twice, late or by another clock."""
        self.write(self.usual())
        yield self.verdict("good", 0, "audit yes", "floods judged: 3 (3 of red)", "not judged: 0")
        status, said, _ = tool("from-lab", self.folder / "LAB.toml")
        yield compare("from-lab, the report", (status, said.count("> frame lyon"), said.splitlines()[-1]), (0, 3, "end events=3 in=3 left=6 sent=0 dropped=0"))
        status, said, fault = tool("from-lab", self.folder / "LAB.toml", "--junit", "x.xml")
        yield compare("from-lab --junit without --audit", (status, said, "goes with --audit" in fault, fault.count("\n")), (1, "", True, 1))
        found = self.usual()
        found["rome", "in"] = [(START + 9_000_000, self.frame(9, None))]
        found["lyon", "in"], found["metz", "out"], found["paris", "out"] = [], [], []
        self.write(found)
        yield self.verdict("nothing judged", 5, "audit yes", "floods judged: 0", "neither LDP nor a table tells", "no flood was judged")
        found = self.usual()
        found["metz", "out"] = [(time - 500_000, octets) for time, octets in found["metz", "out"]]
        self.write(found)
        yield self.verdict("clocks that differ", 0, "metz-out.pcap, packet 1: it is 0.499900 s before what it comes of (lyon-in.pcap, packet 1)", "--skew metz-out.pcap")
        yield compare("from-lab, --skew", "before what" in "".join(self.judge("--skew", "metz-out.pcap=0.5")[1:]), False)
        found = self.usual()
        found["lyon", "in"][1:1] = [(START + 1_300_000, found["lyon", "in"][0][1])]
        for site in ("metz", "paris"):
            found[site, "out"].insert(1, (START + 1_300_100, found[site, "out"][0][1]))
        self.write(found)
        yield self.verdict("frames that are not distinct", 0, "floods judged: 4", "lyon-in.pcap, packet 2: 1 frames have the octets", "a number within")
        found = self.usual()
        found["metz", "out"] += [(START + 8_000_000, bytes.fromhex("0180c200000e02000000eeee88cc") + bytes(46))]
        found["lyon", "in"] += [(START + 8_500_000, bytes.fromhex("0180c200000002000000000a0026424203") + bytes(43))]
        self.write(found)
        yield self.verdict("LLDP and BPDUs", 0, "1 frames that an edge made itself", "1: they go to a group that a bridge may keep")

    def broken(self) -> Iterator[Any]:
        """Each rule broken, with the words that tell where."""
        found = self.usual()
        del found["metz", "out"][1]
        self.write(found)
        never = ("Once: a frame that entered at lyon", "lyon-in.pcap, packet 2, 2023-11-14 22:13:22.000000 UTC", "never left at metz: metz-out.pcap", '"lyon 000002"')
        yield self.verdict("a frame that never left", 3, "audit no", *never, more=("--junit", str(self.folder / "junit.xml")))
        suite = xml.etree.ElementTree.parse(self.folder / "junit.xml").getroot()
        told = [(case.get("name"), [child.tag for child in case]) for case in suite]
        yield compare("from-lab --junit", told[:4], [("Isolated", []), ("Split", []), ("Once", ["failure"]), ("red", [])])
        found = self.usual()
        found["paris", "out"].append((START + 3_400_000, found["paris", "out"][2][1]))
        self.write(found)
        yield self.verdict("a frame that left twice", 3, "it left at paris 2 times: paris-out.pcap, packet 3,", "paris-out.pcap, packet 4,")
        found = self.usual()
        found["nice", "out"] = [(START + 3_000_300, found["metz", "out"][2][1])]
        self.write(found)
        leaked = ("Isolated: at nice a frame left that did not enter in its service: nice-out.pcap, packet 1,", "it entered at lyon, of service red: lyon-in.pcap, packet 3,")
        yield self.verdict("a frame at another customer", 3, *leaked)
        found = self.usual()
        found["metz", "out"].append((START + 5_000_000, self.frame(77, None)))
        self.write(found)
        yield self.verdict("a frame from nowhere", 3, "Isolated: at metz", "no frame that entered has its octets")
        self.write(found, 'own = ["02:00:00:00:00:0a"]\n')
        yield self.verdict("a frame of the edge itself", 0, "1 frames that an edge made itself")

    def faults(self) -> Iterator[Any]:
        """Captures and LAB.toml with faults: each is told by file, packet and cure."""
        path = self.folder / "lyon-in.pcap"
        self.write(self.usual())
        octets = path.read_bytes()
        for name, changed, words in (
            ("another link type", octets[:20] + struct.pack("<I", 101) + octets[24:], ("lyon-in.pcap: link type 101", "capture at an Ethernet")),
            ("no capture", b"PK\x03\x04 and so on, which is no capture", ("lyon-in.pcap: this is no capture",)),
            ("nonsense within", octets[:24] + b"\xff" * 40, ("lyon-in.pcap: a record of 4294967295 octets",)),
        ):
            path.write_bytes(changed)
            yield self.verdict(name, 1, *words)
        path.write_bytes(octets[:-5])
        yield self.verdict("a file that is cut", 0, "lyon-in.pcap, packet 3: the file ends within it", "2 times frames left whose entry is not captured", "judged: 2")
        cut = classic([(time, octets[:40]) for time, octets in self.usual()["metz", "out"]], whole=60)
        self.write(self.usual())
        (self.folder / "metz-out.pcap").write_bytes(cut)
        cuts = "metz-out.pcap, packet 1 (and 2 more): 20 octets of the packet are not there", "-s 262144", "3: the capture of a port is not whole"
        yield self.verdict("cut packets", 5, *cuts)
        found = self.usual()
        found["metz", "out"].pop()
        self.write(found)
        (self.folder / "metz-out.pcap.log").write_text("2 packets captured\n1 packet dropped by kernel\n", encoding="ascii")
        yield self.verdict("packets dropped by the kernel", 0, "metz-out.pcap: 1 packets were dropped by the kernel", "1: the capture of a port is not whole", "floods judged: 2")
        (self.folder / "metz-out.pcap.log").unlink()
        found = self.usual()
        found["lyon", "in"].append((START, self.frame(4, None, size=3000)))
        self.write(found)
        yield self.verdict("a long frame with a time that falls", 0, "packet 4: 3000 octets are more than the service takes (1518)", "gso off", "packet 4: its time is 3.000000 s before")
        found = self.usual()
        del found["metz", "out"], found["rome", "in"]
        self.write(found)
        yield self.verdict("ports that are not captured", 0, "what leaves there at circuit metz is in no capture", "floods judged: 3")
        for more, rows, told in (
            ("", '[[capture]]\nfile = "x.pcap"\ncircuit = "oslo"\n', "x.pcap: the plan has no circuit 'oslo'; there are: lyon"),
            ("", '[[capture]]\nfile = "x.pcap"\nlink = ["a", "c"]\n', "x.pcap: the plan has no edge 'c'"),
            ("", '[[capture]]\nfile = "x.pcap"\n', "it needs file, and one of circuit, circuits, link and edge"),
            ("", '[[capture]]\nfile = "none.pcap"\nedge = "a"\n', "none.pcap: No such file"),
            ("", '[[table]]\nfile = "told.log"\n', "told.log, line 1: '1 a x up' is neither"),
            ("floods = 3\n", "", "'floods' is no key; there are plan, flood"),
            ("plan = 3\n", "", "is no TOML"),
            ('own = ["02:0"]\n', "", "'02:0' is no address of a station"),
        ):
            self.write(self.usual(), more, rows)
            (self.folder / "told.log").write_text("1 a x up\n", encoding="ascii")
            yield self.verdict(told, 1, told)

    def formats(self) -> Iterator[Any]:
        """The same lab in other formats: pcapng with directions, cooked by both versions, stations behind a port, a frame check sequence,
        a port behind its tag, and frames that are filled up."""
        found = self.usual()
        both = {site: sorted([(*one, 1) for one in found[site, "in"]] + [(*one, 2) for one in found[site, "out"]]) for site in SITES}
        for name, write in (("pcapng", flagged), ("cooked", cooked), ("cooked 2", cooked_2)):
            self.write({})
            rows = "".join(f'[[capture]]\nfile = "{site}"\ncircuit = "{site}"\n' for site in SITES)
            (self.folder / "LAB.toml").write_text(f'plan = "plan.toml"\n{rows}', encoding="ascii")
            for site, packets in both.items():
                (self.folder / site).write_bytes(write(packets))
            yield self.verdict(name, 0, "floods judged: 3 (3 of red)")
        for site, packets in both.items():
            (self.folder / site).write_bytes(classic([(time, octets) for time, octets, _ in packets]))
        yield self.verdict("no directions", 5, "nothing tells whether the frame enters or leaves", "stations = [..]")
        stations = '[[capture]]\nfile = "lyon"\ncircuit = "lyon"\nstations = ["02-00-00-00-00-0A"]\n'
        rows = "".join(f'[[capture]]\nfile = "{site}"\ncircuit = "{site}"\nstations = []\ndirection = "out"\n' for site in SITES if site != "lyon")
        (self.folder / "LAB.toml").write_text(f'plan = "plan.toml"\n{stations}{rows}', encoding="ascii")
        yield self.verdict("stations behind a port", 0, "floods judged: 3")
        checked = {key: [(time, octets + zlib.crc32(octets).to_bytes(4, "little")) for time, octets in packets] for key, packets in found.items()}
        self.write(checked)
        yield self.verdict("frame check sequences", 0, "floods judged: 3", "lyon-in.pcap: frames end in their frame check sequence")
        short = {key: [(time, filled(octets)) for time, octets in packets] for key, packets in found.items()}
        self.write(short)
        yield self.verdict("frames that are filled up", 0, "floods judged: 3")
        found["paris", "out"] = [(time, octets[:12] + octets[16:]) for time, octets in found["paris", "out"]]
        self.write(found)
        yield self.verdict("a port without its tag", 3, "Isolated: at paris", "no frame of paris-out.pcap has the tag 7", "untagged = true")
        path = self.folder / "LAB.toml"
        path.write_text(path.read_text(encoding="ascii").replace('circuit = "paris"\n', 'circuit = "paris"\nuntagged = true\n'), encoding="ascii")
        yield self.verdict("a port behind its tag", 0, "floods judged: 3")


def filled(octets: bytes) -> bytes:
    """A frame without its filling, or a tagged one with four octets more than before, as a bridge may send it."""
    return octets + bytes(4) if octets[12:14] == b"\x81\0" else octets[:14] + octets[14:].rstrip(b"\0")


def classic(packets: list[tuple[int, bytes]], whole: int = 0, link: int = 1) -> bytes:
    """A capture in the classic format; of packets that had so many octets, where that is said."""
    head = struct.pack("<IHHiIII", 0xA1B2C3D4, 2, 4, 0, 0, 262144, link)
    rows = [struct.pack("<IIII", time // 1_000_000, time % 1_000_000, len(octets), whole or len(octets)) + octets for time, octets in packets]
    return head + b"".join(rows)


def flagged(packets: list[tuple[int, bytes, int]]) -> bytes:
    """A capture in pcapng, with the direction of each packet."""
    return b"".join([pcapng.section(), pcapng.interface("eth1"), *(pcapng.packet(0, time, octets, way, "") for time, octets, way in packets)])


def cooked(packets: list[tuple[int, bytes, int]]) -> bytes:
    """A capture with cooked headers of Linux (LINKTYPE_LINUX_SLL): to all, or outgoing."""
    rows = [(time, struct.pack(">HHH8s2s", {1: 1, 2: 4}[way], 1, 6, octets[6:12], octets[12:14]) + octets[14:]) for time, octets, way in packets]
    return classic(rows, link=113)


def cooked_2(packets: list[tuple[int, bytes, int]]) -> bytes:
    """The same in their second version (LINKTYPE_LINUX_SLL2)."""
    rows = [
        (time, struct.pack(">2sHIHBB8s", octets[12:14], 0, 3, 1, {1: 1, 2: 4}[way], 6, octets[6:12]) + octets[14:]) for time, octets, way in packets
    ]
    return classic(rows, link=276)


def of_small_lab(rows: Callable[[SmallLab], Iterator[Any]]) -> Callable[[pathlib.Path], Iterator[Any]]:
    """A row over a small lab of its own, where captures can be read here."""
    return lambda folder: rows(SmallLab(folder / "small")) if has_dpkt() else iter(())


labs_judged = Part(
    "Captures of random runs and of a small lab, with faults and without: the verdict of each, and what is found.",
    {
        "round-trip": round_trip,
        "tour": of_the_tour,
        "good": of_small_lab(SmallLab.good),
        "broken": of_small_lab(SmallLab.broken),
        "faults": of_small_lab(SmallLab.faults),
        "formats": of_small_lab(SmallLab.formats),
    },
)
