"""The checks of what tools make of reports: summaries, ladders and captures, with counts by hand and beside tshark."""

from __future__ import annotations

import json
import pathlib
import shlex

from . import headers, pcapng
from .plan import read_plan
from .report import read_report
from .rows import Part, table
from .settle_bound import Stretches
from .tried_scenarios import HEAD, SECOND, WIRE, whole
from .trying import PROGRAM, TOP, capture_seen, compare, driver, ladder_in, missing, rows_in, run, tool

TYPE_CHECKING = False
if TYPE_CHECKING:
    from collections.abc import Iterator
    from typing import Any

EXAMPLES = TOP / "examples"
# What a wire has for a control channel of each type.
CHANNELS = ["near.vccv = 1\n", "near = { vccv = 2, control_word = false }\n", "near = { vccv = 4, control_word = false }\n"]
# A report of `examples/lab.toml` that tells of frames that never came in, and of packets that were never sent.
SPARSE = """vplsnet 1
> connect a b
left metz 7 0 ffffffffffff02000000000a88b5
sent 1 a b w lyon 9 1 0001f1ff00000000ffffffffffff02000000000a88b5
> arrive 1
dropped b 7 NoRoom
copied 5 4
aged 6
> arrive 8
end events=3 in=0 left=1 sent=1 dropped=1
"""


def summed(name: str) -> Any:
    """The summary of an example."""
    return json.loads(tool("summary", "--json", EXAMPLES / f"{name}.toml", EXAMPLES / f"{name}.txt")[1])


def hierarchy(_folder: pathlib.Path) -> Iterator[bool]:
    """A frame over two spokes and the mesh, and its answer."""
    found = summed("hierarchy")
    first, second = found["frames"]
    yield compare("hierarchy, sessions", [row["states"] for row in found["sessions"]], [["Operational"] * 2] * 8)
    served = dict.fromkeys(["ca", "cb", "cc", "cd", "cy"], 1)
    yield compare("hierarchy, frame 1", (first["served"], first["promised"], first["segments"]), (served, True, 3))
    yield compare("hierarchy, frame 2", (second["served"], second["flooded"]), ({"cx": 1}, False))


def frames_lost(_folder: pathlib.Path) -> Iterator[bool]:
    """Frames that are lost, repeated and late."""
    rows = [(row["missed"], row["twice"], row["promised"], row["lost"], row["repeated"]) for row in summed("frames-lost")["frames"]]
    yield compare("frames-lost", rows, [(["paris"], [], False, [1], []), ([], ["paris"], False, [], [2]), ([], [], True, [], [])])


def session_expires(_folder: pathlib.Path) -> Iterator[bool]:
    """A session that expires, and its wire."""
    found = summed("session-expires")
    expired = {"edges": ["a", "b"], "states": ["Ended:Expired", "Ended:PeerFatal"], "was_up": True}
    yield compare("session-expires", found["sessions"], [expired])
    rows = [(row["states"], row["carries"], row["was_up"]) for row in found["wires"]]
    yield compare("session-expires, wires", rows, [(["NoLocal"] * 2, False, True)])


def mtu_differs(_folder: pathlib.Path) -> Iterator[bool]:
    """A wire that never comes up, and the sites that never have each other."""
    found = summed("mtu-differs")
    rows = [(row["states"], row["mtu"], row["was_up"]) for row in found["wires"]]
    yield compare("mtu-differs", rows, [(["Mtu"] * 2, [1500, 1400], False)])
    yield compare("mtu-differs, who never had whom", found["services"][0]["never"], [{"sites": ["ca"], "lost": ["cb"]}])


def old_way(_folder: pathlib.Path) -> Iterator[bool]:
    """Who lost whom while a spoke edge moves, and the frame that took the old way."""
    found = summed("old-way")
    lost: list[Any] = [{"from": {"event": 36, "words": "priority x xb 5"}, "to": {"event": 41, "words": "deliver x b 65535"}, "deliveries": 2}]
    lost[0]["sites"] = [{"sites": ["cx"], "lost": ["ca", "cc"]}]
    yield compare("old-way, who lost whom", found["services"][0]["lost"], lost)
    yield compare("old-way, nowhere", [row["frame"] for row in found["frames"] if row["nowhere"]], [3])
    yield compare("old-way, drops", found["drops"], [{"cause": "Down", "edge": "x", "count": 1}])


def served_twice(_folder: pathlib.Path) -> Iterator[bool]:
    """A frame that comes twice, why nothing was promised of it, and what is under way; also as text."""
    found = summed("served-twice")
    (frame,) = found["frames"]
    reason = ["event 32 (priority x xb 5) came while copies were under way"]
    yield compare("served-twice", (frame["twice"], frame["calm"], frame["why_not_promised"]), (["cx"], True, reason))
    octets = [(row["from"], row["to"], row["octets"]) for row in found["under_way"]["octets"]]
    yield compare("served-twice, under way", octets, [("b", "a", 38), ("b", "c", 38), ("x", "a", 56)])
    text = tool("summary", EXAMPLES / "served-twice.toml", EXAMPLES / "served-twice.txt")[1]
    yield compare("served-twice as text", ("TWICE cx" in text, "38 octets from b to a" in text), (True, True))


def session_lost(_folder: pathlib.Path) -> Iterator[bool]:
    """Who lost whom by a session, from its failure on, and from an event that is none."""
    found, files = summed("session-lost"), (EXAMPLES / "session-lost.toml", EXAMPLES / "session-lost.txt")
    lost = [(row["from"]["event"], row["to"]["event"], row["deliveries"], row["sites"]) for row in found["services"][0]["lost"]]
    yield compare("session-lost, who lost whom", lost, [(50, 60, 5, [{"sites": ["cb"], "lost": ["cc", "cy"]}])])
    yield compare("session-lost, frame 1", (found["frames"][0]["missed"], found["frames"][0]["calm"]), (["cc", "cy"], False))
    found = json.loads(tool("summary", "--json", "--from", "lose b c", *files)[1])
    yield compare("session-lost, from its failure on", (found["from"], len(found["frames"]), len(found["services"][0]["lost"])), (50, 2, 1))
    found = json.loads(tool("summary", "--json", "--from", "60", *files)[1])
    yield compare("session-lost, from event 60 on", (len(found["frames"]), found["services"][0]["lost"]), (1, []))
    status, said, fault = tool("summary", "--from", "lose c b", *files)
    yield compare("session-lost, from no event", (status, said, "has no event 'lose c b'" in fault, fault.count("\n")), (1, "", True, 1))


def spoke_moves(_folder: pathlib.Path) -> Iterator[bool]:
    """Which spoke carries frames, and which stands by."""
    rows = [(row["wire"], row["carries"], row["stands_by"]) for row in summed("spoke-moves")["wires"] if row["class"] == "spoke"]
    yield compare("spoke-moves, spokes", rows, [("xa", False, True), ("xb", True, False)])


def wire_ping(_folder: pathlib.Path) -> Iterator[bool]:
    """Events that did not apply."""
    idle = [(row["event"], row["words"], row["line"]) for row in summed("wire-ping")["idle"]]
    yield compare("wire-ping, idle events", idle, [(23, "ping west w", 67)])


LAB = EXAMPLES / "lab.toml", EXAMPLES / "lab.report"


def lab(_folder: pathlib.Path) -> Iterator[bool]:
    """A lab's report, in which a frame leaves twice."""
    found = json.loads(tool("summary", "--json", *LAB)[1])
    frame = found["frames"][0]
    yield compare("lab", (frame["served"], frame["twice"], frame["promised"], frame["kept"]), ({"metz": 1, "paris": 2}, ["paris"], True, False))
    told = [row["states"] for row in found["sessions"]], [row["carries"] for row in found["wires"]], found["services"][0]["never"]
    yield compare("lab, sessions by its connections", told, ([["Operational"] * 2], [True], []))


def lab_lost(folder: pathlib.Path) -> Iterator[bool]:
    """A lab's report with a session that is lost."""
    (plan, report), path = LAB, folder / "lost.txt"
    path.write_text(report.read_text(encoding="utf-8").replace("> frame", "> lose b a\n> frame").replace("events=3", "events=4"), encoding="utf-8")
    found = json.loads(tool("summary", "--json", plan, path)[1])
    told = [(row["states"], row["was_up"]) for row in found["sessions"]], [row["carries"] for row in found["wires"]]
    yield compare("lab, a session that is lost", told, ([(["Operational", "Ended:Closed"], True)], [False]))
    lanes = [lane["states"] for lane in ladder_in(tool("ladder", plan, path)[1])["lanes"]]
    yield compare("ladder of a lab, its sessions", lanes[:2], [[[0, "NonExistent"], [1, "Operational"]], [[0, "NonExistent"], [1, "Operational"], [4, "Ended:Closed"]]])


def lab_unconnected(folder: pathlib.Path) -> Iterator[bool]:
    """A lab's report that tells no connections."""
    (plan, report), path = LAB, folder / "lost.txt"
    path.write_text(report.read_text(encoding="utf-8").replace("> connect a b\n", "> tick\n"), encoding="utf-8")
    found = json.loads(tool("summary", "--json", plan, path)[1])
    yield compare("lab without connections", ([row["carries"] for row in found["wires"]], found["services"][0]["calm"]), ([True], True))


def lab_off(folder: pathlib.Path) -> Iterator[bool]:
    """A lab's report in which a frame leaves at a site that is off."""
    (plan, report), path = LAB, folder / "lab.txt"
    left = "left paris 1 1 ffffffffffff02000000000a88b5\n"
    text = report.read_text(encoding="utf-8").replace(left * 2, left).replace("> frame", "> circuit metz off\n> frame")
    path.write_text(text.replace("events=3", "events=4").replace("left=3", "left=2"), encoding="utf-8")
    frame = json.loads(tool("summary", "--json", plan, path)[1])["frames"][0]
    yield compare("lab, metz off", (frame["served"], frame["missed"], frame["twice"], frame["kept"]), ({"metz": 1, "paris": 1}, [], [], False))


def sparse(folder: pathlib.Path) -> Iterator[bool]:
    """A report of which most is left out, which is followed without a word."""
    plan, path = LAB[0], folder / "lab.txt"
    path.write_text(SPARSE, encoding="utf-8")
    status, said, _ = tool("summary", "--json", plan, path)
    found = json.loads(said)
    drops = [{"cause": "NoRoom", "edge": "b", "count": 1}]
    yield compare("a sparse report", (status, found["events"], found["frames"], found["drops"]), (0, 3, [], drops))
    yield compare("ladder of a sparse report", tool("ladder", plan, path)[0], 0)
    yield compare("to-pcap of a sparse report", tool("to-pcap", plan, path, folder / "sparse.pcapng")[0], 0)


def rests(_folder: pathlib.Path) -> Iterator[bool]:
    """By how many deliveries signalling comes to rest at most, by hand: once two neighbours are connected their first Initialization is worth 1,
    and their sessions 6 and 4; each edge may say a mapping to the other one, which is worth 1, since nothing comes of it where a wire ends and
    no edge can choose."""
    for name, found, pairs in (("frames-cross", (2, 5, 4), 1), ("full-mesh", (4, 15, 12), 3)):
        bound = pairs * (1 + 6 + 4 + 2 * 1)
        rest = dict(zip(("from", "to", "deliveries"), found), bound=bound)
        yield compare(f"{name}, rest", summed(name)["rest"], rest)
        said = tool("check-scenario", EXAMPLES / f"{name}.toml")[1].splitlines()[-1]
        yield compare(f"check-scenario {name}, rest", said.partition(": ")[2], f"comes to rest within {bound} deliveries then, by proof")
    over = []
    for path in sorted(EXAMPLES.glob("*.toml")):
        if not any(path.with_suffix(suffix).exists() for suffix in (".switchover", ".report")):
            rest = summed(path.stem)["rest"]
            over += [path.stem] if rest is not None and rest["deliveries"] > rest["bound"] else []
    yield compare("examples that do not keep to the bound", over, [])


def rest_met(folder: pathlib.Path) -> Iterator[bool]:
    """Two edges that say a KeepAlive each need just as many deliveries as the bound has: one each way."""
    path, report = folder / "met.toml", folder / "met.txt"
    head = HEAD.replace('address = "10.0.0.1"', 'address = "10.0.0.1"\nkeepalive = 3')
    path.write_text(whole(head, SECOND, WIRE, events=["connect a b", "settle 100", "tick", "settle 100"]), encoding="utf-8")
    report.write_bytes(run([PROGRAM, "replay", path], folder).stdout)
    plan = read_plan(path)
    stretches, found = Stretches(plan, read_report(report, plan)), list[tuple[int, int]]()
    for number, delivers in stretches.followed():
        found += [(number, stretches.bound.of(stretches.network))] if delivers else []
    yield compare("deliveries, each with the bound before it", found[-2:], [(7, 2), (8, 1)])


summaries = Part(
    "What summaries of examples tell, counted by hand.",
    {
        "hierarchy": hierarchy,
        "frames-lost": frames_lost,
        "session-expires": session_expires,
        "mtu-differs": mtu_differs,
        "old-way": old_way,
        "served-twice": served_twice,
        "session-lost": session_lost,
        "spoke-moves": spoke_moves,
        "wire-ping": wire_ping,
        "lab": lab,
        "lab-lost": lab_lost,
        "lab-unconnected": lab_unconnected,
        "lab-off": lab_off,
        "sparse": sparse,
        "rest": rests,
        "rest-met": rest_met,
    },
)


def ladders(folder: pathlib.Path, _gone: set[str]) -> Iterator[Any]:
    """The rows of a ladder, the names of its messages, and what a browser shows."""
    page = folder / "ladder.html"
    page.write_text(tool("ladder", EXAMPLES / "old-way.toml", EXAMPLES / "old-way.txt")[1], encoding="utf-8")
    rows = rows_in(page.read_text(encoding="utf-8"))
    texts = [row["t"] for row in rows if row["k"] == "said"]
    yield compare("ladder, messages", (len(texts), sum(text.startswith("AddressWithdraw") for text in texts)), (40, 7))
    yield compare("ladder, a drop", [(row["t"], row["f"]) for row in rows if row["k"] == "dropped"], [("dropped: Down, frame 3", 3)])
    python = driver("ladder")
    if python is None:
        return
    seen = python("rengahowi.browser", page).splitlines()
    octets = next(row["o"] for row in rows if row["k"] == "sent")
    yield compare("ladder in a browser, overlaps", [line for line in seen if line.startswith("overlaps")], ["overlaps 0"] * 3)
    yield compare("ladder in a browser, octets", [line for line in seen if line.startswith("octets")], [f"octets {octets}"])
    yield compare("ladder in a browser, frames", [line for line in seen if line.startswith("frames")], ["frames 1"])
    yield compare("ladder in a browser, faults", [line for line in seen if line.startswith("log")], [])


def captures(folder: pathlib.Path, gone: set[str]) -> Iterator[Any]:
    """A capture, and the LDP octets that an edge said, taken out of it again."""
    path, report = folder / "run.pcapng", (EXAMPLES / "old-way.txt").read_text(encoding="utf-8")
    status, printed, fault = tool("to-pcap", EXAMPLES / "old-way.toml", EXAMPLES / "old-way.txt", path)
    yield compare("to-pcap", (status, printed.splitlines()[0], fault), (0, "28 segments of LDP, 20 times a packet of a pseudowire", ""))
    for words, right in (((folder / "none", "10.0.0.1"), "No such file"), ((path, "10.0.0"), "an IPv4 address is needed")):
        status, said, fault = tool("from-pcap", *words)
        yield compare(f"from-pcap {words[1]}", (status, said, right in fault, fault.count("\n")), (1, "", True, 1))
    if "tshark" in gone:
        return
    yield compare("to-pcap, as tshark sees it", capture_seen(printed.splitlines()[-1], folder), (40, 20, 0))
    done = run([TOP / "tools" / "from-pcap", path, "10.0.0.4", "--peer", "10.0.0.1"], folder)
    octets = "".join(line.split()[3] for line in report.splitlines() if line.startswith("said x a "))
    yield compare("from-pcap", (done.returncode, done.stdout.hex(), done.stderr), (0, octets, b""))
    done = run(["bash", "-c", f"{TOP}/tools/from-pcap {path} 10.0.0.4 | {PROGRAM} decode /dev/stdin"], folder, text=True)
    names = [line.split()[1] for line in done.stdout.splitlines()]
    yield compare("from-pcap, decoded", (len(names), names[:3]), (11, ["Initialization", "KeepAlive", "LabelMapping"]))
    status, said, fault = tool("from-pcap", path, "10.0.0.9")
    yield compare("from-pcap of nobody", (status, said, "says nothing" in fault), (1, "", True))
    status, said, fault = tool("from-pcap", EXAMPLES / "old-way.txt", "10.0.0.1")
    yield compare("from-pcap of no capture", (status, said, fault.count("\n")), (1, "", 1))


def discoveries(folder: pathlib.Path, gone: set[str]) -> Iterator[Any]:
    """What a script told of Hellos: counted, drawn, and the octets of each Hello as tshark reads them."""
    plan, text = EXAMPLES / "edge-returns.toml", EXAMPLES / "edge-returns.txt"
    found = summed("edge-returns")["discovery"]
    barred = [(row["edges"], row["event"], row["line"]) for row in found["barred"]]
    yield compare("edge-returns, barred", (found["hellos"], barred), (4, [(["a", "b"], 0, 4), (["b", "a"], 15, 50)]))
    ended = [(row["edge"], row["peer"], row["event"]) for row in found["adjacencies"] if row["state"] == "down"]
    yield compare("edge-returns, adjacencies", (len(found["adjacencies"]), ended), (4, [("a", "b", 13)]))
    rows = rows_in(tool("ladder", plan, text)[1])
    yield compare("ladder of Hellos", [row["k"] for row in rows[:5]], ["hello", "adjacency", "barred", "hello", "adjacency"])
    yield compare("ladder of Hellos, the first", rows[0]["t"], "1: Hello id=1 hold=3/1/1 transport=10.0.0.1")
    path, lines = folder / "hellos.pcapng", text.read_text(encoding="utf-8").splitlines()
    status, printed, fault = tool("to-pcap", plan, text, path)
    yield compare("to-pcap of Hellos", (status, printed.splitlines()[0].split(", ")[-1], fault), (0, "4 Hellos", ""))
    bad = folder / "bad.txt"
    for number, line, right in ((2, "hello 1 a c 00", "no edge 'c'"), (3, "adjacency b a", "3 words"), (4, "barred a", "2 words"), (2, "sent 1", "no entry")):
        bad.write_text("\n".join(line if place == number else old for place, old in enumerate(lines, 1)) + "\n", encoding="utf-8")
        status, said, fault = tool("summary", plan, bad)
        yield compare(f"summary of {line!r}", (status, said, f"line {number}" in fault, right in fault), (1, "", True, True))
    if "tshark" in gone:
        return
    fields = ["ldp.msg.tlv.hello.hold", "ldp.msg.tlv.hello.targeted", "ldp.msg.tlv.hello.requested", "udp.checksum.status", "_ws.malformed", "_ws.expert.message"]
    words = ["tshark", "-o", "udp.check_checksum:TRUE", "-r", path, "-Y", "udp", "-T", "fields", *(word for field in fields for word in ("-e", field))]
    seen = [line.split("\t") for line in run(words, folder, text=True).stdout.splitlines()]
    yield compare("to-pcap, Hellos as tshark sees them", [row[:5] for row in seen], [["3", "1", "1", "1", ""]] * 4)
    # tshark notes the comment of each packet, and that no security by hop counts is offered, which targeted Hellos never do (RFC 6720).
    told = {part for row in seen for part in row[5].split(",") if not part.startswith(("event ", "before the first event"))}
    yield compare("to-pcap, what tshark's expert says of Hellos", {part for part in told if "GTSM" not in part and "discovery" not in part}, set())


def switchovers(folder: pathlib.Path, gone: set[str]) -> Iterator[Any]:
    """A text of `switchover`: drawn, refused where it is not read, and each status that was said as tshark reads it."""
    plan, text = EXAMPLES / "maintenance.toml", EXAMPLES / "maintenance.txt"
    rows = rows_in(tool("ladder", plan, text)[1])
    told = [row["t"] for row in rows if row["k"] == "uses"]
    yield compare("ladder of a switchover", (len(told), told[:3]), (12, ["uses main", "uses main", "uses main no more"]))
    lines = text.read_text(encoding="utf-8").splitlines()
    bad = folder / "bad.txt"
    for number, line, right in ((3, "said a d 00", "no edge 'd'"), (2, "> lose a b", "'lose' is no event"), (4, "left ca 1 1 00", "no entry")):
        bad.write_text("\n".join(line if place == number else old for place, old in enumerate(lines, 1)) + "\n", encoding="utf-8")
        status, said, fault = tool("ladder", plan, bad)
        yield compare(f"ladder of {line!r}", (status, said, f"line {number}" in fault, right in fault), (1, "", True, True))
    for name, words in (("summary", (plan, text)), ("picture", (plan, "--report", text)), ("speak", (plan, text, "a", "b"))):
        status, said, fault = tool(name, *words)
        yield compare(f"{name} of a switchover", (status, said, "`switchover`" in fault, fault.count("\n")), (1, "", True, 1))
    status, printed, fault = tool("to-pcap", plan, text, folder / "run.pcapng")
    yield compare("to-pcap of a switchover", (status, printed.splitlines()[0], fault), (0, "17 segments of LDP, 0 times a packet of a pseudowire", ""))
    if "tshark" in gone:
        return
    # Each status by itself, also one that was said and never delivered whole: in a segment of a connection of its own.
    said = [line.split(" ")[1:] for line in lines if line.startswith("said ")]
    address = {name: row["address"] for name, row in read_plan(plan).edges.items()}
    blocks = [pcapng.section(), pcapng.interface("any")]
    for number, (start, end, octets) in enumerate(said):
        frame = headers.tcp(address[start], address[end], (50000 + number, 646), (1, 1), headers.PSH | headers.ACK, bytes.fromhex(octets))
        blocks.append(pcapng.packet(0, number, frame, pcapng.INBOUND, ""))
    (folder / "said.pcapng").write_bytes(b"".join(blocks))
    fields = ["ldp.msg.type", "ldp.msg.tlv.status.data", "ldp.msg.tlv.pwstatus.code", "_ws.malformed", "_ws.expert.severity"]
    call: list[Any] = ["tshark", "-r", folder / "said.pcapng", "-T", "fields", *(word for field in fields for word in ("-e", field))]
    seen = [line.split("\t") for line in run(call, folder, text=True).stdout.splitlines()]
    # Before the FEC, whose TLV has 16 octets, stands the status; what tshark's expert notes is the packet's empty comment alone.
    status = [f"0x{octets[-40:-32]}" for _, _, octets in said]
    yield compare("statuses that were said, as tshark sees them", [row[:4] for row in seen], [["0x0001", "0x00000028", code, ""] for code in status])
    yield compare("statuses that were said, expert", {part for row in seen for part in row[4].split(",")} <= {"", "1048576"}, True)


def unanswered(_folder: pathlib.Path) -> Iterator[bool]:
    """Pings that were not answered, in a summary."""
    status, text, fault = tool("summary", "--json", EXAMPLES / "wire-ping.toml", EXAMPLES / "wire-ping.txt")
    found = [(row["event"], row["idle"], row["answers"], row["dropped"]) for row in json.loads(text)["pings"]]
    lost = [{"event": 19, "edge": "middle", "cause": "NoLabel"}]
    right = [(12, False, 1, []), (18, False, 0, lost), (23, True, 0, []), (30, False, 1, [])]
    yield compare("summary of pings", (status, fault, found), (0, "", right))


def ping_by(folder: pathlib.Path, keys: str) -> Iterator[bool]:
    """A ping in a type of control channel, as a ladder and as tshark see it."""
    path, report, capture = folder / "ping.toml", folder / "ping.txt", folder / "ping.pcapng"
    path.write_text(whole(HEAD, SECOND, WIRE, keys, events=["connect a b", "settle 50", "ping a w", "flow 9"]), encoding="utf-8")
    report.write_bytes(run([PROGRAM, "replay", path], folder).stdout)
    rows = rows_in(tool("ladder", path, report)[1])
    texts = [f"packet {number} on w, label 16, ping, segment {number}" for number in (1, 2)]
    yield compare(f"ladder of a ping, {keys}", [row["t"] for row in rows if row["k"] in ("sent", "pong")], [*texts, "pong 1 on w"])
    call = tool("to-pcap", path, report, capture)[1].splitlines()[-1]
    if "tshark" not in missing():
        yield compare(f"capture of a ping, {keys}", echoes_seen(call, folder), ["8", "8", "0", "0"])


pings = Part(
    "Pings that were not answered; and one in each type of control channel, as a ladder and as tshark see it.",
    {"unanswered": unanswered, **table(CHANNELS, str, ping_by)},
)


def aged(folder: pathlib.Path, _gone: set[str]) -> Iterator[Any]:
    """A packet that was under way for 64 ticks: in a summary, a ladder and a capture."""
    files = EXAMPLES / "label-comes-back.toml", EXAMPLES / "label-comes-back.txt"
    status, text, fault = tool("summary", "--json", *files)
    found = [(row["frame"], row["served"], row["aged"], row["under_way"], row["promised"]) for row in json.loads(text)["frames"]]
    yield compare("summary of a packet that aged", (status, fault, found), (0, "", [(1, {}, [1], [], False), (2, {"metz": 1}, [], [], True)]))
    lines = [line for line in tool("summary", *files)[1].splitlines() if line.endswith("packet 1 aged")]
    yield compare("summary, where it ended", lines, ["  frame 1 (event 6, at paris, to ffffffffffff): packet 1 aged"])
    rows = [(row["t"], row["f"]) for row in rows_in(tool("ladder", *files)[1]) if row["k"] == "aged"]
    yield compare("ladder of a packet that aged", rows, [("packet 1 aged, frame 1", 1)])
    status, printed, fault = tool("to-pcap", *files, folder / "aged.pcapng")
    yield compare("to-pcap of a packet that aged", (status, printed.splitlines()[0].split(", ")[1], fault), (0, "3 times a packet of a pseudowire", ""))


def echoes_seen(call: Any, folder: pathlib.Path) -> list[Any]:
    """The types of the ICMP messages that tshark sees in a capture, by the call that `to-pcap` printed."""
    words = ["tshark", *shlex.split(call)[1:], "-Y", "mpls", "-T", "fields", "-e", "icmp.type"]
    return list(run(words, folder, text=True).stdout.splitlines())
