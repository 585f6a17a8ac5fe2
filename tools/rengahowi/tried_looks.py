"""The checks of the tools that look into a run or a capture: `tables-at`, `where`, `ldp`, `from-pcap` and `summary --audit`."""

from __future__ import annotations

import json

from .ldp_sessions import Side
from .plan import read_plan
from .rows import Part
from .trying import PROGRAM, TOP, compare, missing, run, tool
from .tshark import Segment

TYPE_CHECKING = False
if TYPE_CHECKING:
    import pathlib
    from collections.abc import Iterator
    from typing import Any

    from .plan import Plan

EXAMPLES = TOP / "examples"
MOVES, CUSTOMERS = EXAMPLES / "spoke-moves.toml", EXAMPLES / "two-customers.toml"
STATION = "020000000001"
# Ways counted by hand in the plan that moves: an event, where a frame enters and to whom, what each edge does with it, and whom it
# misses. Behind the move, with nothing delivered yet, c sends to a, and a to x, which takes nothing by that spoke any more.
WAYS: list[tuple[str, str, str, list[Any], list[str]]] = [
    ("35", "cc", STATION, [("c", ["a on ac"], []), ("a", ["x on xa"], []), ("x", [], ["cx"])], ["ca"]),
    ("priority x xb 5", "cc", STATION, [("c", ["a on ac"], []), ("a", ["x on xa"], []), ("x", [], [])], ["ca", "cx"]),
    ("end", "cc", "ff:ff:ff:ff:ff:ff", [("c", ["a on ac", "b on bc"], []), ("a", [], ["ca"]), ("b", ["x on xb"], []), ("x", [], ["cx"])], []),
]
# Why the edges of the second and the third way do so: the last edge's reason, and the wires that a floods nothing by.
DROPPED = "it is dropped: Down"
NOT_BY_A = [{"wire": "ab", "why": "it came by a mesh wire"}, {"wire": "ac", "why": "it came by it"}, {"wire": "xa", "why": "Standby"}]
# The session of x and b in that run: it comes up by six messages, the spoke stands by, and once x has moved it is up.
SESSION = [
    ("x", "Initialization, to 10.0.0.2, KeepAlive Time 180, Max PDU Length 4096", None),
    ("b", "Initialization, to 10.0.0.4, KeepAlive Time 180, Max PDU Length 4096", None),
    ("b", "KeepAlive", None),
    ("x", "KeepAlive", None),
    ("x", "Label Mapping, PW 202 (xb) raw, control word, MTU 1500, label 17, status standby", "b told no label"),
    ("b", "Label Mapping, PW 202 (xb) raw, control word, MTU 1500, label 18, status no failure", "standby: x says standby"),
    ("x", "Notification, advisory: PW status, PW 202 (xb), status no failure", "up"),
    ("x", "Address Withdraw, PW 202 (xb), all addresses that were not learned by it", None),
]
# What a report of two customers is changed to, the line of the rule that it breaks then, and why.
AUDITED = [
    ("", "", 0, ["audit yes: the report keeps the rules Isolated, Split and Once"]),
    ("left red_paris 1 0", "left blue_paris 1 0", 3, [
        "Refused: line 4, Isolated: left blue_paris 1 0 ffffffffffff02000000000188b5",
        "  frame 1 entered at red_lyon of service red (line 3), and leaves at blue_paris of service blue",
    ]),
    ("left red_paris 1 0 ffffffffffff02", "left red_paris 1 0 ffffffffffff06", 3, [
        "Refused: line 4, Isolated: left red_paris 1 0 ffffffffffff06000000000188b5",
        "  frame 1 entered at red_lyon of service red (line 3), and leaves at red_paris of service red",
        "  without tags of circuits they differ at octet 6:",
        "    entered ffffffffffff02000000000188b5",
        "    leaves  ffffffffffff06000000000188b5",
    ]),
    ("left blue_paris 2 0", "left blue_metz 2 0", 3, [
        "Refused: line 6, Once: in blue_lyon 2 ffffffffffff02000000000288b5", "  not served: blue_paris", "  twice, or where it entered: blue_metz",
    ]),
    ("left blue_paris 2 0", "lift blue_paris 2 0", 3, [
        "Refused: line 7, Form: lift blue_paris 2 0 ffffffffffff02000000000288b5", "  'lift' is no entry that may stand here",
    ]),
]  # fmt: skip


def tables() -> Iterator[Any]:
    """The tables at the end are those of the program; within a `settle` they are those of that event, by edge and by service."""
    text = run([PROGRAM, "tables", MOVES], TOP, text=True).stdout
    rows = {kind: sum(line.startswith(kind) for line in text.splitlines()) for kind in ("edge", "session", "end", "mac")}
    found = json.loads(tool("tables-at", MOVES, "end", "--json")[1])
    seen = {kind: sum(len(edge[kind]) for edge in found["edges"]) for kind in ("session", "end", "mac")}
    yield compare("tables-at, the end", ({"edge": len(found["edges"]), **seen}, found["tick"]), (rows, 0))
    status, said, fault = tool("tables-at", MOVES, "8", "--edge", "b")
    right = "Behind event 8 (deliver b a 65535), tick 0\n\nedge b (10.0.0.2), next label 17\n  sessions\n    peer  state\n    a     Operational\n"
    yield compare("tables-at, within a settle", (status, said[: len(right)], fault), (0, right, ""))
    yield compare("tables-at, an end", "ab    0        a     16     -       NoRemote" in said, True)
    text = tool("tables-at", CUSTOMERS, "end", "--service", "blue")[1].partition("\n")[2]
    yield compare("tables-at --service", ("blue" in text, "red" in text), (True, False))


def ways() -> Iterator[Any]:
    """Ways counted by hand."""
    for event, circuit, to, steps, missed in WAYS:
        found = json.loads(tool("where", MOVES, event, circuit, to, "--json")[1])
        seen = [(step["edge"], [f"{one['to']} on {one['wire']}" for one in step["sent"]], step["left"]) for step in found["steps"]]
        yield compare(f"where {event}", (seen, found["missed"]), (steps, missed))
        if event == "end":
            yield compare("where, not on", found["steps"][1]["not"], NOT_BY_A)
        if event.startswith("priority"):
            yield compare("where, dropped", found["steps"][-1]["why"], DROPPED)
    text = tool("where", MOVES, "end", "cc", "ff:ff:ff:ff:ff:ff")[1]
    yield compare("where, as text", (text.splitlines()[-1], "  not on xa: Standby\n" in text), ("Not served: nobody", True))
    text = tool("where", EXAMPLES / "mesh-over-chain.toml", "end", "site_a", "ffffffffffff")[1]
    yield compare("where, a switching point", "b: from a on ca; a switching point of ca passes it on: sent to c on ca\n" in text, True)


def sessions(folder: pathlib.Path) -> Iterator[Any]:
    """Both sides of a session, and who speaks in a capture."""
    path = folder / "run.pcapng"
    tool("to-pcap", MOVES, EXAMPLES / "spoke-moves.txt", path)
    found = json.loads(tool("ldp", path, "--plan", MOVES, "--json")[1])
    (session,) = [row for row in found if set(row["ends"]) == {"x", "b"}]
    seen = [(row["from"], row["message"], row["pseudowire"] and row["pseudowire"]["state"]) for row in session["messages"]]
    yield compare("ldp, a session", (len(found), seen, session["left"]), (5, SESSION, {}))
    text = tool("ldp", path)[1]
    yield compare("ldp, without a plan", "10.0.0.4 to 10.0.0.2: Label Mapping, PW 202 raw, control word, MTU 1500, label 17" in text, True)
    status, said, fault = tool("from-pcap", path, "10.0.0.9")
    right = "10.0.0.9 says nothing by TCP with port 646 in"
    yield compare("from-pcap, a wrong address", (status, said, right in fault, "10.0.0.2, 10.0.0.1, 10.0.0.3, 10.0.0.4 do\n" in fault), (1, "", True, True))
    path.write_text("no capture", encoding="utf-8")
    status, said, fault = tool("ldp", path)
    yield compare("ldp of no capture", (status, said, fault.count("\n")), (1, "", 1))


def pieces() -> Iterator[Any]:
    """The PDUs of an end whose segments come twice, late, and in parts."""
    first, second = bytes.fromhex("0001000e0a00000100000201000400000001"), bytes.fromhex("0001000e0a00000100000201000400000002")
    both, side = first + second, Side()
    cuts = [(1, both[:5]), (11, both[10:20]), (1, both[:5]), (6, both[5:10]), (21, both[20:]), (11, both[10:20])]
    found = [side.take(Segment(0, number, 0.0, "a", "b", place, octets)) for number, (place, octets) in enumerate(cuts)]
    yield compare("ldp, segments", found, [[], [], [], [first], [second], []])


def audits(folder: pathlib.Path) -> Iterator[Any]:
    """Why reports are refused."""
    text, path = (EXAMPLES / "two-customers.txt").read_text(encoding="utf-8"), folder / "report.txt"
    for old, new, right, lines in AUDITED:
        path.write_text(text.replace(old, new, 1) if old else text, encoding="utf-8")
        status, said, fault = tool("summary", "--audit", CUSTOMERS, path)
        yield compare(f"summary --audit, {new!r}", (status, said.splitlines()[: len(lines)], fault), (right, lines, ""))
    text, scenario = (EXAMPLES / "hierarchy.txt").read_text(encoding="utf-8"), EXAMPLES / "hierarchy.toml"
    path.write_text(with_split(text, read_plan(scenario)), encoding="utf-8")
    status, said, fault = tool("summary", "--audit", scenario, path)
    yield compare("summary --audit, Split", (status, "on the mesh wire" in said and "and it came by the mesh wire" in said, fault), (3, True, ""))


def with_split(text: str, plan: Plan) -> str:
    """A report in which the first packet that arrives by a mesh wire is sent on by another one, with the counts of the end."""
    lines = text.splitlines()
    packets = {line.split(" ")[1]: line.split(" ") for line in lines if line.startswith("sent ")}
    place = next(at for at, line in enumerate(lines) if line.startswith("> arrive ") and plan.wires[packets[line.split(" ")[2]][4]].kind == "mesh")
    _, _, edge, peer, wire, _, origin, _, octets = packets[lines[place].split(" ")[2]]
    other = next(it for it in plan.wires.values() if it.kind == "mesh" and peer in it.ends() and edge not in it.ends())
    far = next(end for end in other.ends() if end != peer)
    lines.insert(place + 1, f"sent {max(map(int, packets)) + 1} {peer} {far} {other.name} {wire} {origin} 2 {octets}")
    *front, last = lines
    words = last.split(" ")
    words[4] = f"sent={len(packets) + 1}"
    return "\n".join([*front, " ".join(words)]) + "\n"


def refused(folder: pathlib.Path) -> Iterator[Any]:
    """Words and files that are none."""
    none = folder / "none.toml"
    none.write_text("version = 1\nevents = 3\n", encoding="utf-8")
    for name, words, right in [
        ("tables-at", (MOVES, "99"), "has no event '99'"),
        ("tables-at", (MOVES, "lose a b"), "has no event 'lose a b'"),
        ("tables-at", (MOVES, "end", "--edge", "z"), "has no edge 'z'"),
        ("tables-at", (MOVES, "end", "--service", "z"), "has no service 'z'"),
        ("tables-at", (none, "1"), "no scenario"),
        ("tables-at", (folder / "absent", "1"), "No such file"),
        ("where", (MOVES, "end", "z", "ffffffffffff"), "has no circuit 'z'"),
        ("where", (MOVES, "end", "cc", "fff"), "is no frame"),
        ("where", (none, "end", "cc", "ffffffffffff"), "no scenario"),
        ("ldp", (folder / "absent",), "No such file"),
        ("summary", ("--audit", none, none), "no scenario"),
        ("summary", ("--audit", MOVES, folder / "absent"), "read fault"),
    ]:
        status, said, fault = tool(name, *words)
        yield compare(f"{name} {words}", (status, said, right in fault, fault.count("\n")), (1, "", True, 1))


looks = Part(
    "Tables and ways at events, sessions of a capture, who speaks there, and why a report is refused; and words that are none.",
    {
        "tables": lambda _folder: tables(),
        "ways": lambda _folder: ways(),
        "sessions": lambda folder: () if "tshark" in missing() else sessions(folder),
        "pieces": lambda _folder: pieces(),
        "audits": audits,
        "refused": refused,
    },
)
