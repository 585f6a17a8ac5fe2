"""The checks of what tools say of quiet services: whom a frame reaches, which wires and services are sound, and why not."""

from __future__ import annotations

import json
import pathlib

from .frames import follow
from .plan import read_plan
from .reached import reach_of
from .report import read_report
from .rows import Part
from .trying import PROGRAM, TOP, compare, run, tool

TYPE_CHECKING = False
if TYPE_CHECKING:
    from collections.abc import Iterable, Iterator
    from typing import Any

EXAMPLES = TOP / "examples"
BROADCAST = "ffffffffffff02000000000{}88b5"
# Core edges a, b and c, of which c lies between the others on the way of wire ab; and a spoke edge x with two spokes of one priority.
EDGES = "".join(f'[[edge]]\nname = "{name}"\naddress = "10.0.0.{number}"\n' for number, name in enumerate("abcx", 1))
SITES = "".join(f'[[circuit]]\nname = "c{name}"\nedge = "{name}"\nservice = "s"\n' for name in "abcx")
WIRES = {"ab": ("mesh", "acb"), "ac": ("mesh", "ac"), "bc": ("mesh", "bc"), "xa": ("spoke", "xa"), "xb": ("spoke", "xb")}
UP = ["connect a c", "connect b c", "connect x a", "connect x b", "settle 1000"]
# Events behind those that bring all up, keys of wire ab; and why the service is not sound then: the pair of core edges or the spoke edge,
# and why each of its wires is not.
UNSOUND: list[tuple[list[str], str, Any]] = [
    ([], "", None),
    (["wire a ab off"], "", (["a", "b"], {"ab": ["it is off at a"]})),
    (["wire c ab off"], "", (["a", "b"], {"ab": ["it is off at c"]})),
    (["wire b ab off", "wire b ab on"], "", None),
    (["status b ab 4", "wire b ab off"], "", (["a", "b"], {"ab": ["it is off at b", "it has failure bits 4 at b"]})),
    (["status b ab 4", "status b ab 0"], "", None),
    (["status c ab 4", "priority b xb 3", "wire x ac off", "wire a ac on"], "", None),
    ([], "far = { mtu = 1400 }\n", (["a", "b"], {"ab": ["its MTU is 1500 at a and 1400 at b"]})),
    ([], "far = { mtu = 0 }\n", None),
    ([], "far = { control_word = false }\n", (["a", "b"], {"ab": ["its control word is true at a and false at b"]})),
    ([], 'near = { mode = "tagged" }\nfar = {}\n', (["a", "b"], {"ab": ["its mode is tagged at a and raw at b"]})),
    ([], "near = { vlan = 7, group = \"g\" }\nfar = { status = false }\n", None),
    (["wire x xa off"], "", None),
    (["wire x xa off", "status x xb 1"], "", (["x"], {"xa": ["it is off at x"], "xb": ["it has failure bits 1 at x"]})),
    (["lose a c", "settle 1000", "connect c a"], "", None),
    (["circuit ca off", "circuit cb off"], "", None),
]
# Events behind those that bring all up, and the spoke of x that is to carry frames once all is delivered.
USED: list[tuple[list[str], str]] = [
    ([], "xa"),
    (["priority x xb 99"], "xb"),
    (["priority x xa 101"], "xb"),
    (["priority x xa 101", "priority x xb 101"], "xa"),
    (["priority x xb 99", "status b xb 2"], "xa"),
    (["priority x xb 99", "lose x b"], "xa"),
]

# Events behind a broadcast from cx's station, which every edge has heard then, in a service whose bridges forget after five ticks; and
# whether a frame that enters for it at cc is flooded. A withdrawal with an empty list goes over xb to b, and on to a and c.
KNOWN: list[tuple[list[str], bool]] = [
    ([], False),
    (["tick 4"], False),
    (["tick 5"], True),
    (["tick 3", "frame cx 02ee0000000102000000000d88b5", "tick 3"], False),
    (["restart x", "restart b", "restart c"], False),
    (["restart x", "restart b", "restart c", "circuit ca off", "wire a ac off", "wire a xa off"], True),
    (["circuit cx off", "circuit cx on"], False),
    (["circuit cx off", "circuit cx on", "priority x xb 99", "settle 1000"], True),
    (["circuit cx off", "circuit cx on", "priority x xb 99", "deliver x b 65535"], False),
    (["circuit cx off", "circuit cx on", "again 1", "drop 1"], False),
]


def scenario(events: Iterable[str], keys: str = "", left_out: str = "") -> str:
    """The text of the plan above with these events and these keys of wire ab, without one of its wires."""
    rows = []
    for number, (name, (kind, path)) in enumerate(WIRES.items(), 1):
        row = f'[[wire]]\nname = "{name}"\nservice = "s"\nclass = "{kind}"\npath = {json.dumps(list(path))}\npw_id = {number}\n'
        rows.append("" if name == left_out else row + (keys if name == "ab" else ""))
    group = '[[group]]\nname = "g"\nnumber = 7\n'
    return f'version = 2\nevents = {json.dumps([*UP, *events])}\n{EDGES}[[service]]\nname = "s"\n{group}{SITES}{"".join(rows)}'


def flood(circuit: str) -> list[str]:
    """A broadcast enters at a circuit, and all its copies arrive."""
    return [f"frame {circuit} {BROADCAST.format(circuit[-1].replace('x', 'd'))}", "flow 100"]


def summed(folder: pathlib.Path, text: str) -> Any:
    """What a summary of a scenario's run tells."""
    path, report = folder / "f.toml", folder / "f.txt"
    path.write_text(text, encoding="utf-8")
    report.write_bytes(run([PROGRAM, "replay", path], folder).stdout)
    return json.loads(tool("summary", "--json", path, report)[1])


def by_hand() -> Iterator[Any]:
    """The example whose floods BEHAVIOUR foretells."""
    files = EXAMPLES / "mesh-wire-down.toml", EXAMPLES / "mesh-wire-down.txt"
    found = json.loads(tool("summary", "--json", *files)[1])
    seen = [(row["circuit"], row["reached"], sorted(row["served"]), row["calm"], row["kept"]) for row in found["frames"]]
    right = [("ca", ["cc", "cx"]), ("cb", ["cc"]), ("cc", ["ca", "cb", "cx"]), ("cx", ["ca", "cc"]), ("ca", ["cc"]), ("cx", ["cb", "cc"])]
    yield compare("mesh-wire-down, reached", seen, [(circuit, sites, sites, False, True) for circuit, sites in right])
    wires = {row["wire"]: (row["sound"], row["used"], row["carries"]) for row in found["wires"]}
    good, spare = (True, True, True), (True, False, False)
    yield compare("mesh-wire-down, wires", wires, {"ab": (False, False, False), "ac": good, "bc": good, "xa": spare, "xb": good})
    text = tool("summary", *files)[1]
    yield compare("mesh-wire-down, its service", "4 sites, not calm, not sound, nothing on its way at the end" in text, True)


def unsound(folder: pathlib.Path) -> Iterator[Any]:
    """Each reason for which a wire is not sound, at either end and in the middle of its path, and what is no reason."""
    for events, keys, why in UNSOUND:
        row = summed(folder, scenario([*events, "settle 1000"], keys))["services"][0]
        found = [(one.get("core_edges", [one.get("spoke_edge")]), {wire["wire"]: wire["why"] for wire in one["wires"]}) for one in row["why_not_sound"]]
        seen = (found, row["sound"], row["calm"], row["unsettled"], row["no_label"])
        yield compare(f"sound, {events} {keys!r}", seen, ([] if why is None else [why], why is None, why is None, [], []))
    row = summed(folder, scenario([], left_out="ac"))["services"][0]
    yield compare("sound, no wire", row["why_not_sound"], [{"core_edges": ["a", "c"], "wires": []}])
    rows = summed(folder, scenario(["lose a c"]))["services"][0]
    whys = [(one["core_edges"], one["wires"][0]["why"]) for one in rows["why_not_sound"]]
    right = [(["a", "b"], ["a and c are not connected"]), (["a", "c"], ["a and c are not connected"])]
    yield compare("sound, a connection", (whys, rows["unsettled"]), (right, [["a", "c"]]))
    text = scenario(["wire a ab off", "settle 1000", "wire a ab on", "settle 1000"] * 2).replace('"10.0.0.1"\n', '"10.0.0.1"\nfirst_label = 1048572\n')
    row = summed(folder, text)["services"][0]
    yield compare("sound, without a label", (row["sound"], row["calm"], row["no_label"]), (True, False, ["ab"]))


def used(folder: pathlib.Path) -> Iterator[Any]:
    """The spoke that a spoke edge is to use, and the one that carries frames once all is delivered."""
    for events, wire in USED:
        before, after = summed(folder, scenario(events))["wires"], summed(folder, scenario([*events, "settle 1000"]))["wires"]
        names = [[row["wire"] for row in rows if row["class"] == "spoke" and row["used"]] for rows in (before, after)]
        carrying = [row["wire"] for row in after if row["class"] == "spoke" and row["carries"]]
        yield compare(f"used, {events}", (names, carrying), ([[wire], [wire]], [wire]))


def told_otherwise(folder: pathlib.Path) -> Iterator[Any]:
    """A report in which a frame of a quiet service leaves where it does not reach, or not where it does."""
    plan, path = EXAMPLES / "mesh-wire-down.toml", folder / "changed.txt"
    text = (EXAMPLES / "mesh-wire-down.txt").read_text(encoding="utf-8")
    line = f"left cc 2 1 {BROADCAST.format('b')}\n"
    for name, lines, count, where in (("elsewhere", line + line.replace("cc", "ca"), 12, "cc"), ("not there", "", 10, "cc")):
        path.write_text(text.replace(line, lines).replace("left=11", f"left={count}"), encoding="utf-8")
        said = [one for one in tool("summary", plan, path)[1].splitlines() if "frame 2 " in one and "served" in one]
        yield compare(f"a flood, {name}", [one.rpartition("; ")[2] for one in said], [f"PROMISED: at {where}, and not so"])


def known(folder: pathlib.Path) -> Iterator[Any]:
    """Frames for a station that was heard: known still, or forgotten by age, by restarts, by what goes off and by a withdrawal."""
    frame = "frame cc 02000000000d02000000000c88b5"
    for events, is_flooded in KNOWN:
        text = scenario([*flood("cx"), *events, frame, "flow 100"]).replace('name = "s"\n', 'name = "s"\nage = 5\n', 1)
        row = summed(folder, text)["frames"][-1]
        yield compare(f"known, {events}", (row["flooded"], row["circuit"]), (is_flooded, "cc"))
    meanwhile = "frame cx 02ee0000000102000000000d88b5"
    for events, is_flooded in (([frame], True), ([frame, meanwhile], False), ([frame, "flow 100", meanwhile], True)):
        row = summed(folder, scenario(events))["frames"][0]
        yield compare(f"known, by {events}", row["flooded"], is_flooded)


def scripted(folder: pathlib.Path) -> Iterator[Any]:
    """Lines of a script that are idle by themselves, behind events that apply and tell nothing; and an event that is idle."""
    plan, script, report = folder / "f.toml", folder / "f.script", folder / "f.txt"
    plan.write_text(scenario([]), encoding="utf-8")
    lines = []
    for number, (a, b) in enumerate((("a", "c"), ("b", "c"), ("x", "a"), ("x", "b"))):
        lines += [f"hello {a} {b} 65535", f"hello {b} {a} 65535", f"bring {2 * number + 1}", f"bring {2 * number + 2}", f"open {a} {b}"]
    flooded = [f"do {event}" for event in flood("ca")]
    lines += ["do settle 1000", "do circuit cb off", "bring 99", "do priority x xb 200", "bring 99", *flooded]
    # Packet 6 is the second broadcast on the wire ac: the first one was sent as packets 1 to 3, and 4 behind c.
    lines += [flooded[0], "do drop 6", "bring 99", flooded[1], "do circuit cb off", "bring 99"]
    lines += ["do wire a ab off", "do deliver a c 1", "bring 99", "do settle 1000", *flooded]
    script.write_text("".join(f"{line}\n" for line in lines), encoding="utf-8")
    done = run([PROGRAM, "discover", plan, script], folder)
    report.write_bytes(done.stdout)
    found = json.loads(tool("summary", "--json", plan, report)[1])
    seen = [(row["reached"], row["kept"], row["lost"], row["under_way"]) for row in found["frames"]]
    right: list[Any] = [(["cc", "cx"], True, [], []), (None, None, [6], []), (["cc", "cx"], True, [], [])]
    yield compare("lines of a script that are idle", (done.returncode, seen), (0, right))
    row = found["services"][0]
    yield compare("lines of a script that are idle, behind them", (row["sites"], row["unsettled"], row["sound"]), (["ca", "cc", "cx"], [], False))
    yield compare("an event of a script that is idle", [one["words"] for one in found["idle"]], ["circuit cb off"])


def in_a_lab(folder: pathlib.Path) -> Iterator[Any]:
    """Reports of other makes, of services that are not calm: nothing is promised where they leave LDP or packets out."""
    plan, path = EXAMPLES / "lab.toml", folder / "lab.txt"
    lines = (EXAMPLES / "lab.report").read_text(encoding="utf-8").splitlines()
    why = ["the service was not calm, and the report does not tell all of LDP and of packets"]
    for left_out, events in ((("wire b ",), 3), (("wire ", "> connect "), 2)):
        kept = [line for line in lines if not line.startswith(left_out)]
        path.write_text("\n".join(kept).replace("events=3", f"events={events}") + "\n", encoding="utf-8")
        frame = json.loads(tool("summary", "--json", plan, path)[1])["frames"][0]
        yield compare(f"a lab without {left_out}", (frame["promised"], frame["why_not_promised"]), (False, why))


def off(folder: pathlib.Path) -> Iterator[Any]:
    """A site that is off has lost nobody, in a summary and in a case of what-if."""
    events = ["circuit ca off", "wire b ab off", "settle 1000", "circuit ca on", "circuit cb off", "wire a ac off", "settle 1000"]
    row = summed(folder, scenario(events))["services"][0]
    lost = [(one["from"]["words"], one["sites"]) for one in row["lost"]]
    right = [("wire b ab off", [{"sites": ["cb"], "lost": ["cx"]}]), ("wire a ac off", [{"sites": ["cc"], "lost": ["ca", "cx"]}])]
    yield compare("off, in a summary", (lost, row["never"]), (right, []))
    path = folder / "f.toml"
    path.write_text(scenario(["circuit ca off"]), encoding="utf-8")
    found = json.loads(tool("what-if", path, "--case", "lose a c", "--json", "--jobs", "1")[1])["cases"][0]
    apart = [{"sites": ["cb"], "reached": ["cc"]}, {"sites": ["cc"], "reached": ["cb"]}, {"sites": ["cx"], "reached": []}]
    seen = ([one["sites"] for one in found["lost"]], [one["apart"] for one in found["settled"]], found["as_settled"])
    yield compare("off, in a case", seen, ([[{"sites": ["cx"], "lost": ["cb", "cc"]}]], [apart], True))


def planned(folder: pathlib.Path) -> Iterator[Any]:
    """What check-scenario says of services by the plan alone."""
    path = folder / "f.toml"
    for keys, left_out, words in [
        ("", "", "connected: s"),
        ("far = { mtu = 1400 }\n", "", "never sound: a and b have no sound mesh wire (ab: its MTU is 1500 at a and 1400 at b)"),
        ("", "ac", "never sound: a and c have no mesh wire"),
        ("", "ac", "connected: no service"),
    ]:
        path.write_text(scenario(["wire a ab off"], keys, left_out), encoding="utf-8")
        status, said, fault = tool("check-scenario", path)
        yield compare(f"check-scenario, {words}", (status, words in said, fault), (0, True, ""))


def walked() -> Iterator[Any]:
    """In each quiet service at the end of an example the edges that reach each other are those between which a frame finds its way."""
    wrong = []
    for path in sorted(EXAMPLES.glob("*.toml")):
        plan, report = read_plan(path), path.with_suffix(".txt")
        if not report.exists() or not report.read_text(encoding="utf-8").startswith("vplsnet 1"):
            continue
        network = follow(plan, read_report(report, plan)).network
        for service in plan.services:
            reach, joined = reach_of(network, service), network.joined(service)
            pairs = {frozenset((a, b)) for a in plan.edges for b in plan.edges if a != b and reach.reaches(a, b)}
            if not network.unsettled(service) and pairs != joined:
                wrong.append((path.name, service))
    yield compare("reached, beside the way of a frame", wrong, [])


reaches = Part(
    "Whom frames reach in quiet services, and which services are sound: by hand, in reports of runs, of `discover` and of a lab.",
    {
        "by-hand": lambda _folder: by_hand(),
        "unsound": unsound,
        "used": used,
        "told-otherwise": told_otherwise,
        "known": known,
        "scripted": scripted,
        "in-a-lab": in_a_lab,
        "off": off,
        "planned": planned,
        "walked": lambda _folder: walked(),
    },
)
