"""The checks of scenarios: faults and warnings of `tools/check-scenario`, `tools/to-version-2`, and the schema for editors."""

from __future__ import annotations

import json
import pathlib
import tomllib

from . import writing
from .event_kinds import SHAPES
from .keys import ENDS, NEWEST, OFFER, TABLES
from .newer import Newer
from .rows import Part, table
from .schema import faults
from .trying import PROGRAM, TOP, compare, run, tool

TYPE_CHECKING = False
if TYPE_CHECKING:
    from collections.abc import Iterable, Iterator
    from typing import Any

    from .keys import Key

EXAMPLES = TOP / "examples"
HEAD = 'version = 2\nevents = []\n\n[[edge]]\nname = "a"\naddress = "10.0.0.1"\n\n[[service]]\nname = "s"\n'
SECOND = '\n[[edge]]\nname = "b"\naddress = "10.0.0.2"\n'
CIRCUIT = '\n[[circuit]]\nname = "c"\nedge = "a"\nservice = "s"\n'
GROUP = '\n[[group]]\nname = "g"\nnumber = 7\n'
WIRE = '\n[[wire]]\nname = "w"\nservice = "s"\nclass = "mesh"\npath = ["a", "b"]\npw_id = 1\n'


def whole(*parts: Any, events: Iterable[str] = ()) -> str:
    """A document of the usual parts, with these events."""
    return "".join(parts).replace("events = []", "events = [" + ", ".join(f'"{event}"' for event in events) + "]")


def as_version_1(text: str) -> str:
    """A document of version 2 that has no ends and no groups, as version 1."""
    return text.replace("version = 2", "version = 1")


# A document, and the place and some words of its first fault, which has to be the program's. First those of both versions.
SHARED = [
    ("version = 2\nedge = 3\n", "2:8", "[[edge]]"),
    ("version = 2\nedges = 3\n", "2:1", "there are version, events, edge"),
    ("version = 2\n[edge]\nname = 3\n", "2:1", "two brackets"),
    ("version = 2\n[[edge]]\nname = \"a\"\n", "2:1", "no address"),
    ("version = 2\n[[edge]]\nname = \"A\"\n", "3:8", "a to z"),
    (HEAD + "mtu = 9199\n", "10:7", "64 to 9198"),
    (HEAD + "mtu = 1500\nevents = []\n", "11:1", "move it above the first table"),
    (HEAD + "mtus = 1500\n", "10:1", "name, mtu, age"),
    (HEAD + CIRCUIT.replace('"a"', '"b"'), "13:8", "there are: a"),
    (HEAD + CIRCUIT.replace('"c"', '"a"'), "12:8", "edge 1 already"),
    (HEAD + SECOND.replace(".2", ".1") + CIRCUIT, "13:11", "'a' already"),
    (HEAD + SECOND + WIRE.replace('"a", "b"', '"a"'), "19:8", "2 to 5 edges"),
    (HEAD + SECOND + WIRE.replace('"a", "b"', '"a", "b", "a"'), "19:8", "once"),
    (HEAD + SECOND + WIRE + WIRE.replace('"w"', '"v"'), "27:9", "take another one"),
    (HEAD + SECOND + WIRE + WIRE.replace('"w"', '"v"').replace("= 1", "= 2"), "26:8", "already"),
    (HEAD + SECOND + WIRE + WIRE.replace('"w"', '"v"').replace("mesh", "spoke").replace("= 1", "= 2"), "26:8", "begins at its spoke edge"),
    (HEAD + SECOND + WIRE + "priority = 256\n", "21:12", "0 to 255"),
    (whole(HEAD, CIRCUIT, events=["frame c 0g"]), "2:20", "hexadecimal"),
    (whole(HEAD, CIRCUIT, events=["tick", "frame d 00"]), "2:26", "there are: c"),
    (whole(HEAD, CIRCUIT, events=["jump c"]), "2:12", "begins with one of connect"),
    (whole(HEAD, CIRCUIT, events=["tick 0"]), "2:17", "1 to 10000"),
    (whole(HEAD, CIRCUIT, events=["circuit c on on"]), "2:25", "no more"),
    (whole(HEAD, CIRCUIT, events=["circuit c"]), "2:21", "on or off"),
]
PAIR = HEAD + SECOND + WIRE
REFUSED = [
    ("", "1:1", "version = 2"),
    ("version = 3\n", "1:11", "version is 2, or 1"),
    ('version = "1"\n', "1:11", "the number 2, or 1"),
    ("version = 99999999999999999999\n", "1:11", "64 bits"),
    *SHARED,
    *((as_version_1(text), place, words) for text, place, words in SHARED),
    (as_version_1(PAIR + 'far_mode = "rwa"\n'), "21:12", '"raw" or "tagged"'),
    (as_version_1(PAIR + "group = 4294967296\n"), "21:9", "0 to 4294967295"),
    (as_version_1(PAIR + 'far_group = "g"\nmodes = 3\n'), "21:13", "0 to 4294967295"),
    (as_version_1(PAIR + "near = { mtu = 1400 }\n"), "21:1", "near is a table of version 2"),
    (as_version_1(HEAD + GROUP), "11:1", "group is a table of version 2"),
    ("version = 2\ngroup = [3]\ncircuit = 4\n", "2:9", "[[group]]"),
    ("version = 2\n" + "[[group]]\n" * 2049, "2:1", "at most 2048 rows"),
    (HEAD + GROUP.replace("7", "0"), "13:10", "1 to 4294967295"),
    (HEAD + GROUP.replace("number = 7\n", ""), "11:1", "no number"),
    (HEAD + GROUP + "numbers = 8\n", "14:1", "name, number"),
    (HEAD + CIRCUIT.replace('"c"', '"C"') + GROUP.replace('"g"', '"G"'), "17:8", "a to z"),
    (HEAD + GROUP * 2, "16:8", "group 1 already"),
    (HEAD + CIRCUIT * 2 + GROUP * 2, "26:8", "among the groups"),
    (HEAD + CIRCUIT.replace('"a"', '"b"') + GROUP * 2, "13:8", "there are: a"),
    (PAIR + "near = 3\n", "21:8", "a table of what that end offers"),
    (PAIR + "nears = 3\nfar = 4\n", "22:7", "a table of what that end offers"),
    (PAIR + "nears = 3\nnear.mtu = true\n", "21:1", "priority, near, far"),
    (PAIR + "far_mtu = 1400\n", "21:1", "far = { mtu = .. }"),
    (PAIR + "group = 7\n", "21:1", "near = { group = .. }"),
    (PAIR + "near = { vlan = true, mode = 3 }\n", "21:30", '"raw" or "tagged"'),
    (PAIR + 'near = { control_word = "yes" }\n', "21:25", "true or false"),
    (PAIR + "near = { mtu = 65536 }\nfar = { mtu = true }\n", "21:16", "0 to 65535"),
    (PAIR + "far = { vlan = 4096 }\n", "21:16", "0 to 4095"),
    (PAIR + "near.vccv = 8\n", "21:13", "0 to 7"),
    (PAIR + "[wire.near]\nstatus = 1\n", "22:10", "true or false"),
    (PAIR + f'far.description = "{"é" * 41}"\n', "21:19", "80 octets"),
    (PAIR + "near = { mtus = 1500, group = 7 }\n", "21:31", "a to z"),
    (PAIR + "near = { mtus = 1500 }\nfar = { mtu = true }\n", "21:10", "control_word, mtu, vlan"),
    (PAIR + "[wire.far]\nversion = 2\n", "22:1", "no key of far"),
    (PAIR + WIRE.replace('"w"', '"W"') + "[wire.far]\nversion = 2\n", "23:8", "a to z"),
    (PAIR + 'far = { group = "g" }\n' + GROUP.replace('"g"', '"h"') * 2, "21:17", "no group 'g'; there are: h"),
    (PAIR + 'near = { group = "g" }\nfar = { group = "h" }\n' + GROUP.replace('"g"', '"h"'), "21:18", "no group 'g'; there are: h"),
    (PAIR.replace('"s"\nclass', '"t"\nclass') + 'near = { group = "g" }\n', "17:11", "no service 't'"),
]
THIRD = '\n[[edge]]\nname = "d"\naddress = "10.0.0.4"\n'
SPOKES = "".join(
    WIRE.replace('"w"', f'"w{edge}"').replace("mesh", "spoke").replace('"a", "b"', f'"a", "{edge}"').replace("= 1", f"= {number}")
    for number, edge in enumerate("bd", 1)
)
DEEP = "version = 1\nx = " + "[" * 5000 + "]" * 5000 + "\n"
# A document that the program accepts, and what a warning says.
WARNED = [
    (whole(HEAD, SECOND, WIRE, "far = { mtu = 1400 }\n"), "(Mtu): its mtu is 1500 at 'a' and 1400 at 'b'"),
    (whole(HEAD, SECOND, WIRE, "far = { control_word = false }\n"), "(CBit)"),
    (whole(HEAD, SECOND, WIRE, 'far = { mode = "tagged" }\n'), "(Kind)"),
    (whole(HEAD, SECOND, WIRE, "near = { vccv = 2 }\nfar = { vccv = 4 }\n"), "no control channel"),
    (whole(HEAD, SECOND, WIRE, "near = { vccv = 1, control_word = false }\n"), "1 wants a control word"),
    (whole(HEAD, SECOND, WIRE, "near = { vlan = 7 }\n"), "in mode 'tagged' alone"),
    (whole(HEAD, SECOND, THIRD, SPOKES), "have one priority, 100"),
    (whole(HEAD, SECOND, WIRE, events=["priority a w 5"]), "no spoke that starts at 'a'"),
    (whole(HEAD, SECOND, WIRE, events=["connect a a"]), "next to each other"),
    (whole(HEAD, SECOND, THIRD, WIRE, events=["ping d w"]), "no terminal edge"),
    (whole(HEAD, SECOND, THIRD, WIRE, events=["wire d w off"]), "does not pass 'd'"),
    (whole(HEAD, CIRCUIT, events=["arrive 700"]), "no packet is under way"),
    (whole(HEAD, CIRCUIT, events=["frame c 0011"]), "dropped (Short)"),
    (whole(HEAD, CIRCUIT, "tag = 7\n", events=[f"frame c {'f' * 24}88b5"]), "dropped (NoTag)"),
    (whole(HEAD, CIRCUIT, "tag = 7\n", events=[f"frame c {'f' * 24}8100000888b5"]), "dropped (WrongTag)"),
    (whole(HEAD, CIRCUIT, events=["play c /nowhere.pcap"]), "cannot be read"),
    (whole(HEAD, CIRCUIT, events=[f"play c {EXAMPLES}/learning.txt"]), "no capture in the classic format"),
    (PAIR + CIRCUIT, "never connected"),
    (as_version_1(PAIR + CIRCUIT), "never connected"),
    (whole(PAIR, CIRCUIT, events=["connect a b", "tick 300"]), "expires after 180"),
    (whole(PAIR, CIRCUIT, events=["connect a b", "settle 3", "frame c ffffffffffff02000000000188b5"]), "take 4 at least"),
    (whole(PAIR, CIRCUIT, events=["connect a b", "settle 4", "frame c ffffffffffff03000000000188b5"]), "its source 030000000001 is a group address"),
    (whole(HEAD, SECOND, CIRCUIT, CIRCUIT.replace('"c"', '"d"').replace('"a"', '"b"')), "no mesh wire"),
]
# A core edge a with spokes to x and y, written from the core edge.
TURNED = "".join(
    [HEAD, *(SECOND.replace('"b"', f'"{edge}"').replace(".2", f".{number}") for number, edge in ((8, "x"), (9, "y")))]
    + [WIRE.replace('"w"', f'"w{edge}"').replace("mesh", "spoke").replace('"b"', f'"{edge}"') for edge in "xy"]
)


def first_fault(folder: pathlib.Path, entry: tuple[str, str, str]) -> Iterator[bool]:
    """The first fault of a scenario is the program's, at its place."""
    (text, place, words), path = entry, folder / "f.toml"
    path.write_text(text, encoding="utf-8")
    status, said, _ = tool("check-scenario", path)
    first = said.splitlines()[0] if said else ""
    told = run([PROGRAM, "replay", path], folder, text=True).stderr.strip().removeprefix("vplsnet: ")
    seen = (status, first.startswith(f"{path}:{place}: "), words in first, first.rpartition(" [")[2])
    yield compare(f"check-scenario of {text[-60:]!r}, {first!r}", seen, (1, True, True, f"{told}]"))


def no_toml(folder: pathlib.Path) -> Iterator[bool]:
    """What is no TOML is told with its line."""
    path = folder / "f.toml"
    path.write_text("version = = 1\n", encoding="utf-8")
    status, said, fault = tool("check-scenario", path)
    seen = (status, fault, said.startswith(f"{path}:1:11: "), "[scenario: NotToml]" in said)
    yield compare("check-scenario of no TOML", seen, (1, "", True, True))
    for text, line, words in [(HEAD + CIRCUIT + CIRCUIT.replace("[[", "[").replace("]]", "]"), 16, "[[circuit]], with two brackets"), (DEEP, 1, "nested")]:
        path.write_text(text, encoding="utf-8")
        status, said, fault = tool("check-scenario", path)
        lines = (status, fault, said.startswith(f"{path}:{line}:"), words in said, said.count("\n"))
        yield compare(f"check-scenario of no TOML, {words}", lines, (1, "", True, True, 1))


def warning(folder: pathlib.Path, entry: tuple[str, str]) -> Iterator[bool]:
    """What a planner forgets is warned of."""
    (text, words), path = entry, folder / "f.toml"
    path.write_text(text, encoding="utf-8")
    status, said, fault = tool("check-scenario", path)
    yield compare(f"check-scenario, {words}", (status, words in said, "warning: " in said, fault), (0, True, True, ""))


scenarios = Part(
    "The first fault of a scenario is the program's, at its place; what a planner forgets is warned of.",
    {
        **table(REFUSED, lambda entry: f"{entry[1]} {entry[2]}", first_fault),
        "no-toml": no_toml,
        **table([*WARNED, (TURNED, 'path = ["x", "a"]')], lambda entry: f"warning {entry[1]}", warning),
    },
)


# A wire of version 1 with comments, its lines in version 2, and how many notes check-scenario has on its scenario.
OLDER: list[tuple[str, list[str], int]] = [
    ("", [], 1),
    ("group = 0\n", [], 2),
    ("vccv = 1\n", ["near = { vccv = 1 }"], 2),
    ("far_mtu = 1400  # of the last edge\n", ["# far_mtu: of the last edge", "far = { mtu = 1400 }"], 2),
    (
        '# first\nmode = "tagged"\n# then\nfar_vlan = 9\n',
        ["# first", "# then", 'near = { mode = "tagged" }', 'far = { mode = "tagged", vlan = 9 }'],
        2,
    ),
    ("group = 7\nfar_group = 4294967295\n", ['near = { group = "g7" }', 'far = { group = "g4294967295" }'], 2),
    ("group = 7\nfar_group = 0\n", ['near = { group = "g7" }', "far = {}"], 2),
    (
        'description = """\n"x"\\n\\u0000"""\nfar_description = ""\n',
        ['near = { description = "\\"x\\"\\u000a\\u0000" }', 'far = { description = "" }'],
        2,
    ),
]
ALIKE = 'version = 1\nedge = [{ name = "a", address = "10.0.0.1" }, { name = "b", address = "10.0.0.2" }]\nservice = [{ name = "s" }]\n'
ALIKE += 'wire = [{ name = "w", service = "s", class = "mesh", path = ["a", "b"], pw_id = 1, mtu = 7 }]\n'
NOT_REWRITTEN = [(PAIR, "version 2 already"), (ALIKE, "a line of its own"), (ALIKE.replace("mtu", "group"), "a line of its own")]


def rewritten(folder: pathlib.Path, entry: tuple[str, list[str], int]) -> Iterator[bool]:
    """A scenario of version 1 comes to be one of version 2 with its comments; the program migrates both to one text."""
    (keys, lines, count), old, new = entry, folder / "old.toml", folder / "new.toml"
    old.write_text("# said\n" + as_version_1(PAIR + keys + CIRCUIT), encoding="utf-8")
    notes = tool("check-scenario", old)[1].splitlines()
    yield compare(f"check-scenario of {keys!r}, notes", sum(": note: " in line for line in notes), count)
    status, text, fault = tool("to-version-2", old)
    new.write_text(text, encoding="utf-8")
    found = text.splitlines()
    groups = [line for line in found if line.startswith("number")]
    kept = found[found.index("pw_id = 1") + 1 : found.index("[[circuit]]") - 1]
    yield compare(f"to-version-2 of {keys!r}", (status, fault, found[:2], kept), (0, "", ["# said", "version = 2"], lines))
    yield compare(f"to-version-2 of {keys!r}, groups", len(groups), sum("group =" in line for line in lines))
    texts = [run([PROGRAM, "migrate", path], folder) for path in (old, new)]
    yield compare(f"migrate of {keys!r}", [done.returncode for done in texts], [0, 0])
    yield compare(f"migrate of {keys!r}, both", texts[0].stdout, texts[1].stdout)
    yield compare(f"check-scenario of {keys!r}, rewritten", ": note: " in tool("check-scenario", new)[1], False)


def not_rewritten(folder: pathlib.Path, entry: tuple[str, str]) -> Iterator[bool]:
    """A scenario that `to-version-2` cannot write anew is told in one line."""
    (text, words), old = entry, folder / "old.toml"
    old.write_text(text, encoding="utf-8")
    status, said, fault = tool("to-version-2", old)
    yield compare(f"to-version-2, {words}", (status, said, words in fault, fault.count("\n")), (1, "", True, 1))


newer = Part(
    "A scenario of version 1 comes to be one of version 2 with its comments; the program migrates both to one text.",
    {
        **table(OLDER, lambda entry: entry[0] or "no keys", rewritten),
        **table(NOT_REWRITTEN, lambda entry: f"refused {entry[1]}", not_rewritten),
    },
)


# A row of each table, from which one key at a time is given a value of another kind or range.
ROWS: dict[str, list[dict[str, Any]]] = {
    "edge": [{"name": "a", "address": "10.0.0.1"}, {"name": "b", "address": "10.0.0.2"}],
    "service": [{"name": "s"}],
    "group": [{"name": "g", "number": 7}],
    "circuit": [{"name": "c", "edge": "a", "service": "s"}],
    "wire": [{"name": "w", "service": "s", "class": "mesh", "path": ["a", "b"], "pw_id": 1}],
}
# A document that is refused at the top, and where the schema finds it.
TOPS = [
    ("", ()),
    ("version = 3\n", ("version",)),
    ('version = "2"\n', ("version",)),
    ("version = 2\nevents = 3\n", ("events",)),
    ("version = 2\nevents = [3]\n", ("events", 0)),
    ("version = 2\nedges = 3\n", ("edges",)),
    ("version = 2\n[edge]\n", ("edge",)),
    ("version = 1\ngroup = []\n", ("group",)),
    ("version = 2\n" + "[[group]]\nname = \"g\"\nnumber = 1\n" * 2049, ("group",)),
]


def bad_value(key: Key) -> Any:
    """A value that a key does not take."""
    bad = {"name": "A", "address": "10.0.0.01", "number": key.least - 1, "text": "x" * (key.most + 1), "flag": 1}
    return {**bad, "path": ["a", "B"], "class": "hub", "mode": "both", "table": 3}[key.kind]


def bad_rows(version: int) -> Iterator[Any]:
    """Documents of a version, each with one fault of a row: a bad value of each key, no value of one that is needed, an unknown key. Each
    is a table, the keys of its first row that change, where the schema finds it, and where the program does."""
    for table, keys in TABLES[version].items():
        for key in keys:
            yield table, {key.name: bad_value(key)}, (table, 0, key.name), f"{table} 1 {key.name}"
            if key.needed:
                yield table, {key.name: None}, (table, 0), f"{table} 1 {key.name}"
        yield table, {"other": 1}, (table, 0, "other"), f"{table} 1 other"
    for end in ENDS if version == NEWEST else ():
        for name, bad in [*((key.name, bad_value(key)) for key in OFFER), ("other", 1)]:
            yield "wire", {end: {name: bad}}, ("wire", 0, end, name), f"{end} 1 {name}"


def stored() -> dict[str, Any]:
    """The schema that is stored."""
    schema: dict[str, Any] = json.loads((TOP / "docs" / "scenario.schema.json").read_text(encoding="utf-8"))
    return schema


def found(text: str) -> list[Any]:
    """The places at which the schema finds a document at fault."""
    schema = stored()
    return [path[:4] if "near" in path or "far" in path else path[:3] for path in faults(schema, tomllib.loads(text), schema)]


def as_made(_folder: pathlib.Path) -> Iterator[bool]:
    """The schema that is stored is the one that is made."""
    text = (TOP / "docs" / "scenario.schema.json").read_text(encoding="utf-8")
    yield compare("make-schema", tool("make-schema"), (0, text, ""))
    status, said, fault = tool("make-schema", "--help")
    yield compare("make-schema --help", (status, "no part of what is proved" in said, fault), (0, True, ""))


def taken(_folder: pathlib.Path) -> Iterator[bool]:
    """The schema takes each example, a plan that is made, and scenarios of version 1."""
    for example in sorted(EXAMPLES.glob("*.toml")):
        yield compare(f"schema, {example.name}", found(example.read_text(encoding="utf-8")), [])
    yield compare("schema, make-plan", found(tool("make-plan", "hierarchy", "3", "4", "--spokes", "2")[1]), [])
    for keys, _, _ in OLDER:
        text = as_version_1(PAIR + keys)
        yield compare(f"schema, version 1 with {keys!r}", (found(text), found(Newer(text).text())), ([], []))


def tops(_folder: pathlib.Path) -> Iterator[bool]:
    """A fault at the top of a document, and an event that is none, are found where they are."""
    for text, place in TOPS:
        yield compare(f"schema, {text[-30:]!r}", found(text), [place])
    for first in SHAPES:
        text = f'version = 2\nevents = ["{first} -"]\n'
        yield compare(f"schema, event {first}", found(text), [("events", 0)])


def bad_values(folder: pathlib.Path, version: int) -> Iterator[bool]:
    """The schema refuses a bad value of each key where the program does."""
    path, rows = folder / "f.toml", {name: ROWS[name] for name in TABLES[version]}
    for name, keys, place, where in bad_rows(version):
        row = {key: it for key, it in {**rows[name][0], **keys}.items() if it is not None}
        text = writing.scenario({**rows, name: [row, *rows[name][1:]]}, []).replace("version = 2", f"version = {version}")
        path.write_text(text, encoding="utf-8")
        told = run([PROGRAM, "replay", path], folder, text=True).stderr.split()
        yield compare(f"schema, version {version}, {place}", (found(text), " ".join(told[-3:])), ([place], where))


schemas = Part(
    "The schema is the one that is made; it takes each example and plan, and refuses a bad value of each key where the program does.",
    {"as-made": as_made, "taken": taken, "tops": tops, **table(TABLES, lambda version: f"version {version}", bad_values)},
)
