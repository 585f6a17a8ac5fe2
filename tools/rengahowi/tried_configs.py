"""The checks of `tools/from-config` and `tools/to-config`: configurations with the plans that are due, and what is refused."""

from __future__ import annotations

import json
import pathlib
import random

from . import checking, writing
from .command import Fault
from .configs import joining, vendors, writers
from .plan import Plan, tables_of
from .program import path as program_path
from .random_plans import random_plan, same_but_for_names
from .rows import Part, table
from .trying import TOP, compare, run, tool

TYPE_CHECKING = False
if TYPE_CHECKING:
    from collections.abc import Iterator

CONFIGS = TOP / "examples" / "configs"
# What stands beside the configurations of an example: the plan and the lines that are due, made by hand.
PLAN, TOLD = "plan.toml", "told.txt"
# The words of the examples that have some.
WORDS = {"junos/refused": ["--known"]}
# A text that is no configuration to work with, the line and some words by which it is refused.
REFUSED = [
    ("", 1, "whose configuration this is"),
    ("nothing of a router\n", 1, "whose configuration this is"),
    ("hostname x\nl2vpn RED type vpls\n mtu 1400\n", 3, "none had a VPLS"),
    ("mpls ldp\n router-id 10.0.0.1\n address-family ipv4\n", 3, "none had a VPLS"),
]


def example(_folder: pathlib.Path, place: pathlib.Path) -> Iterator[bool]:
    """The plan of an example of configurations is the one that stands beside it, and so is what is told."""
    files = sorted(path.name for path in place.iterdir() if path.name not in (PLAN, TOLD))
    name = str(place.relative_to(CONFIGS))
    status, said, fault = tool("from-config", *WORDS.get(name, []), *files, folder=place)
    yield compare(f"from-config {name}", (status, said), (0, (place / PLAN).read_text(encoding="utf-8")))
    yield compare(f"from-config {name}, told", fault, (place / TOLD).read_text(encoding="utf-8"))


def refused(folder: pathlib.Path, entry: tuple[str, int, str]) -> Iterator[bool]:
    """A text that is no configuration to work with."""
    (text, line, words), path = entry, folder / "one.conf"
    path.write_text(text, encoding="utf-8")
    status, said, fault = tool("from-config", path)
    last = fault.splitlines()[-1]
    seen = (status, said, last.startswith(f"from-config: {path}, line {line}: "), words in last)
    yield compare(f"from-config {text!r}", seen, (1, "", True, True))


def as_json() -> Iterator[bool]:
    """What programs are told: the same scenario, the files, and the kinds and both lines of what is told."""
    place = CONFIGS / "vrp" / "unequal-ends"
    found = json.loads(tool("from-config", "--json", "pe1.cfg", "pe2.cfg", folder=place)[1])
    yield compare("from-config --json", found["scenario"], (place / PLAN).read_text(encoding="utf-8"))
    files = [{"file": f"pe{number}.cfg", "vendor": "vrp", "lines": 44, "edge": f"pe{number}", "address": f"10.0.0.{number}"} for number in (1, 2)]
    yield compare("from-config --json, files", (found["files"], found["guessed"]), (files, {}))
    lines = [tuple(told[key] for key in ("file", "line", "kind", "other_file", "other_line")) for told in found["told"]]
    right = [("pe1.cfg", here, "differs", "pe2.cfg", there) for here, there in ((15, 15), (21, 22), (29, 29), (33, 33))]
    yield compare("from-config --json, told", lines, right)


def there_and_back(vendor: str, seed: int, count: int, like: str | None = None) -> tuple[int, list[str]]:
    """How many of so many random plans a vendor's words say whole, and which of these do not come back as they were. The plans are as
    those that another vendor's words say, where one is named."""
    chance = random.Random(seed)
    said, wrong = 0, []
    for _ in range(count):
        text = random_plan(chance, like or vendor)
        plan = Plan(tables_of(text))
        writer = writers.WRITERS[vendor](plan)
        files = {name: written for name, written in writer.files("plan").items() if name.endswith(writer.ending)}
        if writer.left_out:
            continue
        said += 1
        routers = [vendors.read(name, written).router for name, written in files.items()]
        joined = joining.Joining(routers)
        rows = joined.make()
        back = Plan({"version": 2, "events": [], **rows})
        if same_but_for_names(back) != same_but_for_names(plan) or any(told.kind != "differs" for told in joined.told):
            wrong.append(text)
    return said, wrong


def back(_folder: pathlib.Path, vendor: str) -> Iterator[bool]:
    """Random plans that a vendor's words say come back as they were; of those that suit another vendor's, what does not is told."""
    said, wrong = there_and_back(vendor, 7, 20)
    yield compare(f"to-config {vendor} and back", (said > 5, wrong[:1]), (True, []))
    for like in writers.WRITERS:
        yield compare(f"to-config {vendor}, a plan for {like}", there_and_back(vendor, 8, 2, like)[1], [])


def damaged(chance: random.Random, text: str) -> str:
    """A configuration with lines cut, doubled, moved or changed, with odd indentation, with tabs or CR LF, or half of it."""
    lines = text.split("\n")
    for _ in range(chance.randint(1, 12)):
        place, other = chance.randrange(len(lines)), chance.randrange(len(lines))
        kind = chance.randrange(7)
        if kind == 0 and len(lines) > 1:
            del lines[place]
        elif kind == 1:
            lines.insert(other, lines[place])
        elif kind == 2:
            lines.insert(other, lines.pop(place))
        elif kind == 3:
            lines[place] = " " * chance.randint(0, 9) + lines[place].lstrip()
        elif kind == 4:
            lines[place] = lines[place].replace("    ", "\t").replace(" ", "\t", chance.randint(0, 1))
        elif kind == 5:
            words = lines[place].split(" ")
            words[chance.randrange(len(words))] = chance.choice(["", "{", "}", '"', "99999999999", "x" * 200, "10.0.0.256", "0", "é", "pw-id"])
            lines[place] = " ".join(words)
        else:
            lines[place] = lines[place][: chance.randint(0, 40)]
    if chance.random() < 0.1:
        lines = lines[: len(lines) // 2]
    return ("\r\n" if chance.random() < 0.2 else "\n").join(lines)


def worst_of(seed: int, count: int) -> list[tuple[str, ...]]:
    """Of so many damaged configurations, those that end in another way than by a scenario that is one, or by a line of a file."""
    chance = random.Random(seed)
    places = sorted(path.parent for path in CONFIGS.glob("*/*/" + PLAN))
    texts = [[path.read_text(encoding="utf-8") for path in sorted(place.iterdir()) if path.name not in (PLAN, TOLD)] for place in places]
    wrong: list[tuple[str, ...]] = []
    for _ in range(count):
        files = list(chance.choice(texts))
        place = chance.randrange(len(files))
        files[place] = damaged(chance, files[place])
        try:
            made = joining.Joining([vendors.read(f"{number}.cfg", text).router for number, text in enumerate(files)], chance.random() < 0.5)
            rows = made.make()
            document = tables_of(writing.scenario(rows, writing.connected(rows)))
            kinds = (checking.top_faults, checking.row_faults, checking.references, checking.name_faults, checking.plan_faults)
            faults = [fault for kind in kinds for fault in kind(document)]
            lines = {f"{number}.cfg": len(text.splitlines()) + 1 for number, text in enumerate(files)}
            if faults or any(not 0 < told.line <= lines[told.path] for told in made.told):
                wrong.append((str(faults or made.told), *files))
        except Fault as fault:
            if ".cfg, line " not in str(fault):
                wrong.append((str(fault), *files))
        except Exception as fault:  # pylint: disable=broad-exception-caught
            wrong.append((repr(fault), *files))
    return wrong


def damaged_files(_folder: pathlib.Path) -> Iterator[bool]:
    """Damaged configurations end in a scenario that is one, or in a line that names its file and line."""
    yield compare("from-config of damaged files", worst_of(7, 150)[:1], [])


def mixed(folder: pathlib.Path) -> Iterator[bool]:
    """A network of several vendors comes up calm."""
    place, plan, report = CONFIGS / "mixed" / "core-and-spoke-edges", folder / "plan.toml", folder / "run.txt"
    plan.write_text(tool("from-config", *(f"{name}" for name in ("pe1.cfg", "pe2.cfg", "upe1.conf", "upe2.cfg")), folder=place)[1], encoding="utf-8")
    report.write_bytes(run([program_path(), "replay", plan], folder).stdout)
    found = json.loads(tool("summary", "--json", plan, report)[1])
    yield compare("a mixed network", ([row["calm"] for row in found["services"]], len(found["sessions"])), ([True], 5))


def export(_folder: pathlib.Path) -> Iterator[bool]:
    """The plan of an export of NetBox is the one that stands beside it."""
    place = CONFIGS / "netbox"
    status, said, fault = tool("from-netbox", "export.json", folder=place)
    yield compare("from-netbox", (status, said), (0, (place / PLAN).read_text(encoding="utf-8")))
    yield compare("from-netbox, told", fault, (place / TOLD).read_text(encoding="utf-8"))


def no_export(folder: pathlib.Path, entry: tuple[str, str]) -> Iterator[bool]:
    """What is no export is refused in one line."""
    (text, words), path = entry, folder / "export.json"
    path.write_text(text, encoding="utf-8")
    status, said, fault = tool("from-netbox", path)
    yield compare(f"from-netbox {text!r}", (status, said, words in fault, fault.count("\n")), (1, "", True, 1))


NO_EXPORTS = [("", "no JSON"), ("[]", "no object"), ('{"l2vpns": {"results": 3}}', "no L2VPN of type vpls")]
from_configs = Part(
    "The plan of each example of configurations is the one that stands beside it, and so is what is told; some are refused.",
    {
        **table(sorted(path.parent for path in CONFIGS.glob("*/*/" + PLAN)), lambda place: place.relative_to(CONFIGS), example),
        "json": lambda _folder: as_json(),
        **table(REFUSED, lambda entry: f"refused {entry[0]}", refused),
    },
)
to_configs = Part(
    "Random plans that a vendor's words say come back as they were; of those that suit another vendor's, what does not is told.",
    table(writers.WRITERS, str, back),
)
damaged_configs = Part(
    "Damaged configurations end in a scenario that is one, or in a line that names its file and line; a mixed network comes up calm.",
    {"damaged": damaged_files, "mixed": mixed},
)
netboxes = Part(
    "The plan of an export of NetBox is the one that stands beside it; what is none is refused in one line.",
    {"export": export, **table(NO_EXPORTS, lambda entry: entry[1], no_export)},
)
