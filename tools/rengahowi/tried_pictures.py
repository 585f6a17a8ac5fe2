"""The checks of the pictures of plans: what stands where, what is drawn of a run, and no name on another one."""

from __future__ import annotations

import json
import re
import xml.etree.ElementTree

from .rows import Part
from .trying import SVG, TOP, boxes_in, compare, driver, tool

TYPE_CHECKING = False
if TYPE_CHECKING:
    import pathlib
    from collections.abc import Iterator
    from typing import Any

EXAMPLES = TOP / "examples"
PLANS = {
    "a mesh of twelve": ("mesh", "12"),
    "three services": ("mesh", "4", "--services", "3"),
    "a hierarchy": ("hierarchy", "2", "3", "--services", "2", "--spokes", "2"),
    "twenty edges": ("hierarchy", "8", "12", "--spokes", "2", "--services", "3"),
}


def with_plans(folder: pathlib.Path) -> pathlib.Path:
    """A folder, with the plans that are drawn."""
    for name, words in PLANS.items():
        (folder / f"{name}.toml").write_text(tool("make-plan", *words)[1], encoding="utf-8")
    return folder


def refused(_folder: pathlib.Path) -> Iterator[Any]:
    """Words that are none."""
    example = EXAMPLES / "old-way.toml"
    bad: list[tuple[tuple[Any, ...], str]] = [((example, "--at", "3"), "--report"), ((example, "--service", "t"), "no service 't'"), ((example, "--report", EXAMPLES / "old-way.txt", "--at", "x"), "no event")]
    for words, right in bad:
        status, said, fault = tool("picture", *words)
        yield compare(f"picture {words[1:]}", (status, said, right in fault, fault.count("\n")), (1, "", True, 1))


def as_dot(folder: pathlib.Path) -> Iterator[Any]:
    """The text for Graphviz."""
    status, text, fault = tool("picture", "--dot", EXAMPLES / "old-way.toml")
    lines = [line for line in text.splitlines() if " -- " in line]
    yield compare("picture --dot", (status, fault, len(lines), sum("dashed" in line for line in lines)), (0, "", 8, 2))
    named = [line for line in tool("picture", "--dot", folder / "a mesh of twelve.toml")[1].splitlines() if ' label="w' in line]
    yield compare("picture of a large mesh, names", named, [])
    lines = tool("picture", "--dot", folder / "twenty edges.toml", "--service", "s2")[1].splitlines()
    seen = (sum(" -- " in line for line in lines), sum("dashed" in line for line in lines), any("s1" in line for line in lines))
    yield compare("picture of a service", seen, (20 + 28 + 24, 24, False))
    at = re.findall(r'"edge e\d+" .*pos="(\d+),', "\n".join(lines))
    yield compare("picture of a hierarchy, its width", (len(at), max(map(int, at)) - min(map(int, at)) < 900), (20, True))


def boxes(picture: str, kind: str) -> dict[str, tuple[float, float]]:
    """Where the boxes of a kind stand in a picture, by their names."""
    found = {}
    for group in xml.etree.ElementTree.fromstring(picture).iter(f"{SVG}g"):
        title, rect = group.find(f"{SVG}title"), group.find(f"{SVG}rect")
        if rect is not None and title is not None and (title.text or "").startswith(kind):
            found[(title.text or "").split(" ")[1].rstrip(",")] = float(rect.get("x", "")), float(rect.get("y", ""))
    return found


def places(folder: pathlib.Path) -> Iterator[Any]:
    """A chain from left to right in the plan's order, core edges above spoke edges with what is in the middle of paths between them, and
    each circuit with a line to its own box."""
    text = tool("picture", EXAMPLES / "two-providers.toml")[1]
    at = boxes(text, "edge")
    yield compare("picture of a chain", (sorted(at, key=at.__getitem__), len({y for _, y in at.values()})), (["paris", "lyon", "milan", "rome"], 1))
    plan = (folder / "a hierarchy.toml").read_text(encoding="utf-8")
    path = folder / "stitched.toml"
    path.write_text(re.sub(r'path = \["e2", "e0"\]', 'path = ["e2", "p", "e0"]', plan) + '\n[[edge]]\nname = "p"\naddress = "10.9.0.1"\n', encoding="utf-8")
    at = boxes(tool("picture", path)[1], "edge")
    yield compare("picture, the middle of a path", [name for name, _ in sorted(at.items(), key=lambda row: (row[1][1], row[0]))], ["e0", "e1", "p", "e2", "e3", "e4"])
    text = tool("picture", folder / "three services.toml")[1]
    lines = [line.split(" ")[-1].split(",") for line in re.findall(r'<title>c\d_s\d at e\d</title>.*?points="([^"]*)" fill="none" stroke="#[^"]*"/></g><g', text)]
    seen = sorted((float(y) - 10, float(x)) for x, y in lines)
    yield compare("picture, lines of circuits", seen, sorted((y, x) for x, y in boxes(text, "circuit").values()))
    yield compare("picture", boxes_in(tool("picture", EXAMPLES / "old-way.toml")[1]), (7, 8))


def behind_events() -> Iterator[Any]:
    """What stands behind events of a run: how many wires are down, and how many stand by."""
    old_way = [EXAMPLES / "old-way.toml", "--report", EXAMPLES / "old-way.txt"]
    for event, dotted, thin in (("priority x xb 5", 0, 2), ("41", 0, 1), ("1", 5, 0)):
        text = tool("picture", *old_way, "--dot", "--at", event)[1]
        yield compare(f"picture --dot --at {event}", (text.count("style=dotted"), text.count("penwidth=0.8")), (dotted, thin))
        text = tool("picture", *old_way, "--at", event)[1]
        yield compare(f"picture --at {event}", (text.count('stroke-dasharray="2 3"'), text.count('stroke-width="0.8"')), (dotted, thin))


def names_apart(folder: pathlib.Path) -> Iterator[Any]:
    """No two texts of a picture meet in a browser."""
    python = driver("picture")
    if python is None:
        return
    plans = {**{name: folder / f"{name}.toml" for name in PLANS}, **{name: EXAMPLES / f"{name}.toml" for name in ("hierarchy", "mesh-over-chain", "two-customers")}}
    for name, path in plans.items():
        picture = folder / "plan.svg"
        picture.write_text(tool("picture", path)[1], encoding="utf-8")
        seen = json.loads(python("rengahowi.overlaps", picture) or "null")
        yield compare(f"picture of {name}, names that meet", seen, [])


pictures = Part(
    "Pictures, and the text for Graphviz.",
    {
        "as-dot": lambda folder: as_dot(with_plans(folder)),
        "places": lambda folder: places(with_plans(folder)),
        "behind-events": lambda _folder: behind_events(),
        "names-apart": lambda folder: names_apart(with_plans(folder)),
        "refused": refused,
    },
)
