"""The checks of plans that tools make: of real size, and as configurations of FRR."""

from __future__ import annotations

import json
import pathlib
import shutil

from .plan import read_plan
from .rows import Part, table
from .trying import PROGRAM, TOP, compare, run, tool

TYPE_CHECKING = False
if TYPE_CHECKING:
    from collections.abc import Iterator
    from typing import Any

EXAMPLES = TOP / "examples"


def comes_up(folder: pathlib.Path, entry: tuple[tuple[Any, ...], int]) -> Iterator[bool]:
    """A plan of real size comes up, and serves each site once."""
    (words, sites), path, report = entry, folder / "plan.toml", folder / "plan.txt"
    path.write_text(tool("make-plan", *words)[1], encoding="utf-8")
    yield compare(f"make-plan {words}", tool("check-scenario", path)[1].splitlines()[0], f"{path}: nothing to say")
    report.write_bytes(run([PROGRAM, "replay", path], folder).stdout)
    found = json.loads(tool("summary", "--json", path, report)[1])
    served = [row["promised"] and len(row["served"]) for row in found["frames"]]
    yield compare(f"make-plan {words}", served, [sites - 1] * sites * len(found["services"]))
    standby = sum(row["stands_by"] for row in found["wires"])
    yield compare(f"make-plan {words}, spokes that stand by", standby, 0 if words[0] == "mesh" else 4)


def no_plan(_folder: pathlib.Path, entry: tuple[tuple[Any, ...], str]) -> Iterator[bool]:
    """Words of which no plan is made."""
    words, right = entry
    status, said, fault = tool("make-plan", *words)
    yield compare(f"make-plan {words}", (status, said, right in fault, fault.count("\n")), (1, "", True, 1))


STITCHED = ("hierarchy", 3, 2, "--spokes", 2, "--services", 2, "--tags", "--stitched", "--groups", "--no-status", "--broadcasts", 10)
MADE: list[tuple[tuple[Any, ...], int]] = [(("mesh", 5, "--broadcasts", 5), 5), (("hierarchy", 3, 4, "--spokes", 2, "--broadcasts", 7), 7), (STITCHED, 5)]
NOT_MADE: list[tuple[tuple[Any, ...], str]] = [
    (("mesh", "--services", "-1", 3), "no number of rows"),
    (("hierarchy", 1, 2, "--spokes", 2), "one spoke, since"),
    (("mesh", 3, "--spokes", 2), "no spokes"),
    (("mesh", 64, "--services", 9), "at most 512"),
    (("mesh", 0), "one edge at least"),
    (("mesh", 46), "at most 1024"),
    (("mesh", "x"), "no number"),
    (("hierarchy", 3), "CORES SPOKES"),
    (("mesh", 65), "at most 64"),
]
plans = Part(
    "Plans of real size come up, and serve each site once.",
    {**table(MADE, lambda entry: " ".join(map(str, entry[0])), comes_up), **table(NOT_MADE, lambda entry: f"refused {entry[1]}", no_plan)},
)


def as_frr(folder: pathlib.Path, entry: tuple[str, int, int]) -> Iterator[bool]:
    """The configurations of a plan come back as its wires, FRR takes them, and what it cannot do is named."""
    name, wires, left = entry
    status, said, fault = tool("to-frr", EXAMPLES / f"{name}.toml", folder / name)
    edges = sorted((folder / name).glob("*.conf"))
    yield compare(f"to-frr {name}", (status, said, fault.count("\n")), (0, f"{len(edges) + 2} files in {folder / name}\n", left))
    back = tool("from-frr", *edges)[1]
    yield compare(f"to-frr {name} and back", back.count("[[wire]]"), wires)
    lab = (folder / name / "lab.clab.yml").read_text(encoding="utf-8")
    yield compare(f"to-frr {name}, links", lab.count("- endpoints"), len(read_plan(EXAMPLES / f"{name}.toml").pairs()))
    if name != "full-mesh":
        return
    if shutil.which("vtysh") is None:
        print("vtysh is missing (Debian: frr), and does not read what to-frr writes")
        return
    done = [run(["vtysh", "-C", "-f", path], folder) for path in (folder / name).glob("*.conf")]
    yield compare("to-frr, as FRR reads it", [(one.returncode, one.stdout) for one in done], [(0, b"")] * 3)


def into_a_file(_folder: pathlib.Path) -> Iterator[bool]:
    """A folder is needed."""
    status, said, fault = tool("to-frr", EXAMPLES / "full-mesh.toml", EXAMPLES / "full-mesh.txt")
    yield compare("to-frr into a file", (status, said, fault.count("\n"), "Traceback" in fault), (1, "", 1, False))


labs = Part(
    "The configurations of a plan come back as its wires, FRR takes them, and what it cannot do is named.",
    {**table([("full-mesh", 3, 0), ("spoke-moves", 5, 2), ("two-providers", 0, 1)], lambda entry: entry[0], as_frr), "into-a-file": into_a_file},
)
