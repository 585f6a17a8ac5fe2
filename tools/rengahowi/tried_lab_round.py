#!/usr/bin/env python3
"""The round trip of `tools/from-lab`, for `tools/check`: python3 tried_lab_round.py SEED COUNT, or FOLDER with scenarios.

Of each run what entered and left at each port and link is written as captures, `from-lab` makes a report of them, and `audit` has to say of
it what it says of the run's own report. Then one frame that left is taken out, doubled, or moved to another customer's port, or one is sent
on from a mesh wire to another one, in the run's own report and in the captures: where the own report breaks a rule by that, so has the other
one, with the capture and the packet. Prints what differs, and in the end the counts as JSON."""

from __future__ import annotations

import collections
import json
import pathlib
import random
import subprocess
import sys
import tempfile

if __name__ == "__main__":
    sys.path.insert(0, str(pathlib.Path(__file__).resolve().parent.parent))

from rengahowi import lab_stretches
from rengahowi.lab_file import read_lab
from rengahowi.lab_report import LabReport
from rengahowi.lab_verdict import Auditor, Telling
from rengahowi.plan import read_plan
from rengahowi.program import path as program_path
from rengahowi.tried_lab_captures import LabCaptures
from rengahowi.tried_lab_runs import RandomRun

TYPE_CHECKING = False
if TYPE_CHECKING:
    from rengahowi.plan import Plan

CHANGES = ("taken out", "doubled", "moved")
TRIES = 12
# Octets behind which a stretch ends in the trial of stretches.
SHORT = 3000


def audited(plan: pathlib.Path, lines: list[str]) -> str:
    """What the program says of a report: yes, or the rule that it breaks."""
    report = plan.with_name("own.report")
    report.write_text("\n".join(lines) + "\n", encoding="ascii")
    done = subprocess.run([program_path(), "audit", plan, report], capture_output=True, text=True, check=False)
    return "yes" if done.returncode == 0 else done.stderr.split()[-1]


def counted(lines: list[str]) -> list[str]:
    """The lines of a report with the right counts in the last one."""
    counts = collections.Counter(line.split(" ")[0] for line in lines[1:-1])
    return [*lines[:-1], f"end events={counts['>']} in={counts['in']} left={counts['left']} sent={counts['sent']} dropped={counts['dropped']}"]


class Round:
    """The round trips of several scenarios, and what came of them."""

    def __init__(self, folder: pathlib.Path) -> None:
        self.folder, self.counts, self.differ = folder, collections.Counter[str](), list[str]()

    def judge(self, lines: list[str], seed: int, links: bool, table: bool) -> tuple[str, str, int, LabCaptures]:
        """What is said of the captures of a report: the rule, the words, how many floods were judged, and what the captures are."""
        captures = LabCaptures(read_plan(self.folder / "plan.toml"), self.folder, seed, links, table)
        captures.write(lines)
        lab = read_lab(str(self.folder / "LAB.toml"), {})
        auditor = Auditor(lab.plan_path)
        report = LabReport(lab, auditor.take)
        try:
            report.make()
            auditor.end()
            judged = sum(report.judging.judged.values())
            if auditor.refusal is None:
                return "yes", "", judged, captures
            return auditor.refusal.rule, "\n".join(Telling(lab, auditor.refusal).text()), judged, captures
        finally:
            auditor.remove()
            report.stretches.now.remove()

    def try_one(self, name: str, text: str, seed: int) -> None:
        """A scenario."""
        for path in self.folder.iterdir():
            path.unlink()
        plan = self.folder / "plan.toml"
        plan.write_text(text, encoding="utf-8")
        if not read_plan(plan).circuits:
            return
        lines = subprocess.run([program_path(), "replay", plan], capture_output=True, text=True, check=False).stdout.splitlines()
        self.counts["runs"] += 1
        table, rng = seed % 2 == 0, random.Random(seed)
        own, (rule, words, judged, _) = audited(plan, lines), self.judge(lines, seed, True, table)
        self.counts["floods judged"] += judged
        if own != rule:
            self.differ.append(f"{name}: its own report gets {own}, that of its captures {rule}: {words}")
        if not any(line.startswith(("> drop", "> again", "aged")) for line in lines):
            self.counts["runs at ports alone"] += 1
            rule, words, _, _ = self.judge(lines, seed, False, True)
            if rule != "yes":
                self.differ.append(f"{name}, at ports alone: {rule}: {words}")
        self.try_stretches(name, lines, seed)
        self.try_split(name, lines, seed)
        for change in CHANGES:
            self.try_change(name, change, lines, seed, rng)

    def try_stretches(self, name: str, lines: list[str], seed: int) -> None:
        """The same captures in a report of many short stretches, each of which has to be right."""
        usual, lab_stretches.MOST = lab_stretches.MOST, SHORT
        rule, words, _, _ = self.judge(lines, seed, True, seed % 2 == 0)
        lab_stretches.MOST = usual
        self.counts["runs in stretches"] += 1
        if rule != "yes":
            self.differ.append(f"{name}, in stretches: {rule}: {words}")

    def try_split(self, name: str, lines: list[str], seed: int) -> None:
        """A frame that came by a mesh wire is sent on by another one."""
        found = sent_on(read_plan(self.folder / "plan.toml"), lines)
        if found is None:
            return
        number, changed = found
        own, (rule, words, _, captures) = audited(self.folder / "plan.toml", changed), self.judge(changed, seed, True, seed % 2 == 0)
        file, packet = captures.places[number]
        self.counts[f"sent on: {own}"] += 1
        if rule != own or f"{file}, packet {packet}," not in words:
            self.differ.append(f"{name}, sent on: {own}, and that of its captures {rule}, without {file}, packet {packet}: {words}")

    def try_change(self, name: str, change: str, lines: list[str], seed: int, rng: random.Random) -> None:
        """A frame that left is changed, one by which the run's own report breaks a rule."""
        plan = read_plan(self.folder / "plan.toml")
        left = [number for number, line in enumerate(lines) if line.startswith("left ")]
        rng.shuffle(left)
        for number in left[:TRIES]:
            changed = changed_lines(plan, lines, number, change, rng)
            own = "yes" if changed is None else audited(self.folder / "plan.toml", changed)
            if changed is None or own == "yes":
                continue
            rule, words, _, captures = self.judge(changed, seed, True, seed % 2 == 0)
            entry = next(place for place, line in enumerate(changed) if line.startswith("in ") and line.split(" ")[2] == lines[number].split(" ")[2])
            file, packet = captures.places[entry if change == "taken out" else number]
            self.counts[f"{change}: {own}"] += 1
            if rule != own or f"{file}, packet {packet}," not in words:
                self.differ.append(f"{name}, line {number + 1} {change}: {own}, and that of its captures {rule}, without {file}, packet {packet}: {words}")
            return


def changed_lines(plan: Plan, lines: list[str], number: int, change: str, rng: random.Random) -> list[str] | None:
    """The lines of a report with one that is changed; None where no other customer has a port."""
    words = lines[number].split(" ")
    others = [name for name, row in plan.circuits.items() if row["service"] != plan.circuits[words[1]]["service"]]
    if change == "moved" and not others:
        return None
    new = [lines[number]] * 2 if change == "doubled" else []
    if change == "moved":
        new = [" ".join([words[0], rng.choice(others), *words[2:]])]
    return counted([*lines[:number], *new, *lines[number + 1 :]])


def sent_on(plan: Plan, lines: list[str]) -> tuple[int, list[str]] | None:
    """The lines of a report with a packet more, by which an edge sends what came by a mesh wire out by another one, and the place of that
    line; None where no two mesh wires of one service, both without tags, had a packet so."""
    sent, last = {}, dict[tuple[str, str], str]()
    for place, line in enumerate(lines):
        words = line.split(" ")
        if words[0] == "sent" and words[6] != "0":
            wire = plan.wires[words[4]]
            if wire.kind == "mesh" and len(wire.path) == 2 and wire.near["mode"] == "raw" == wire.far["mode"]:
                sent[words[1]] = words
                last[words[2], wire.name] = words[8]
        if words[:2] != [">", "arrive"] or words[2] not in sent:
            continue
        _, _, _, edge, came, _, origin, hops, octets = sent[words[2]]
        for (sender, name), label in last.items():
            wire = plan.wires[name]
            if sender == edge and name != came and wire.service == plan.wires[came].service:
                inner = octets[16 if plan.wires[came].near["control_word"] else 8 :]
                far = wire.path[wire.path[0] == edge]
                new = f"sent {10**9} {edge} {far} {name} {came} {origin} {int(hops) + 1} {label[: 16 if wire.near['control_word'] else 8]}{inner}"
                return place + 1, counted([*lines[: place + 1], new, *lines[place + 1 :]])
    return None


def main() -> int:
    """Makes the round trips."""
    words = sys.argv[1:]
    if len(words) == 1:
        found = [(path.name, path.read_text(encoding="utf-8"), place) for place, path in enumerate(sorted(pathlib.Path(words[0]).glob("*.toml")))]
    else:
        found = [(f"seed {seed}", RandomRun(seed).text(), seed) for seed in range(int(words[0]), int(words[0]) + int(words[1]))]
    with tempfile.TemporaryDirectory() as folder:
        tried = Round(pathlib.Path(folder))
        for name, text, seed in found:
            tried.try_one(name, text, seed)
    print("\n".join(tried.differ), end="\n" if tried.differ else "")
    print(json.dumps(tried.counts))
    return 1 if tried.differ else 0


if __name__ == "__main__":
    sys.exit(main())
