"""What `audit` says of a lab's report, in the lab's own words: which capture, which packet, at which time, which frame."""

from __future__ import annotations

import collections
import datetime
import subprocess
import xml.etree.ElementTree

from .capture_reading import SECOND, Reader
from .command import Fault
from .findings import Findings
from .program import path

TYPE_CHECKING = False
if TYPE_CHECKING:
    from collections.abc import Iterator

    from .lab_file import Lab
    from .lab_frames import Place
    from .lab_report import LabReport
    from .lab_stretches import Stretch

AT_ONCE = 2
RULES = ("Isolated", "Split", "Once")
REFUSED = 6


class Refusal:
    """The first line of a stretch that breaks a rule."""

    def __init__(self, stretch: Stretch, line: int, rule: str) -> None:
        self.stretch, self.line, self.rule = stretch, line, rule


class Auditor:
    """Has the program judge stretches, two at once, while others are made."""

    def __init__(self, plan_path: str) -> None:
        self.plan_path = plan_path
        self.running: list[tuple[Stretch, subprocess.Popen[str]]] = []
        self.refusal: Refusal | None = None
        self.count = 0

    def take(self, stretch: Stretch) -> None:
        """A stretch is judged as soon as one of those before it is."""
        self.count += 1
        words = [path(), "audit", self.plan_path, stretch.path]
        process = subprocess.Popen(words, text=True, stdin=subprocess.DEVNULL, stdout=subprocess.PIPE, stderr=subprocess.PIPE)
        self.running.append((stretch, process))
        while len(self.running) >= AT_ONCE:
            self.wait()

    def wait(self) -> None:
        """Waits for the first one. Of several refusals the first one counts."""
        stretch, process = self.running.pop(0)
        said, fault = process.communicate()
        if process.returncode == REFUSED and self.refusal is None:
            line, rule = fault.split()[-2:]
            if rule not in RULES:
                raise Fault(f"the program does not take the report (line {line}, {rule}): this is a fault of the tool")
            self.refusal = Refusal(stretch, int(line), rule)
            return
        stretch.remove()
        if process.returncode not in (0, REFUSED) or process.returncode == 0 and said != "audit yes\n":
            raise Fault((fault.strip().splitlines() or ["the program gave no verdict"])[-1])

    def end(self) -> None:
        """Waits for all."""
        while self.running:
            self.wait()

    def remove(self) -> None:
        """Ends what still runs, and removes what is left."""
        for stretch, process in self.running:
            process.terminate()
            process.wait()
            stretch.remove()
        if self.refusal is not None:
            self.refusal.stretch.remove()


class Telling:
    """Tells a refusal."""

    def __init__(self, lab: Lab, refusal: Refusal) -> None:
        self.lab, self.refusal, self.stretch = lab, refusal, refusal.stretch
        with open(self.stretch.path, encoding="ascii") as file:
            self.lines = file.read().split("\n")
        self.words = self.lines[refusal.line - 1].split(" ")

    def text(self) -> list[str]:
        """The rule, what broke it, and the frame."""
        return list({"Isolated": self.isolated, "Split": self.split, "Once": self.once}[self.refusal.rule]())

    def isolated(self) -> Iterator[str]:
        """A frame left where no such frame of its service entered."""
        _, circuit, number, _, octets = self.words
        yield f"Isolated: at {circuit} a frame left that did not enter in its service: {self.where(self.refusal.line)}"
        yield f"  the frame: {described(octets)}"
        entered = self.entry_of(number)
        if entered is None:
            yield "  no frame that entered has its octets; where an edge made it itself, name its station under own"
        else:
            other = self.lines[entered - 1].split(" ")[1]
            yield f"  it entered at {other}, of service {self.lab.plan.circuits[other]['service']}: {self.where(entered)}"

    def split(self) -> Iterator[str]:
        """A frame went on from a mesh wire to another one."""
        _, _, edge, peer, wire, arrival, number, _, octets = self.words
        yield f"Split: {edge} sent a frame to {peer} on mesh wire {wire} that came to it by mesh wire {arrival}: {self.where(self.refusal.line)}"
        entered = self.entry_of(number)
        if entered is not None:
            yield f"  the frame: {described(self.lines[entered - 1].split(' ')[3])}, which entered at {self.lines[entered - 1].split(' ')[1]}: {self.where(entered)}"
        else:
            yield f"  the packet: {octets}"

    def once(self) -> Iterator[str]:
        """A flood did not leave once at each other site."""
        _, circuit, number, octets = self.words
        yield f"Once: a frame that entered at {circuit} did not leave exactly once at each other site: {self.where(self.refusal.line)}"
        yield f"  the frame: {described(octets)}"
        left: dict[str, list[int]] = collections.defaultdict(list)
        for place, line in enumerate(self.lines, 1):
            if line.startswith("left ") and line.split(" ")[2] == number:
                left[line.split(" ")[1]].append(place)
        service = self.lab.plan.circuits[circuit]["service"]
        off = {line.split(" ")[2] for line in self.lines[: self.refusal.line] if line.startswith("> circuit ") and line.endswith(" off")}
        for site in self.lab.plan.circuits_of(service):
            if site != circuit and site not in left and site not in off:
                yield f"  it never left at {site}: {self.files_of(site)}"
        for site, places in left.items():
            if len(places) > 1 or site == circuit or self.lab.plan.circuits[site]["service"] != service:
                shown = "; ".join(map(self.where, places[:4])) + (f"; and {len(places) - 4} more" if len(places) > 4 else "")
                times = "where it entered" if site == circuit else f"{len(places)} times"
                yield f"  it left at {site} {times}: {shown}"

    def entry_of(self, number: str) -> int | None:
        """The line by which a frame entered."""
        found = (place for place, line in enumerate(self.lines, 1) if line.startswith("in ") and line.split(" ")[2] == number)
        return next(found, None) if number != "0" else None

    def files_of(self, circuit: str) -> str:
        """The captures of what leaves at a circuit."""
        return ", ".join(row.name for row in self.lab.captures if circuit in row.circuits and row.direction != "in")

    def where(self, line: int) -> str:
        """The capture, the packet and the time of a line."""
        place = self.stretch.place_of(line)
        if place[1] == 0:
            return "in a stretch before"
        return f"{self.lab.captures[place[0]].name}, packet {place[1]}, {self.time_of(place)}"

    def time_of(self, place: Place) -> str:
        """The time of a packet, as its capture has it."""
        row = self.lab.captures[place[0]]
        for packet in Reader(row.path, row.name, Findings()).packets():
            if packet.number == place[1]:
                when = datetime.datetime.fromtimestamp(packet.time // SECOND, datetime.timezone.utc)
                return f"{when:%Y-%m-%d %H:%M:%S}.{packet.time % SECOND // 1000:06} UTC"
        return ""


def described(octets: str) -> str:
    """A frame by its stations, its type, and what can be read at the front of its content."""
    frame = bytes.fromhex(octets)
    stations = [frame[place : place + 6].hex(":") for place in (0, 6)]
    behind = 18 if frame[12:14] == b"\x81\0" else 14
    text = frame[behind:].split(b"\0")[0]
    shown = f', "{text.decode()[:40]}"' if text.isascii() and text.decode("ascii", "replace").isprintable() and text else ""
    return f"{stations[1]} to {stations[0]}, type {frame[behind - 2 : behind].hex()}, {len(frame)} octets{shown}"


def judged_lines(report: LabReport) -> Iterator[str]:
    """How many floods were judged, and why others were not."""
    judging = report.judging
    judged = {service: count for service, count in judging.judged.items() if count}
    shown = ", ".join(f"{count} of {service}" for service, count in judged.items())
    yield f"floods judged: {sum(judged.values())}" + (f" ({shown})" if judged else "")
    reasons = {why: count for why, count in judging.reasons.items() if count}
    yield f"not judged: {sum(reasons.values())}" + ("" if reasons else " floods")
    for why, count in sorted(reasons.items(), key=lambda row: -row[1]):
        yield f"  {count}: {why}"


def junit(lab: Lab, report: LabReport, refusal: Refusal | None, told: list[str]) -> str:
    """The verdict as JUnit writes test results: a case for each rule, and for each service whether floods were judged."""
    suite = xml.etree.ElementTree.Element("testsuite", name=lab.path)
    broken = RULES.index(refusal.rule) if refusal is not None else len(RULES)
    for place, rule in enumerate(RULES):
        case = xml.etree.ElementTree.SubElement(suite, "testcase", classname="audit", name=rule)
        if place == broken:
            xml.etree.ElementTree.SubElement(case, "failure", message=told[0]).text = "\n".join(told)
        elif place > broken:
            xml.etree.ElementTree.SubElement(case, "skipped", message=f"{RULES[broken]} is broken")
    for service in lab.plan.services:
        case = xml.etree.ElementTree.SubElement(suite, "testcase", classname="floods judged", name=service)
        if not report.judging.judged[service]:
            xml.etree.ElementTree.SubElement(case, "skipped", message="no flood of this service was judged")
    cases = suite.findall("testcase")
    suite.attrib |= {"tests": str(len(cases)), "failures": str(len(suite.findall("*/failure"))), "errors": "0"}
    suite.attrib["skipped"] = str(len(suite.findall("*/skipped")))
    return xml.etree.ElementTree.tostring(suite, encoding="unicode", xml_declaration=True) + "\n"
