"""The checks of how tools read: files octet by octet, TOML without `tomllib`, one table of events, and their own types."""

from __future__ import annotations

import pathlib
import random
import shutil
import tomllib

from .event_kinds import SEVERAL, SHAPES
from .plain_toml import NotPlain, read_plain
from .random_plans import EACH, random_plan
from .report import EVENTS
from .trying import PROGRAM, TOP, compare, run, tool

TYPE_CHECKING = False
if TYPE_CHECKING:
    from collections.abc import Iterator
    from typing import Any

EXAMPLES = TOP / "examples"
# How many texts are read, and from what each of their changes is: signs of TOML, blanks and ends of lines of all kinds, letters, digits.
MANY = 1000
SIGNS = ["", "", "0", "7", "a", "z", "_", " ", "\n", "\n\n", "#", "[[", "]]", "[", "]", "{", "}", "=", " = ", ",", '"', '"""', "'", "#", ".", "-", "_", "0", "1_0", "0x1", "1e3", "true", "inf", "é", "\t"]
SIGNS += ["\r", "\r\n", "\n", "\x00", "\x7f", "\u2028", "\\", "\\u0041", " ", "  ", "a", "A", "1979-05-27", "+1", "-1", "9" * 20]
EVENT_LINES = ['"tick"', '"connect e0 e1"', '"frame c0 ffff"', '"play c0 a b.pcap"', '"é"', '""']
# A wire of version 1 between lines that end by CR LF, with an event over two lines; and the same in version 2. What a line ends by stays.
OLD = 'version = 1\r\nevents = ["""tick\r\n"""]\r\n[[edge]]\r\nname = "a"\r\naddress = "10.0.0.1"\r\n[[edge]]\r\nname = "b"\r\naddress = "10.0.0.2"\r\n'
OLD += '[[service]]\r\nname = "s"\r\n[[wire]]\r\nname = "w"\r\nservice = "s"\r\nclass = "mesh"\r\npath = ["a", "b"]\r\npw_id = 1\r\nmtu = 1400 # less\r\n'
NEW = OLD.replace("version = 1", "version = 2").replace("mtu = 1400 # less", "# mtu: less\r\nnear = { mtu = 1400 }")


def octets(folder: pathlib.Path, _gone: set[str]) -> Iterator[Any]:
    """Files are read octet by octet: lines that end by CR LF, also within a text, and a CR by itself, which TOML has nowhere."""
    path = folder / "old.toml"
    path.write_text(OLD, encoding="ascii", newline="")
    done = run([TOP / "tools" / "to-version-2", path], folder)
    yield compare("to-version-2, CR LF", (done.returncode, done.stdout), (0, NEW.encode("ascii")))
    lines = (EXAMPLES / "frames-cross.toml").read_text(encoding="utf-8")
    for name, text, status in [
        ("CR LF", lines.replace("\n", "\r\n"), 0),
        ("CR", lines.replace("\n", "\r"), 1),
        ("a CR", lines.replace("settle 20", "settle\r20"), 1),
        ("a CR in a comment", lines.replace("# A", "# \rA"), 1),
    ]:
        path.write_text(text, encoding="utf-8", newline="")
        program = run([PROGRAM, "replay", path.name], folder)
        checked, said, fault = tool("check-scenario", path)
        yield compare(f"check-scenario, {name}", (checked, fault), (status, ""))
        yield compare(f"check-scenario, {name}, beside the program", (program.returncode == 0, "NotToml" in said), (status == 0, status == 1))
        if status == 0:
            report = folder / "report.txt"
            report.write_bytes(program.stdout.replace(b"\n", b"\r\n"))
            ends = [tool("summary", path, found)[:2] for found in (report, EXAMPLES / "frames-cross.txt")]
            yield compare("summary of lines that end by CR LF", ends[0], ends[1])


def plain_texts(_folder: pathlib.Path, _gone: set[str]) -> Iterator[Any]:
    """What is read without `tomllib` is what `tomllib` reads: examples, plans by chance, and both with a change by chance."""
    chance = random.Random(1)
    texts = [path.read_text(encoding="utf-8") for path in sorted(EXAMPLES.glob("*.toml"))]
    texts += [as_usual(chance, random_plan(chance, chance.choice(list(EACH)))) for _ in range(MANY // 5)]
    wrong: list[str] = []
    plain = [0, 0]
    for number in range(MANY):
        text = texts[number % len(texts)] if number < MANY // 3 else changed(chance, chance.choice(texts))
        try:
            found = read_plain(text)
        except NotPlain:
            continue
        plain[number >= MANY // 3] += 1
        if found != by_tomllib(text):
            wrong.append(text)
    yield compare("read_plain beside tomllib", wrong, [])
    yield compare("read_plain reads some of each kind", [count > 30 for count in plain], [True, True])


def as_usual(chance: random.Random, text: str) -> str:
    """A plan with some events, and most of them without tables in a line."""
    events = "".join(f"  {chance.choice(EVENT_LINES)},\n" for _ in range(chance.randint(0, 4)))
    lines = text.replace("events = [\n", f"events = [\n{events}").splitlines(keepends=True)
    return "".join(line for line in lines if chance.random() < 0.02 or not line.startswith(("near", "far")))


def changed(chance: random.Random, text: str) -> str:
    """A text with some signs put in, taken away or put in the place of others."""
    for _ in range(chance.randint(1, 2)):
        at = chance.randrange(len(text) + 1)
        text = text[:at] + chance.choice(SIGNS) + text[at + chance.choice([0, 0, 1, 2]) :]
    return text


def by_tomllib(text: str) -> Any:
    """What `tomllib` reads; None where the text is no TOML."""
    try:
        return tomllib.loads(text)
    except ValueError:
        return None


def event_tables(_folder: pathlib.Path, _gone: set[str]) -> Iterator[Any]:
    """Each event of a scenario is known in a report, but for those that it tells as others."""
    yield compare("events of scenarios and reports", set(SHAPES), {*EVENTS, *SEVERAL})
    for event, words in [("deliver", ("edge", "edge", "number")), ("tick", ()), ("wire", ("edge", "wire", "word")), ("frame", ("circuit", "octets"))]:
        yield compare(f"event {event} in a report", EVENTS[event], words)


def types(folder: pathlib.Path, _gone: set[str]) -> Iterator[Any]:
    """The types of all tools agree, as mypy reads them at its strictest."""
    mypy = shutil.which("mypy", path="/usr/bin") or shutil.which("mypy")
    if mypy is None:
        print("mypy is missing (Debian: mypy), and the types of the tools are not read")
        return
    done = run([mypy, "--strict", "--cache-dir", folder, "rengahowi", "check"], TOP / "tools", text=True)
    yield compare("types of tools/rengahowi and tools/check", [line for line in done.stdout.splitlines() if ": error:" in line], [])
    yield compare("mypy of tools/rengahowi", (done.returncode, done.stderr), (0, ""))
