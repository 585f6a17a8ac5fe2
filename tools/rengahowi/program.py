"""The programs, each proved or not yet: which of both there is, what a tool says of it, and what one makes of a stream."""

from __future__ import annotations

import atexit
import os
import pathlib
import subprocess
import sys
import tempfile
from typing import NamedTuple

from .command import Fault, name, say

TYPE_CHECKING = False
if TYPE_CHECKING:
    from collections.abc import Iterable

TOP = pathlib.Path(__file__).resolve().parent.parent.parent
WHICH = TOP / "bin" / "which-program"
# The crates of the programs.
VPLSNET, SURVEY = "vplsnet_program", "vplsnet_survey_program"
# What has unproved programs taken: any word for those that bin/vplsnet builds, or the path of one of the first program.
SWITCH = "VPLSNET_UNPROVED"
# What stands in the place of NOTE in each page that is made while the program is not proved.
NOTE, UNPROVED = "@NOTE@", '<b style="color: #8f1d14">not proved: this was made with an unproved program</b>'
# How a check ends that was made with one.
UNPROVED_STATUS = 4
# `decode` takes at most 67,108,864 octets.
MOST = 60_000_000


class Program(NamedTuple):
    """A program, and whether it is the proved one of the sources as they stand."""

    path: str
    is_proved: bool


# What was found first: a call of a tool keeps to one program of each crate, and says of them what there is to say once.
FOUND: dict[str, Program] = {}


def found(of: str = VPLSNET, *, build: bool) -> Program | None:
    """The program of a crate that there is; where there is none an unproved one is built, or None is the answer. It tells on standard error
    where what it makes is not proved."""
    if of in FOUND:
        return FOUND[of]
    words = ["--for", str(os.getpid())] if build else ["--built"]
    done = subprocess.run([WHICH, "--of", of, *words], stdin=subprocess.DEVNULL, stdout=subprocess.PIPE, check=False, text=True)
    if done.returncode == 1 and not build:
        return None
    if done.returncode != 0:
        raise Fault("there is no program")
    kind, _, path = done.stdout.rstrip("\n").partition(" ")
    if kind != "proved" and not os.environ.get(SWITCH) and all(program.is_proved for program in FOUND.values()):
        say("what this shows is not proved yet; bin/prove proves it")
    FOUND[of] = Program(path, kind == "proved")
    return FOUND[of]


def path(of: str = VPLSNET) -> str:
    """The path of the program of a crate, of which an unproved one is built where there is none."""
    program = found(of, build=True)
    assert program is not None
    return program.path


def is_proved(of: str = VPLSNET) -> bool:
    """Whether the proved program of the sources as they stand is there, and would be run."""
    return subprocess.run([WHICH, "--proved", "--of", of], stdin=subprocess.DEVNULL, stdout=subprocess.DEVNULL, check=False).returncode == 0


def with_note(page: str) -> str:
    """A page with the note at its place, or with nothing there where what it shows was made with proved programs, or with none."""
    found(build=False)
    return page.replace(NOTE, "" if all(program.is_proved for program in FOUND.values()) else UNPROVED)


def measured(of: str = VPLSNET) -> str:
    """The path of the program that a bench measures: of the proved one, be it there or not, but where the switch has another taken."""
    return path(of) if os.environ.get(SWITCH) else str(TOP / "crates" / of / "out" / of)


def require_proved(*of: str) -> None:
    """Has a check or a bench end here where the proved programs of these crates (of `vplsnet_program`, where none is named) are not there.
    With the switch it goes on with unproved ones, and so it does where a source changes meanwhile; but it cannot end well then."""
    needed = of or (VPLSNET,)
    for crate in needed:
        if not is_proved(crate):
            if not os.environ.get(SWITCH):
                raise SystemExit(f"{name()}: the program is not proved; bin/prove proves it ({SWITCH}=yes takes it as it is, and then nothing passes)")
            path(crate)
    atexit.register(end_unproved, *needed)


def end_unproved(*of: str) -> None:
    """Ends a check or a bench that was not made with the proved programs of these crates, so that it does not pass."""
    if all(map(is_proved, of)):
        return
    sys.stdout.flush()
    say("this was made with an unproved program, so it is no pass")
    os._exit(UNPROVED_STATUS)


def decoded(pdus: Iterable[bytes]) -> list[list[str]] | None:
    """The lines of `decode` for each of these PDUs, without their places; None where there is no program yet."""
    if found(build=False) is None:
        say("there is no program yet (bin/vplsnet builds one), so LDP messages have no names here")
        return None
    lines: list[list[str]] = []
    part: list[bytes] = []
    size = 0
    for pdu in pdus:
        if size + len(pdu) > MOST:
            lines += decoded_part(part)
            part, size = [], 0
        part.append(pdu)
        size += len(pdu)
    return lines + decoded_part(part)


def decoded_part(pdus: list[bytes]) -> list[list[str]]:
    """The same of PDUs that fit in one call."""
    places, place = {}, 0
    for number, pdu in enumerate(pdus):
        places[place] = number
        place += len(pdu)
    lines: list[list[str]] = [[] for _ in pdus]
    for text in decode(b"".join(pdus)):
        at, _, line = text.partition(" ")
        lines[places[int(at)]].append(line)
    return lines


def decode(octets: bytes) -> list[str]:
    """The lines of `decode` for a stream, up to its end or its first fault."""
    with tempfile.NamedTemporaryFile() as stream:
        stream.write(octets)
        stream.flush()
        done = subprocess.run([path(), "decode", stream.name], stdin=subprocess.DEVNULL, capture_output=True, check=False)
    if done.returncode not in (0, 6):
        raise Fault(f"decode ended with status {done.returncode}: {done.stderr.decode(errors='replace').strip()}")
    return done.stdout.decode().splitlines()
