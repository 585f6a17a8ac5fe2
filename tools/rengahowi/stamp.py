"""The stamp by which the proved program is known: what a proof leaves at its end, and nothing else makes."""

from __future__ import annotations

import hashlib
import os
import pathlib
import subprocess

from .command import Fault

TOP = pathlib.Path(__file__).resolve().parent.parent.parent
WHICH = TOP / "bin" / "which-program"


def program_of(name: str) -> pathlib.Path:
    """The path of the program of a crate."""
    return TOP / "crates" / name / "out" / name


def stamp_of(name: str) -> pathlib.Path:
    """The path of its stamp."""
    return program_of(name).with_suffix(".proved")


def said_by(*words: str | pathlib.Path) -> str:
    """What a command says, which has to end well."""
    try:
        return subprocess.run(words, stdin=subprocess.DEVNULL, stdout=subprocess.PIPE, check=True, text=True).stdout.strip()
    except FileNotFoundError:
        raise Fault(f"the command {words[0]} is not on the PATH (see README.md)") from None
    except subprocess.CalledProcessError as ended:
        raise Fault(f"{' '.join(map(str, words))} ended with status {ended.returncode}") from None


def sources(name: str) -> str:
    """The hash of the sources of a crate's program as they stand."""
    return said_by(WHICH, "--sources", "--of", name)


def is_there(name: str) -> bool:
    """Whether the proved program of these sources is there."""
    quiet = subprocess.DEVNULL
    return subprocess.run([WHICH, "--proved", "--of", name], stdin=quiet, stdout=quiet, check=False).returncode == 0


def remove(name: str) -> None:
    """Takes the stamp and the program away: what stands there behind a proof was made by it."""
    for path in (stamp_of(name), program_of(name)):
        path.unlink(missing_ok=True)


def write(name: str, before: str) -> None:
    """Leaves the stamp of a program that was proved just now, of the sources with this hash."""
    if sources(name) != before:
        raise Fault("a source was changed meanwhile, so this is no proof of the sources as they stand: call bin/prove again")
    program, stamp = hashlib.sha256(program_of(name).read_bytes()).hexdigest(), stamp_of(name)
    new = stamp.with_suffix(f".{os.getpid()}")
    try:
        new.write_text(f"program {program}\nsources {before}\nkit {said_by('rt', 'version')}\n", encoding="utf-8")
        os.replace(new, stamp)
    finally:
        new.unlink(missing_ok=True)
