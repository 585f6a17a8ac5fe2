"""What the program makes of a scenario, as bytes."""

from __future__ import annotations

import subprocess

from . import program
from .command import Fault

TYPE_CHECKING = False
if TYPE_CHECKING:
    import pathlib


def replayed(path: str | pathlib.Path) -> bytes:
    """The report of a scenario, which has to end well."""
    return called("replay", path)


def called(word: str, *paths: str | pathlib.Path) -> bytes:
    """What the program makes of a scenario, or of one and a script, which has to end well."""
    done = subprocess.run([program.path(), word, *paths], stdin=subprocess.DEVNULL, capture_output=True, check=False)
    if done.returncode != 0:
        raise Fault(done.stderr.decode(errors="replace").strip() or f"the program ended with status {done.returncode}")
    return done.stdout
