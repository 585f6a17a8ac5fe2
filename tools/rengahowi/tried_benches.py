"""The checks of the benches: that each of them runs, at a small size. What one measures then tells nothing, and is not looked at."""

from __future__ import annotations

import pathlib

from .program import UNPROVED_STATUS, is_proved
from .rows import Part, table
from .trying import TOP, compare, run

TYPE_CHECKING = False
if TYPE_CHECKING:
    from collections.abc import Iterator

BENCH = TOP / "bench"
# These take a small size, and need the program alone.
SMALL = (
    "audit", "chains", "decode", "frames", "hierarchy", "hub", "labels", "migrate", "moves", "pings", "play", "read-scenario",
    "replay-broadcasts", "sessions", "set-up", "survey", "ticks", "worst",
)
# These need another program, which a proof makes first, or hours.
OTHERS = {"configs", "hear", "learning", "proof-times", "refusals", "rehearse", "soak", "strength"}


def listed(_folder: pathlib.Path) -> Iterator[bool]:
    """Each bench is known here."""
    names = {path.name for path in BENCH.iterdir() if path.is_file() and not path.suffix}
    yield compare("benches", sorted(names - OTHERS), sorted(SMALL))


def small(folder: pathlib.Path, name: str) -> Iterator[bool]:
    """A bench runs at a small size, tells its words, and refuses others."""
    done = run([BENCH / name, "--small"], folder, text=True)
    # An unproved program's run ends with a status of its own, and one line that says so.
    ends = (0, 0) if is_proved() else (UNPROVED_STATUS, 1)
    yield compare(f"bench/{name} --small", (done.returncode, done.stderr.count("\n")), ends)
    yield compare(f"bench/{name} says what it measured", bool(done.stdout.strip()), True)
    words = [run([BENCH / name, word], folder, text=True) for word in ("--help", "--other")]
    yield compare(f"bench/{name} --help, --other", [one.returncode for one in words], [0, 2])


benches = Part(
    "Benches: each one that needs the program alone runs at a small size, tells its words, and refuses others.",
    {"listed": listed, **table(SMALL, str, small)},
)
