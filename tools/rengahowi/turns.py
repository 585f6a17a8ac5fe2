"""One at a time: the lock of a file, for which others wait until whoever has it has ended."""

from __future__ import annotations

import fcntl
import time

TYPE_CHECKING = False
if TYPE_CHECKING:
    from collections.abc import Callable
    from typing import IO, Any

# How often it is looked at, in seconds.
LOOK = 0.1


def wait_until(is_so: Callable[[], bool], is_wanted: Callable[[], bool] = lambda: True) -> None:
    """Waits until something is so, as long as it is wanted; else it ends as an interrupt does."""
    while not is_so():
        if not is_wanted():
            raise KeyboardInterrupt
        time.sleep(LOOK)


def take_turn(lock: IO[Any], tell: Callable[[], None], is_wanted: Callable[[], bool] = lambda: True) -> None:
    """Takes the lock of a file, until that is closed. Where another has it, that is told once, and waited for."""
    told = False

    def is_taken() -> bool:
        nonlocal told
        try:
            fcntl.flock(lock, fcntl.LOCK_EX | fcntl.LOCK_NB)
            return True
        except BlockingIOError:
            if not told:
                tell()
            told = True
            return False

    wait_until(is_taken, is_wanted)
