"""Does one piece of work after another on several processors, tells how far it is, and keeps what is done where it is interrupted."""

from __future__ import annotations

import contextlib
import multiprocessing
import os
import pathlib
import signal
import sys
import tempfile
import time
from multiprocessing import connection

from .command import Fault, line_of, say

TYPE_CHECKING = False
if TYPE_CHECKING:
    from collections.abc import Callable, Sequence
    from typing import Any

    from multiprocessing.connection import Connection

# Seconds between two lines of progress: on a terminal, and else.
ON_TERMINAL, ELSE = 0.5, 10


class Progress:
    """How far it is, on standard error."""

    def __init__(self, whole: int, what: str) -> None:
        self.whole, self.what, self.done = whole, what, 0
        self.begun = self.told = time.monotonic()
        self.is_terminal = sys.stderr is not None and sys.stderr.isatty()

    def step(self) -> None:
        """One piece more is done."""
        self.done += 1
        now = time.monotonic()
        if now - self.told >= (ON_TERMINAL if self.is_terminal else ELSE):
            self.told = now
            left = (now - self.begun) / self.done * (self.whole - self.done)
            text = f"{self.done} of {self.whole} {self.what}, some {max(1, round(left))} s left"
            if self.is_terminal:
                print(f"\r{text}\033[K", end="", file=sys.stderr, flush=True)
            else:
                say(text)

    def end(self) -> None:
        """Nothing more is told: on a terminal the line is cleared."""
        if self.is_terminal:
            print("\r\033[K", end="", file=sys.stderr, flush=True)


class Interrupts:
    """Takes interrupts as long as it lasts. They break nothing off: `came` tells that there was one, and `pipe` can be read from then
    on. Where the caller of the tool has interrupts ignored, they stay so."""

    def __init__(self) -> None:
        self.came = False

    def __enter__(self) -> Interrupts:
        self.pipe, self.end = os.pipe2(os.O_NONBLOCK | os.O_CLOEXEC)
        self.before = signal.getsignal(signal.SIGINT), signal.set_wakeup_fd(self.end, warn_on_full_buffer=False)
        if self.before[0] is not signal.SIG_IGN:
            signal.signal(signal.SIGINT, self.take)
        return self

    def take(self, *_: object) -> None:
        """An interrupt came."""
        self.came = True

    def __exit__(self, *_: object) -> None:
        handler, descriptor = self.before
        signal.set_wakeup_fd(descriptor)
        os.close(self.pipe)
        os.close(self.end)
        signal.signal(signal.SIGINT, handler)


class Worker:
    """A process that does pieces by their numbers, one at a time, in a folder of its own."""

    def __init__(self, pieces: Sequence[Any], work: Callable[[Any, pathlib.Path], Any], folder: pathlib.Path) -> None:
        self.pieces, self.work, self.folder, self.number = pieces, work, folder, 0
        self.pipe, theirs = multiprocessing.Pipe()
        self.process = multiprocessing.get_context("fork").Process(target=self.serve, args=(theirs,), daemon=True)
        self.process.start()
        theirs.close()

    def serve(self, pipe: Connection) -> None:
        """What the process does, until it is ended or who waits for it is gone. An interrupt ends who waits, and not this one."""
        signal.signal(signal.SIGINT, signal.SIG_IGN)
        self.pipe.close()
        with contextlib.suppress(EOFError, OSError):
            while True:
                pipe.send(self.outcome(self.pieces[pipe.recv()]))

    def outcome(self, piece: Any) -> tuple[Any, str | None]:
        """What became of a piece, or the line by which a fault is told."""
        try:
            self.folder.mkdir(exist_ok=True)
            return self.work(piece, self.folder), None
        except Exception as fault:  # pylint: disable=broad-exception-caught
            return None, line_of(fault)

    def give(self, number: int | None) -> None:
        """The next piece, where there is one."""
        if number is not None:
            self.number = number
            with contextlib.suppress(BrokenPipeError):  # `taken` tells it
                self.pipe.send(number)

    def taken(self, what: str) -> Any:
        """What became of the piece."""
        try:
            found, fault = self.pipe.recv()
        except (EOFError, ConnectionResetError):
            self.process.join()
            raise Fault(f"a process that worked at the {what} ended with status {self.process.exitcode}") from None
        if fault is not None:
            raise Fault(fault)
        return found

    def end(self) -> None:
        """Ends the process, whatever it does: it leaves nothing but its folder."""
        self.process.kill()
        self.process.join()
        self.pipe.close()


def all_done(pieces: Sequence[Any], work: Callable[[Any, pathlib.Path], Any], jobs: int, what: str) -> tuple[list[Any], bool]:
    """What `work` makes of each piece, in their order, and whether nothing interrupted it; of those alone that were done where something
    did. It is called with a piece and a folder, in a process of its own."""
    found: dict[int, Any] = {}
    workers: dict[Any, Worker] = {}
    progress, numbers = Progress(len(pieces), what), iter(range(len(pieces)))
    with Interrupts() as interrupts, tempfile.TemporaryDirectory(prefix="what-if-") as folder:
        try:
            for place in range(min(jobs, len(pieces))):
                worker = Worker(pieces, work, pathlib.Path(folder, str(place)))
                workers[worker.pipe] = worker
                worker.give(next(numbers, None))
            while len(found) < len(pieces) and not interrupts.came:
                for pipe in connection.wait([*workers, interrupts.pipe]):
                    if pipe in workers:
                        worker = workers[pipe]
                        found[worker.number] = worker.taken(what)
                        progress.step()
                        worker.give(next(numbers, None))
        finally:
            progress.end()
            for worker in workers.values():
                worker.end()
    return [found[number] for number in sorted(found)], not interrupts.came
