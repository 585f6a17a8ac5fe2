"""What a report shows of a course while something is silent: when each end put and heard something last, and what was left over."""

from __future__ import annotations

TYPE_CHECKING = False
if TYPE_CHECKING:
    from .network import Network
    from .silence import Silence, Way
    from .timers import Timers


class Watch:
    """The ticks of a course, each looked at once it is over."""

    def __init__(self, network: Network, silence: Silence, timers: Timers) -> None:
        self.network, self.silence, self.timers = network, silence, timers.copy()
        self.said: set[Way] = set()
        # The first tick at whose end something was left on a way that is not silent; whether something came on one that is; whether
        # some end still waits for what it does not hear.
        self.undelivered: int | None = None
        self.leaks, self.waiting, self.is_over = False, False, False

    def say(self, way: Way) -> None:
        """Something is put on a way."""
        if not self.is_over:
            self.timers.put[way] = self.timers.tick
            self.said.add(way)

    def deliver(self, way: Way) -> None:
        """Something is about to be delivered on a way."""
        if way in self.silence.ways and not self.is_over:
            self.end()
            self.leaks = True
        if not self.is_over:
            self.timers.heard[way[::-1]] = self.timers.tick

    def tick(self) -> None:
        """The next tick begins."""
        self.look()
        self.timers.tick += 1

    def look(self) -> None:
        """A tick is over: nothing is left but on what is silent."""
        pipes = self.network.pipes
        left = [way for way in self.said if way not in self.silence.ways and not pipes[way].is_drained()]
        if left and self.undelivered is None:
            self.undelivered = self.timers.tick
        self.said.clear()

    def end(self) -> None:
        """The course is over."""
        if not self.is_over:
            self.look()
            self.is_over = True
            self.timers.ends = set(self.network.stands)
            self.waiting = any(end[::-1] in self.silence.ways for end in self.timers.ends)
