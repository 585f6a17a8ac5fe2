"""The packets of frames by their numbers, where some of them are on ways that are silent: these are lost, and the others arrive in the
order of their numbers. Numbers are given as packets are sent, so which are which is foretold by what an earlier report showed."""

from __future__ import annotations

TYPE_CHECKING = False
if TYPE_CHECKING:
    from collections.abc import Iterable

    from .silence import Way

    # A packet by the frame that it comes of, and the ways and wires that it came: each is an edge, a neighbour and a wire.
    Step = tuple[str, str, str]
    Path = tuple[int, tuple[Step, ...]]


class Arrivals:
    """What each packet of some frames makes where it arrives: the steps of those that are sent then, in their order."""

    def __init__(self) -> None:
        self.steps: dict[Path, list[Step]] = {}

    def copy(self) -> Arrivals:
        """The same, which other reports may correct."""
        made = Arrivals()
        made.steps = dict(self.steps)
        return made

    def learn(self, lines: Iterable[str], frames: Iterable[int], first: int) -> bool:
        """Takes what the lines of a report show of these frames and their packets, the first of which has this number; answers whether
        they showed something other than what was foretold."""
        paths: dict[int, Path] = {}
        seen: dict[Path, list[Step]] = {}
        left, packet = iter(frames), first
        now: Path | None = None
        for line in lines:
            kind, _, rest = line.partition(" ")
            if kind == ">":
                word, _, rest = rest.partition(" ")
                now = None
                if word == "frame":
                    frame = next(left, None)
                    if frame is None:
                        break
                    now = (frame, ())
                elif word == "arrive":
                    now = paths.get(int(rest))
                if now is not None:
                    seen[now] = []
            elif kind == "sent" and now is not None:
                _, edge, peer, wire, _ = rest.split(" ", 4)
                seen[now].append((edge, peer, wire))
                paths[packet] = (now[0], (*now[1], (edge, peer, wire)))
                packet += 1
        is_new = any(self.steps.get(path, []) != steps for path, steps in seen.items())
        self.steps.update(seen)
        return is_new

    def events(self, frame: int, silent: set[Way], first: int) -> tuple[list[str], int]:
        """The events behind a frame by which its packets arrive or are lost, the first of which has this number; and the next number."""
        events, number = [], first
        open_packets: list[tuple[int, tuple[Step, ...]]] = []
        for step in self.steps.get((frame, ()), []):
            open_packets.append((number, (step,)))
            number += 1
        while open_packets:
            packet, path = open_packets.pop(0)
            if path[-1][:2] in silent:
                events.append(f"drop {packet}")
                continue
            events.append(f"arrive {packet}")
            for step in self.steps.get((frame, path), []):
                open_packets.append((number, (*path, step)))
                number += 1
        return events, number
