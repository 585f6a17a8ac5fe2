"""Silent failures of small plans as they are counted by hand: each number that `tools/what-if` tells of each case.

Hold times are 180 ticks, so a KeepAlive is put in ticks 60, 120 and 180, and a tick is a second. What is said takes 0.01 s. The later edge of
each two neighbours has the larger address, and so begins: its Initialization is heard in round 1 behind a mending, the answer in round 2 and the
end's mapping with the KeepAlive behind it in round 2 too, and the other end's mapping in round 3, by four messages. A spoke is used by a fifth
one, in that round. Each site says a broadcast, and a frame to the next circuit."""

from __future__ import annotations

from typing import NamedTuple

TYPE_CHECKING = False
if TYPE_CHECKING:
    Moment = tuple[str, int, int]
    Sites = set[str]
    Counts = dict[str, int]

FAILED, MENDED = "failed", "mended"


class Span(NamedTuple):
    """From and until when (the stage, and the tick and round in it); the ticks and rounds between them, or behind the mending; at which
    seconds of these stages; and which part of the time between them, or behind the mending, it takes to find out and to tell."""

    start: Moment
    end: Moment
    ticks: int
    rounds: int
    begins: float
    ends: float
    detection: float
    signalling: float


class Lost(NamedTuple):
    """The sites that lost others, and for how long."""

    sites: Sites
    others: Sites
    span: Span


class Right(NamedTuple):
    """A case: who lost whom; the sites of a dead edge; how many frames never come to whom at once, and once all is delivered; and in
    which round the last thing is delivered while the failure stands, in any of its ticks, and once it is mended. Nothing comes twice or
    back, nothing that is learned leads astray in the end, and all services are calm again."""

    lost: list[Lost]
    gone: list[str]
    at_once: Counts
    failed: Counts
    rounds: tuple[int, int]


UNTIL_MENDED = Span((FAILED, 0, 0), (MENDED, 0, 3), 0, 3, 0.0, 0.04, 0.0, 0.04)
SPOKE_MENDED = Span((FAILED, 0, 0), (MENDED, 0, 3), 0, 3, 0.0, 0.05, 0.0, 0.05)
BACK = Span((MENDED, 0, 0), (MENDED, 0, 3), 0, 3, 0.0, 0.04, 0.0, 0.04)
SPOKE_BACK = Span((MENDED, 0, 0), (MENDED, 0, 3), 0, 3, 0.0, 0.05, 0.0, 0.05)
# The spoke edge finds out, and tells its other core edge; what it hears first may be that the old one has given up.
MOVED = Span((FAILED, 0, 0), (FAILED, 180, 1), 180, 1, 0.0, 180.01, 180.0, 0.01)
TOLD_AND_MOVED = Span((FAILED, 0, 0), (FAILED, 180, 1), 180, 1, 0.0, 180.02, 180.0, 0.02)
# The spoke edge goes back to its first spoke, and hears nobody between two messages.
RETURNS = Span((MENDED, 0, 3), (MENDED, 0, 3), 0, 0, 0.04, 0.05, 0.0, 0.01)

# Two edges. Where one direction carries, the end that expires tells the other one in round 1 of that tick.
PARIS = [Lost({"paris"}, {"lyon", "metz"}, UNTIL_MENDED)]
PARIS_BACK = [Lost({"paris"}, {"lyon", "metz"}, BACK)]
APART = {"paris": 3, "lyon": 2, "metz": 1}
CROSS = {
    "silent a": Right(PARIS_BACK, ["lyon", "metz"], {}, {}, (0, 3)),
    "silent b": Right(PARIS_BACK, ["paris"], {}, {}, (0, 3)),
    "silent a b": Right(PARIS, [], APART, APART, (0, 3)),
    "silent a to b": Right(PARIS, [], {"paris": 3}, APART, (1, 3)),
    "silent b to a": Right(PARIS, [], {"lyon": 2, "metz": 1}, APART, (1, 3)),
}

# Three edges in full mesh: lyon sends to paris, paris to metz, metz to lyon, and each to all. The others' KeepAlives are delivered in
# round 1 of a tick.
LYON_PARIS, LYON_METZ, PARIS_METZ = {"paris": 2, "lyon": 1}, {"lyon": 2, "metz": 1}, {"metz": 2, "paris": 1}
FULL = {
    "silent a": Right([Lost({"lyon"}, {"paris", "metz"}, BACK)], ["lyon"], {}, {}, (1, 3)),
    "silent b": Right([Lost({"paris"}, {"lyon", "metz"}, BACK)], ["paris"], {}, {}, (1, 3)),
    "silent c": Right([Lost({"metz"}, {"lyon", "paris"}, BACK)], ["metz"], {}, {}, (1, 3)),
    "silent a b": Right([Lost({"lyon"}, {"paris"}, UNTIL_MENDED)], [], LYON_PARIS, LYON_PARIS, (1, 3)),
    "silent a c": Right([Lost({"lyon"}, {"metz"}, UNTIL_MENDED)], [], LYON_METZ, LYON_METZ, (1, 3)),
    "silent b c": Right([Lost({"paris"}, {"metz"}, UNTIL_MENDED)], [], PARIS_METZ, PARIS_METZ, (1, 3)),
    "silent a to b": Right([Lost({"lyon"}, {"paris"}, UNTIL_MENDED)], [], {"paris": 2}, LYON_PARIS, (1, 3)),
    "silent b to a": Right([Lost({"lyon"}, {"paris"}, UNTIL_MENDED)], [], {"lyon": 1}, LYON_PARIS, (1, 3)),
    "silent a to c": Right([Lost({"lyon"}, {"metz"}, UNTIL_MENDED)], [], {"metz": 1}, LYON_METZ, (1, 3)),
    "silent c to a": Right([Lost({"lyon"}, {"metz"}, UNTIL_MENDED)], [], {"lyon": 2}, LYON_METZ, (1, 3)),
    "silent b to c": Right([Lost({"paris"}, {"metz"}, UNTIL_MENDED)], [], {"metz": 2}, PARIS_METZ, (1, 3)),
    "silent c to b": Right([Lost({"paris"}, {"metz"}, UNTIL_MENDED)], [], {"paris": 1}, PARIS_METZ, (1, 3)),
}

# A spoke edge x with a spoke to a, which it uses, and one to b, where there is no site; c has one. Where x takes the other spoke, b hears so in
# round 1, and passes the withdrawal of addresses on to c in round 2; where it comes back, a hears so in round 3, and passes it on in round 4, to b,
# which passes it on by its own spoke in that round.
CC, CX = [Lost({"cc"}, {"ca", "cx"}, UNTIL_MENDED)], {"cx"}
ALL_OF_CC = {"cc": 3, "cx": 2, "ca": 1}
GOES_BACK = Lost(CX, {"ca", "cc"}, RETURNS)
MOVES = {
    "silent a": Right([Lost(CX, {"cc"}, MOVED), Lost({"ca"}, {"cc", "cx"}, BACK), GOES_BACK], ["ca"], {"cx": 2, "cc": 1}, {}, (2, 4)),
    "silent b": Right([], [], {}, {}, (1, 3)),
    "silent c": Right([Lost({"cc"}, {"ca", "cx"}, BACK)], ["cc"], {}, {}, (1, 3)),
    "silent x": Right([Lost(CX, {"ca", "cc"}, SPOKE_BACK)], ["cx"], {}, {}, (1, 4)),
    "silent a b": Right([], [], {}, {}, (1, 3)),
    "silent a c": Right(CC, [], ALL_OF_CC, ALL_OF_CC, (1, 3)),
    "silent b c": Right([], [], {}, {}, (1, 3)),
    "silent a x": Right([Lost(CX, {"ca", "cc"}, MOVED), GOES_BACK], [], {"cx": 3, "ca": 2, "cc": 1}, {}, (2, 4)),
    "silent b x": Right([], [], {}, {}, (1, 3)),
    "silent a to b": Right([], [], {}, {}, (1, 3)),
    "silent b to a": Right([], [], {}, {}, (1, 3)),
    "silent a to c": Right(CC, [], {"cc": 3}, ALL_OF_CC, (1, 3)),
    "silent c to a": Right(CC, [], {"cx": 2, "ca": 1}, ALL_OF_CC, (1, 3)),
    "silent b to c": Right([], [], {}, {}, (1, 3)),
    "silent c to b": Right([], [], {}, {}, (1, 3)),
    "silent a to x": Right([Lost(CX, {"ca", "cc"}, MOVED), GOES_BACK], [], {"cx": 3}, {}, (2, 4)),
    "silent x to a": Right([Lost(CX, {"ca", "cc"}, TOLD_AND_MOVED), GOES_BACK], [], {"ca": 2, "cc": 1}, {}, (2, 4)),
    "silent b to x": Right([], [], {}, {}, (1, 3)),
    "silent x to b": Right([], [], {}, {}, (1, 3)),
}

# Four core edges with a site each, and two spoke edges: a mesh wire, a core edge, and a spoke in one direction alone.
ONE_SPOKE = {"ca": 2, "cb": 1, "cc": 1, "cd": 1, "cx": 1}
MESHED = {
    "silent b c": Right([Lost({"cb"}, {"cc", "cy"}, UNTIL_MENDED)], [], {"cb": 2, "cc": 2, "cy": 1}, {"cb": 2, "cc": 2, "cy": 1}, (1, 3)),
    "silent d": Right([Lost({"cd"}, {"ca", "cb", "cc", "cx", "cy"}, BACK)], ["cd"], {}, {}, (1, 3)),
    "silent y to c": Right([Lost({"cy"}, {"ca", "cb", "cc", "cd", "cx"}, SPOKE_MENDED)], [], ONE_SPOKE, {"cy": 6, **ONE_SPOKE}, (1, 4)),
}
# The plans, the event before which their set-up ends, and their cases: all of them but of the last one.
BY_HAND = [("frames-cross", "3", CROSS), ("full-mesh", "5", FULL), ("spoke-moves", "11", MOVES), ("session-lost", "lose b c", MESHED)]
WHOLE = [name for name, _, cases in BY_HAND if cases is not MESHED]
