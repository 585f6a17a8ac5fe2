"""What each edge makes of its pseudowires, worked out from the LDP that it said and heard (docs/BEHAVIOUR.md, The end of a pseudowire)."""

from __future__ import annotations

from collections import deque

TYPE_CHECKING = False
if TYPE_CHECKING:
    from collections.abc import Iterator
    from typing import Any

    from .lab_sessions import Step
    from .plan import Plan

FAULTS, STANDBY = 0x1F, 0x20
STATUS_CODE = "40"
# The PW type of Ethernet in tagged mode (RFC 4446 section 3.2).
TAGGED_MODE = "4"
# Messages about labels that the program does not process, but of which the wire is not known: it is what they might have told that counts.
DOUBTFUL = {f"type={kind}" for kind in (0x0400, 0x0402, 0x0403)}

Key = tuple[str, str, str]


class End:
    """What an end of a pseudowire has told, and what it holds of the other end: of each the words of the mapping, and the status."""

    def __init__(self) -> None:
        self.told: dict[str, str] | None = None
        self.held: dict[str, str] | None = None
        self.own, self.other = 0, 0

    def state(self) -> str:
        """Why it does not forward, or that it does."""
        told, held = self.told, self.held
        if told is None or held is None:
            return "NoLocal" if told is None else "NoRemote"
        (bit, kind, *_), (other_bit, other_kind, *_) = told["fec"].split("/"), held["fec"].split("/")
        tests = {
            "CBit": bit != other_bit,
            "Kind": kind != other_kind,
            "Mtu": "mtu" in told and "mtu" in held and told["mtu"] != held["mtu"],
            "LocalFault": self.own & FAULTS,
            "RemoteFault": self.other & FAULTS,
            "Standby": (self.own | self.other) & STANDBY,
        }
        return next((cause for cause, is_so in tests.items() if is_so), "up")


class WiresOfLdp:
    """Follows the steps of all sessions. `labels` has, by an edge, a neighbour and a label that the neighbour has told to the edge, the
    wire, whether a control word follows, and whether frames have a tag of the wire."""

    def __init__(self, plan: Plan) -> None:
        self.plan = plan
        self.ends: dict[Key, End] = {}
        self.wires: dict[Key, Any] = {}
        for wire in plan.wires.values():
            for a, b in wire.segments():
                for key in ((a, b, str(wire.pw_id)), (b, a, str(wire.pw_id))):
                    self.ends[key], self.wires[key] = End(), wire
        self.pipes: dict[tuple[str, str], deque[list[Any]]] = {}
        self.labels: dict[tuple[str, str, int], tuple[Any, bool, bool]] = {}
        self.states: dict[tuple[str, str], str] = {}

    def take(self, step: Step) -> Iterator[tuple[str, str, str]]:
        """Takes a step, and answers each terminal end whose state is another one now: its edge, its wire and its state."""
        way = step.edge, step.peer
        if step.kind == "connect":
            self.pipes[way], self.pipes[way[::-1]] = deque(), deque()
            touched = self.forget(way, way[::-1])
        elif step.kind == "lose":
            touched = self.forget(way)
        elif step.kind == "gap":
            touched = self.forget(way, way[::-1])
        elif step.kind == "said":
            self.pipes.setdefault(way, deque()).append([len(step.octets), step.messages])
            touched = [key for message in step.messages for key in self.said(way, message)]
        else:
            messages = self.heard(way, step.count)
            touched = [key for message in messages for key in self.hear(way[::-1], message)]
        for key in touched:
            wire = self.wires[key]
            end = key[0], wire.name
            state = self.ends[key].state()
            if key[0] in wire.ends() and self.states.get(end, "NoLocal") != state:
                self.states[end] = state
                yield key[0], wire.name, state

    def forget(self, *ways: tuple[str, str]) -> list[Key]:
        """All that edges have told to a neighbour and hold of it is gone."""
        touched = [key for key in self.ends if key[:2] in ways]
        for key in touched:
            self.ends[key] = End()
        return touched

    def heard(self, way: tuple[str, str], count: int) -> list[str]:
        """The messages that are heard whole by so many octets more."""
        found: list[str] = []
        pipe = self.pipes.setdefault(way, deque())
        while pipe and count >= pipe[0][0]:
            count -= pipe[0][0]
            found += pipe.popleft()[1]
        if pipe:
            pipe[0][0] -= count
        return found

    def keys_of(self, way: tuple[str, str], words: dict[str, str], of_other: bool) -> list[Key]:
        """The ends at the first of two edges that a message speaks of: of a PW ID, or of a group."""
        fec = words.get("fec", "").split("/")
        if len(fec) != 4:
            return []
        if fec[3] != "*":
            key = (*way, fec[3])
            return [key] if key in self.ends else []
        found = [key for key in self.ends if key[:2] == way]
        parts = {key: self.ends[key].held if of_other else self.ends[key].told for key in found}
        return [key for key, part in parts.items() if part is not None and part["fec"].split("/")[2] == fec[2]]

    def said(self, way: tuple[str, str], message: str) -> list[Key]:
        """An edge has said a message."""
        name, words = parsed(message)
        if is_doubtful(name, words):
            return self.forget(way)
        keys = self.keys_of(way, words, False)
        for key in keys:
            end = self.ends[key]
            if name == "LabelMapping":
                end.told, end.own = words, int(words.get("status", "0"))
                if "label" in words:
                    bit, kind = words["fec"].split("/")[:2]
                    self.labels[way[1], way[0], int(words["label"])] = self.wires[key], bit == "1", kind == TAGGED_MODE
            elif name == "LabelWithdraw":
                end.told = None
            elif name == "LabelRelease" and end.held is not None and words.get("label") in (None, end.held.get("label")):
                end.held = None
            elif is_status(name, words):
                end.own = int(words["status"])
        return keys

    def hear(self, way: tuple[str, str], message: str) -> list[Key]:
        """An edge, the first of two, has heard a message of the other one."""
        name, words = parsed(message)
        if is_doubtful(name, words):
            return self.forget(way)
        keys = self.keys_of(way, words, name != "LabelRelease")
        for key in keys:
            end = self.ends[key]
            if name == "LabelMapping":
                end.held, end.other = words, int(words.get("status", "0"))
            elif name == "LabelWithdraw" and end.held is not None and (words["fec"].endswith("*") or words.get("label") in (None, end.held.get("label"))):
                end.held = None
            elif name == "LabelRelease" and end.told is not None and words.get("label") in (None, end.told.get("label")):
                end.told = None
            elif is_status(name, words):
                end.other = int(words["status"])
        return keys


def parsed(message: str) -> tuple[str, dict[str, str]]:
    """The name of a message as the program tells it, and its parts by their names."""
    name, *parts = message.split(" ")
    return name, dict(part.partition("=")[::2] for part in parts)


def is_status(name: str, words: dict[str, str]) -> bool:
    """Whether a message tells the status of a pseudowire (RFC 8077 section 6.3.2)."""
    return name == "Notification" and "status" in words and words.get("code", "").split("/")[2:3] == [STATUS_CODE]


def is_doubtful(name: str, words: dict[str, str]) -> bool:
    """Whether a message is about labels of pseudowires, and was not processed. What names another FEC than one of pseudowires is not."""
    return name == "Unprocessed" and f"type={words.get('type')}" in DOUBTFUL and not words.get("why", "").startswith("UnknownFec")
