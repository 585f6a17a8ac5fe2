"""A report of `replay` or `discover`: its events in order, each with the entries that it told (docs/FORMATS.md). A text of
`switchover` is read in the same way, its lines as events.

Most reports are long and right, so all words of a kind of line are looked at together; where something is wrong with them, the lines are
read one by one, and the first one that is wrong is told."""

from __future__ import annotations

from .command import Fault, lines_of
from .event_kinds import told_events

TYPE_CHECKING = False
if TYPE_CHECKING:
    import os
    from collections.abc import Iterable
    from typing import Any

    from .plan import Plan

# The words of each kind of entry behind its first one: what they name or are.
ENTRIES = {
    "idle": (),
    "said": ("edge", "edge", "octets"),
    "in": ("circuit", "number", "octets"),
    "sent": ("number", "edge", "edge", "wire", "arrival", "number", "number", "octets"),
    "copied": ("number", "number"),
    "aged": ("number",),
    "left": ("circuit", "number", "number", "octets"),
    "dropped": ("edge", "number", "word"),
    "session": ("edge", "edge", "word"),
    "wire": ("edge", "wire", "word"),
    "pong": ("edge", "wire", "number"),
    "hello": ("number", "edge", "edge", "octets"),
    "adjacency": ("edge", "edge", "word"),
    "barred": ("edge", "edge"),
}
# Those that lines of a script tell, which no event belongs to.
NOTES = {"hello", "adjacency", "barred", "idle"}
# The words of each kind of event behind its first one.
EVENTS = told_events()
# The same of a text of `switchover`.
SWITCH_ENTRIES = {"idle": (), "said": ("edge", "edge", "octets"), "uses": ("edge", "wire", "word")}
SWITCH_EVENTS = {
    "connect": ("edge", "edge"),
    "cut": ("edge", "edge"),
    "deliver": ("edge", "edge", "number"),
    "settle": ("number",),
    "active": ("edge", "wire"),
    "standby": ("edge", "wire"),
    "ask": ("edge", "wire"),
}


REPORT, SWITCHOVER = "vplsnet 1", "switchover 1"
# The first line of each text, with its events and entries.
TABLES_BEHIND = {REPORT: (EVENTS, ENTRIES), SWITCHOVER: (SWITCH_EVENTS, SWITCH_ENTRIES)}
# What always applies, and is idle by no entry.
ALWAYS = ("restart", "tick")


class Entry:
    """A line of the report, counted from 1: its kind, and the words behind it; of a number the number."""

    __slots__ = ("line", "kind", "words")

    def __init__(self, line: int, kind: str, words: tuple[Any, ...]) -> None:
        self.line, self.kind, self.words = line, kind, words


class Event:
    """An event of the run, counted from 1 as the report does, with the entries that it told."""

    __slots__ = ("number", "line", "kind", "words", "text", "entries")

    def __init__(self, number: int, line: int, kind: str, words: tuple[Any, ...], text: str) -> None:
        self.number, self.line, self.kind, self.words, self.text = number, line, kind, words, text
        self.entries: list[Entry] = []

    def is_idle(self) -> bool:
        """Whether it did not apply, and changed nothing, as far as its entries tell. In a report of `discover` that may be a line of the
        script by itself, which `Network.is_idle` tells apart; here it is taken for the event's, unless the event always applies."""
        return bool(self.entries) and self.entries[0].kind == "idle" and self.kind not in ALWAYS


class Words:
    """Reads the words of lines over the names of a plan, of a text with this first line."""

    def __init__(self, plan: Plan, path: str | os.PathLike[str], head: str = REPORT) -> None:
        self.path, self.head = path, head
        self.events, self.entries = TABLES_BEHIND[head]
        self.known: dict[str, dict[str, Any]] = {"edge": plan.edges, "circuit": plan.circuits, "wire": plan.wires}

    def fault(self, line: int, text: str) -> Fault:
        """A fault with its place."""
        return Fault(f"{self.path}, line {line}: {text}")

    def read(self, line: int, kinds: tuple[str, ...], text: str) -> tuple[Any, ...]:
        """The words of a line behind its first one, by what each of them is: of a number the number."""
        words = text.split(" ")[1:]
        if len(words) != len(kinds) or not all(map(looks_right, kinds, words)):
            raise self.bad_line(line, kinds, text)
        for kind, word in zip(kinds, words):
            if kind in self.known and word not in self.known[kind]:
                raise self.fault(line, f"the scenario has no {kind} {word!r}: is this the report of another scenario?")
        if any(kind == "octets" and len(word) % 2 for kind, word in zip(kinds, words)):
            raise self.bad_line(line, kinds, text)
        return tuple(int(word) if kind == "number" else word for kind, word in zip(kinds, words))

    def bad_line(self, line: int, kinds: tuple[str, ...], text: str) -> Fault:
        """What is wrong with a line whose words are not those of its kind."""
        words = text.split(" ")
        if len(words) != len(kinds) + 1:
            return self.fault(line, f"{words[0]!r} has {len(kinds)} words behind it, and not {len(words) - 1}")
        for kind, word in zip(kinds, words[1:]):
            if kind == "number" and not looks_right(kind, word):
                return self.fault(line, f"{word!r} is no number")
            if kind == "octets" and (len(word) % 2 or not looks_right(kind, word)):
                return self.fault(line, f"{word[:20]!r} has no pairs of lower-case hexadecimal digits")
        return self.fault(line, "a word is empty")

    def are_right(self, rows: list[list[str]]) -> bool:
        """Whether lines, each as the list of its words, are those of a report, and no number has a zero in front."""
        events: dict[str, list[list[str]]] = {kind: [] for kind in self.events}
        entries: dict[str, list[list[str]]] = {kind: [] for kind in self.entries}
        try:
            for row in rows:
                if row[0] == ">":
                    events[row[1]].append(row)
                else:
                    entries[row[0]].append(row)
        except (KeyError, IndexError):
            return False
        front = next((place for place, row in enumerate(rows) if row[0] == ">"), len(rows))
        return (
            all(self.head == REPORT and row[0] in NOTES for row in rows[:front])
            and all(self.are_columns(kinds, 2, events[kind]) for kind, kinds in self.events.items())
            and all(self.are_columns(kinds, 1, entries[kind]) for kind, kinds in self.entries.items())
        )

    def are_columns(self, kinds: tuple[str, ...], first: int, rows: list[list[str]]) -> bool:
        """Whether the words of lines of one kind, from a place on, are of these kinds."""
        if any(length != first + len(kinds) for length in set(map(len, rows))):
            return False
        return all(self.is_column(kind, [row[place] for row in rows]) for place, kind in enumerate(kinds, first))

    def is_column(self, kind: str, words: list[str]) -> bool:
        """Whether all of these words are of a kind."""
        if kind in self.known:
            return self.known[kind].keys() >= set(words)
        text = " ".join(words)
        if kind == "octets":
            try:
                return bytes.fromhex(text).hex() == "".join(words)
            except ValueError:
                return False
        if kind == "number":
            has_fronts = " 0" in f" {text}" and any(word[:1] == "0" and word != "0" for word in words)
            return not words or text.isascii() and text.replace(" ", "").isdigit() and "" not in words and not has_fronts
        return len(text.split()) == len(words)


def looks_right(kind: str, word: str) -> bool:
    """Whether a word looks as those of a kind do; a name is looked up in the plan."""
    if kind == "number":
        return word.isascii() and word.isdigit()
    if kind == "octets":
        return not word.strip("0123456789abcdef")
    return word != "" and not any(blank in word for blank in "\t\r\v\f")


class Report:
    """A report: the words of its lines between the first one and the last one, and the last one as it stands."""

    def __init__(self, words: Words, lines: list[str], ending: str) -> None:
        self.ending, self.words, self.lines = ending, words, lines
        self.read: tuple[list[Event], list[Entry]] | None = None
        self.rows = [line.split(" ") for line in lines]
        if not words.are_right(self.rows):
            self.rows = [written_anew(entry) for entry in self.front]
            for event in self.events:
                self.rows += [[">", *written_anew(event)], *map(written_anew, event.entries)]

    @property
    def events(self) -> list[Event]:
        """Its events in order, each with the entries that it told."""
        return self.events_and_front()[0]

    @property
    def front(self) -> list[Entry]:
        """What a script's lines told before the first event."""
        return self.events_and_front()[1]

    def events_and_front(self) -> tuple[list[Event], list[Entry]]:
        """Both, which are read from the lines when somebody asks for them."""
        if self.read is None:
            front: list[Entry] = []
            events = events_of(self.words, enumerate(self.lines, 2), 1, front if self.words.head == REPORT else None)
            self.read = events, front
        return self.read


def written_anew(told: Entry | Event) -> list[str]:
    """The words of an event or an entry, no number with a zero in front."""
    return [told.kind, *map(str, told.words)]


def read_report(path: str | os.PathLike[str], plan: Plan, heads: tuple[str, ...] = (REPORT,)) -> Report:
    """The report of a file, of a run over this plan; or a text of `switchover`, for who takes both."""
    lines = lines_of(path)
    if lines[0] == SWITCHOVER and SWITCHOVER not in heads:
        raise Fault(f"{path}, line 1: a text of `switchover` has no frames and no sessions: tools/ladder and tools/to-pcap read it, and no others")
    if lines[0] not in heads:
        raise Fault(f"{path}, line 1: a report begins with 'vplsnet 1'")
    if len(lines) < 3 or lines[-1] or not lines[-2].startswith(("end ", "stop ")):
        raise Fault(f"{path} has no last line 'end ..' or 'stop ..': it is not whole")
    return Report(Words(plan, path, lines[0]), lines[1:-2], lines[-2])


def events_of(words: Words, lines: Iterable[tuple[int, str]], first: int, front: list[Entry] | None = None) -> list[Event]:
    """The events of lines, each with its number in the report; the first one has this number. What a script's lines told before it
    is put in front."""
    events: list[Event] = []
    for line, text in lines:
        kind = text.partition(" ")[0]
        if kind == ">":
            text = text[2:]
            kind = text.partition(" ")[0]
            if kind not in words.events:
                raise words.fault(line, f"{kind!r} is no event")
            events.append(Event(len(events) + first, line, kind, words.read(line, words.events[kind], text), text))
        elif kind in words.entries and (events or front is not None and kind in NOTES):
            entries = front if front is not None and not events else events[-1].entries
            entries.append(Entry(line, kind, words.read(line, words.entries[kind], text)))
        else:
            raise words.fault(line, f"{kind!r} is no entry that may stand here")
    return events
