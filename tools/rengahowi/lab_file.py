"""A LAB.toml: the plan of a lab, the captures that were taken there, and what its edges said of their pseudowires."""

from __future__ import annotations

import datetime
import decimal
import glob
import os
import re
import tomllib

from .capture_reading import IN, OUT, SECOND
from .command import Fault, text_of
from .plan import Plan, read_plan

TYPE_CHECKING = False
if TYPE_CHECKING:
    from typing import Any

TIME = (int, float, str, datetime.datetime)
TOP = {"plan": str, "flood": (int, float), "settle": (int, float), "clocks": (int, float), "own": list, "from": TIME, "until": TIME, "capture": list, "table": list}
CAPTURE = {
    "file": str, "circuit": str, "circuits": list, "link": list, "at": str, "edge": str, "direction": str,
    "stations": list, "untagged": bool, "interface": str, "skew": (int, float), "log": str,
}
TABLE = {"file": str, "edge": str, "time": (int, float, datetime.datetime), "skew": (int, float)}
SECONDS = re.compile(r"\d{1,12}(\.\d{1,9})?")
ADDRESS = re.compile(r"[0-9a-fA-F]{2}([:-][0-9a-fA-F]{2}){5}")


def nanoseconds(seconds: float) -> int:
    """A time in nanoseconds."""
    return round(seconds * SECOND)


class Row:
    """A capture: its file, the circuits or the edges at which it was taken, and how it tells directions."""

    def __init__(self, number: int, path: str, keys: dict[str, Any]) -> None:
        self.number, self.path, self.name = number, path, str(keys["file"])
        self.circuits: list[str] = [keys["circuit"]] if "circuit" in keys else list(keys.get("circuits", ()))
        self.link: tuple[str, ...] = tuple(keys.get("link", ()))
        self.at: str = keys.get("at", keys.get("edge", ""))
        self.direction: str = keys.get("direction", "")
        self.stations = {address_of(text, self.name) for text in keys.get("stations", ())}
        self.untagged: bool = keys.get("untagged", False)
        self.interface: str = keys.get("interface", "")
        self.skew = nanoseconds(keys.get("skew", 0))
        self.log: str = os.path.join(os.path.dirname(path), keys["log"]) if "log" in keys else f"{path}.log"

    def is_port(self) -> bool:
        """Whether it was taken at customers' ports."""
        return bool(self.circuits)


class Table:
    """What an edge said of its pseudowires at one time, or a log of several edges."""

    def __init__(self, path: str, name: str, edge: str, time: int | None, skew: int) -> None:
        self.path, self.name, self.edge, self.time, self.skew = path, name, edge, time, skew


class Lab:
    """What a LAB.toml says: its plan, its captures, its tables, and how long things take in the lab, in nanoseconds."""

    def __init__(self, path: str, keys: dict[str, Any], skews: dict[str, float]) -> None:
        self.path, self.folder = path, os.path.dirname(path)
        self.check(keys, TOP, "at the top")
        if "plan" not in keys:
            raise Fault(f"{path} has no key plan: the scenario of the lab, as tools/from-frr makes it")
        self.plan_path = os.path.join(self.folder, keys["plan"])
        self.plan: Plan = read_plan(self.plan_path)
        self.flood, self.settle, self.clocks = (nanoseconds(keys.get(key, usual)) for key, usual in (("flood", 1), ("settle", 1), ("clocks", 0.001)))
        self.begin, self.end = (self.time(keys[key]) if key in keys else None for key in ("from", "until"))
        self.own = {address_of(text, path) for text in keys.get("own", ())}
        self.captures = [self.row(number, row, skews) for number, row in enumerate(keys.get("capture", ()))]
        self.tables = [table for row in keys.get("table", ()) for table in self.tables_of(row)]
        unknown = skews.keys() - {row.name for row in self.captures}
        if unknown:
            raise Fault(f"--skew names {min(unknown)!r}, which is no file of {path}; there are: {', '.join(row.name for row in self.captures)}")
        if not self.captures:
            raise Fault(f"{path} has no [[capture]]")

    def check(self, keys: Any, known: dict[str, Any], where: str) -> None:
        """Keys that are none, and values of another kind."""
        if not isinstance(keys, dict):
            raise Fault(f"{self.path}, {where}: tables are wanted, with two brackets")
        for key, value in keys.items():
            if key not in known:
                raise Fault(f"{self.path}, {where}: {key!r} is no key; there are {', '.join(known)}")
            if not isinstance(value, known[key]) or isinstance(value, bool) and known[key] is not bool:
                raise Fault(f"{self.path}, {where}: {key} has a value of another kind")
            if isinstance(value, list) and key not in ("capture", "table") and not all(isinstance(one, str) for one in value):
                raise Fault(f"{self.path}, {where}: {key} is a list of texts")

    def time(self, found: float | str | datetime.datetime) -> int:
        """A time: in seconds since 1970, as a date, or as a file that has it in seconds."""
        if isinstance(found, str):
            text = text_of(os.path.join(self.folder, found)).strip()
            if not SECONDS.fullmatch(text):
                raise Fault(f"{found}: {text[:40]!r} is no time in seconds since 1970")
            return int(decimal.Decimal(text) * SECOND)
        return nanoseconds(found.timestamp() if isinstance(found, datetime.datetime) else found)

    def row(self, number: int, keys: Any, skews: dict[str, float]) -> Row:
        """A capture of its row."""
        where = f"[[capture]] {number + 1}"
        self.check(keys, CAPTURE, where)
        places = [key for key in ("circuit", "circuits", "link", "edge") if key in keys]
        if "file" not in keys or len(places) != 1:
            raise Fault(f"{self.path}, {where}: it needs file, and one of circuit, circuits, link and edge")
        names = {"circuit": self.plan.circuits, "circuits": self.plan.circuits, "link": self.plan.edges, "edge": self.plan.edges, "at": self.plan.edges}
        for key in (*places, *(["at"] if "at" in keys else [])):
            for name in [keys[key]] if isinstance(keys[key], str) else keys[key]:
                if name not in names[key]:
                    kind = "circuit" if "circuit" in key else "edge"
                    raise Fault(f"{keys['file']}: the plan has no {kind} {name!r}; there are: {', '.join(names[key])}")
        if "link" in keys and frozenset(keys["link"]) not in {frozenset(pair) for pair in self.plan.pairs()}:
            raise Fault(f"{keys['file']}: no wire of the plan has {' and '.join(keys['link'])} next to each other on its path")
        if keys.get("direction", IN) not in (IN, OUT):
            raise Fault(f'{self.path}, {where}: direction is "in" or "out", as an edge sees it')
        row = Row(number, os.path.join(self.folder, keys["file"]), keys)
        row.skew = nanoseconds(skews[row.name]) if row.name in skews else row.skew
        return row

    def tables_of(self, keys: Any) -> list[Table]:
        """The tables of a row, one for each file that its pattern finds."""
        self.check(keys, TABLE, "[[table]]")
        if "file" not in keys:
            raise Fault(f"{self.path}, [[table]]: it needs file")
        edge, time = keys.get("edge", ""), keys.get("time")
        if edge and edge not in self.plan.edges:
            raise Fault(f"{keys['file']}: the plan has no edge {edge!r}; there are: {', '.join(self.plan.edges)}")
        pattern = os.path.join(self.folder, keys["file"])
        paths = sorted(glob.glob(pattern)) or [pattern]
        skew = nanoseconds(keys.get("skew", 0))
        return [Table(path, os.path.relpath(path, self.folder or "."), edge, None if time is None else self.time(time), skew) for path in paths]


def address_of(text: str, where: str) -> bytes:
    """A station's address."""
    if not ADDRESS.fullmatch(text):
        raise Fault(f"{where}: {text!r} is no address of a station, such as 02:00:00:00:00:0a")
    return bytes.fromhex(re.sub("[:-]", "", text))


def read_lab(path: str, skews: dict[str, float]) -> Lab:
    """The lab of a file."""
    try:
        keys = tomllib.loads(text_of(path))
    except tomllib.TOMLDecodeError as fault:
        raise Fault(f"{path} is no TOML: {fault}") from None
    return Lab(path, keys, skews)
