"""How a tool is called and ends: its words, its one line on standard error, its status."""

from __future__ import annotations

import os
import sys

TYPE_CHECKING = False
if TYPE_CHECKING:
    from collections.abc import Callable
    from typing import Any, NoReturn


class Fault(Exception):
    """What a caller is told in one line. The tool then ends with status 1."""


class Words:
    """The words of a call, each under its name."""

    def __init__(self, words: dict[str, Any]) -> None:
        self.__dict__.update(words)

    if TYPE_CHECKING:

        def __getattr__(self, name: str) -> Any: ...


def words_of(about: str, *words: tuple[list[str], dict[str, Any]]) -> Words:
    """Reads the words of a call. `about` is the tool's own docstring; each word is a pair of names and what argparse is told
    of it."""
    if sys.stdout is None:
        raise Fault("standard output is closed")
    found = plain_words(sys.argv[1:], words)
    if found is None:
        from .help import words_by_argparse  # whose start takes longer than most calls

        found = words_by_argparse(about, words)
    return Words(found)


def plain_words(given: list[str], words: tuple[tuple[list[str], dict[str, Any]], ...]) -> dict[str, Any] | None:
    """The words of a call that has each word without an option, and of options those alone that take nothing or any text; None where it
    has others, and where somebody has to be told something."""
    places, options, found = [], {}, {}
    for names, more in words:
        if names[0][0] != "-":
            places.append((names[0], more))
            continue
        key = more.get("dest", names[0].lstrip("-").replace("-", "_"))
        options[names[0]] = key, more
        found[key] = more.get("default", False if more.get("action") == "store_true" else None)
    rest = iter(given)
    for word in rest:
        if word[:1] == "-":
            key, more = options.get(word, ("", {"type": None}))
            if more.get("action") == "store_true":
                found[key] = True
                continue
            value = next(rest, "-")
            if value[:1] == "-" or not {"dest", "metavar", "help", "default"}.issuperset(more):
                return None
            found[key] = value
        elif places and {"metavar", "help"}.issuperset(places[0][1]):
            found[places.pop(0)[0]] = word
        else:
            return None
    return None if places else found


def name() -> str:
    """The name of the tool that runs."""
    return os.path.basename(sys.argv[0])


def say(text: object) -> None:
    """Tells a line on standard error."""
    if sys.stderr is not None:
        print(f"{name()}: {text}", file=sys.stderr)


def line_of(fault: Exception) -> str:
    """The line by which a caller is told of an exception."""
    if isinstance(fault, Fault):
        return str(fault)
    if isinstance(fault, OSError):
        file = "standard output" if fault.filename is None else fault.filename or "a file without a name"
        return f"{file}: {fault.strerror or fault}"
    if isinstance(fault, UnicodeEncodeError):
        return f"standard output cannot take {fault.object[fault.start]!r} in {fault.encoding}: set PYTHONUTF8=1"
    if isinstance(fault, RecursionError):
        return "a file is nested too deep"
    if isinstance(fault, MemoryError):
        return "out of memory"
    place = fault.__traceback__
    while place is not None and place.tb_next is not None:
        place = place.tb_next
    where = f"line {place.tb_lineno} of {os.path.basename(place.tb_frame.f_code.co_filename)}" if place else "no line"
    return f"this is a fault of the tool: {type(fault).__name__} at {where}: {fault}"


def end(work: Callable[[], int]) -> None:
    """Does the work of a tool and ends with the status that it answers; a fault, a file that cannot be read or written, an
    interrupt, a standard output that is full or closed, and texts that are nested too deep end it without a traceback."""
    status: Any = 1
    try:
        if sys.stdout is None:
            raise Fault("standard output is closed")
        status = work()
        sys.stdout.flush()
    except BrokenPipeError:
        pass
    except KeyboardInterrupt:
        status = 130
    except SystemExit as ended:
        status = ended.code
    except Exception as fault:  # pylint: disable=broad-exception-caught
        say(line_of(fault))
    leave(status)


def leave(status: Any) -> NoReturn:
    """Ends the tool with a status. What standard output does not take is given up, so that nothing more is told of it."""
    try:
        if sys.stdout is not None:
            sys.stdout.flush()
    except OSError as fault:
        if status == 0:
            say(f"standard output: {fault.strerror}")
        status = status or 1
        os.dup2(os.open(os.devnull, os.O_WRONLY), sys.stdout.fileno())
    sys.exit(status)


def text_of(path: str | os.PathLike[str]) -> str:
    """The text of a file, which has to be UTF-8, with the ends of lines as they stand."""
    try:
        with open(path, encoding="utf-8-sig", newline="") as file:
            return file.read()
    except UnicodeDecodeError as fault:
        raise Fault(f"{path} is no UTF-8, at octet {fault.start}") from None


def lines_of(path: str | os.PathLike[str]) -> list[str]:
    """The lines of a file, which may end by CR LF; the last one is empty where a line ends the file."""
    return text_of(path).replace("\r\n", "\n").split("\n")


def external(program: str, package: str) -> str:
    """The path of an external program; where it is missing, the fault names its Debian package."""
    import shutil  # which most tools do not need

    found = shutil.which(program)
    if found is None:
        raise Fault(f"the program {program} is missing (Debian has it in the package {package})")
    return found
