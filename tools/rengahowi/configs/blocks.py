"""The lines of a configuration as blocks within blocks, by their indentation or by their braces."""

from __future__ import annotations

import re

TYPE_CHECKING = False
if TYPE_CHECKING:
    from collections.abc import Callable, Iterator

# A text in quotes, a comment, or what ends a statement.
PIECES = re.compile(r'"(?:[^"\\]|\\.)*"|/\*.*?\*/|#.*|[{};]|[^\s{};"]+|"')
BANNER = re.compile(r"banner \S+ (\^C|\S)(.*)")


class Block:
    """A line with one blank between its words, its number from 1, and the blocks within it."""

    __slots__ = ("text", "line", "inner")

    def __init__(self, text: str, line: int) -> None:
        self.text, self.line = text, line
        self.inner: list[Block] = []

    def count(self) -> int:
        """How many blocks stand within it, at all depths."""
        return sum(1 + block.count() for block in self.inner)


def lines_of(text: str) -> list[str]:
    """The lines of a text, whichever system wrote it."""
    return text.replace("\r\n", "\n").replace("\r", "\n").split("\n")


def indented(text: str, comments: tuple[str, ...]) -> list[Block]:
    """The blocks of a text in which a line that stands further in belongs to the line before. Empty lines and those that begin with one
    of the words for comments are left out, and so is the text of a banner."""
    top: list[Block] = []
    stack: list[tuple[int, list[Block]]] = [(-1, top)]
    lines = enumerate(lines_of(text), 1)
    for number, raw in lines:
        line = raw.strip()
        if not line or line.startswith(comments):
            continue
        if line.startswith("banner "):
            pass_banner(line, lines)
            continue
        if "\t" in raw:
            raw = raw.expandtabs(8)
        depth = len(raw) - len(raw.lstrip())
        while stack[-1][0] >= depth:
            stack.pop()
        block = Block(" ".join(line.split()), number)
        stack[-1][1].append(block)
        stack.append((depth, block.inner))
    return top


def pass_banner(line: str, lines: Iterator[tuple[int, str]]) -> None:
    """Goes on behind the text of a banner, which ends where its first character stands again."""
    found = BANNER.match(line)
    if found and found[1] not in found[2]:
        for _, raw in lines:
            if found[1] in raw:
                return


def braced(text: str, tell: Callable[[int, str], None]) -> list[Block]:
    """The blocks of a text in which braces stand around what belongs to a line. A semicolon behind a statement may be absent. `tell` is
    called for a brace that closes nothing, and for a block that nothing closes."""
    top: list[Block] = []
    open_blocks: list[Block] = []
    inner, comment = top, False
    for number, raw in enumerate(lines_of(text), 1):
        line = raw.strip()
        if comment or line.startswith("/*"):
            comment = "*/" not in line
            continue
        for part in parts_of(line):
            if part == "}":
                if open_blocks:
                    open_blocks.pop()
                    inner = open_blocks[-1].inner if open_blocks else top
                else:
                    tell(number, "this brace closes nothing")
                continue
            opens = part[-1:] == "{"
            block = Block(part[:-1].rstrip() if opens else part, number)
            inner.append(block)
            if opens:
                open_blocks.append(block)
                inner = block.inner
    for block in open_blocks[-1:]:
        tell(block.line, f"no brace closes {block.text!r}: the file is not whole")
    return top


def parts_of(line: str) -> list[str]:
    """The statements of a line, the fronts of blocks with their brace, and closing braces."""
    if not line or line[0] == "#":
        return []
    if line == "}":
        return [line]
    front, last = line[:-1], line[-1]
    if last in "{;" and not any(mark in front for mark in '{};"#/'):
        return [" ".join(line.split()) if last == "{" else " ".join(front.split())]
    found, words = [], []
    for piece in PIECES.findall(line):
        if piece.startswith(("/*", "#")):
            continue
        if piece not in "{};":
            words.append(piece)
            continue
        if piece == "{" or words:
            found.append(" ".join([*words, "{"] if piece == "{" else words))
        words = []
        if piece == "}":
            found.append(piece)
    return found + ([" ".join(words)] if words else [])
