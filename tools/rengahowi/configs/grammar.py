"""The grammar of a vendor: for each place of a configuration the lines that may stand there, in the words of the vendor's guides, and
what is done with them."""

from __future__ import annotations

import re

from .blocks import Block

TYPE_CHECKING = False
if TYPE_CHECKING:
    from collections.abc import Callable, Iterable
    from typing import Any, TypeAlias

    from .reading import Reader

    # What a rule does with its line: a function of the reader, of what the line stands in, of the line, and of the words that its
    # capitals stand for, which answers what the lines within it stand in; why the line is told and not used; or None where it says
    # nothing that a scenario lacks.
    Does: TypeAlias = Callable[..., Any] | str | None

TOKENS = re.compile(r"[\[\]]|\([^)]*\)|[^\s\[\]()]+")
WORDS = {
    "NAME": r'("[^"]*"|\S+)',
    "ADDRESS": r"(\S+)",
    "NUMBER": r"(\d{1,12})",
    "TEXT": r"(.+)",
    "..": r".*",
}


def pattern(syntax: str) -> str:
    """The regular expression of a line in a guide's words: capitals stand for what varies, brackets are around what may be absent,
    parentheses around a choice."""
    out = ""
    for token in TOKENS.findall(syntax):
        if token == "[":
            out += "(?:"
        elif token == "]":
            out += ")?"
        elif token == "..":
            out += r"(?: .*)?"
        elif token[0] == "(":
            out += " (" + "|".join(re.escape(word) for word in token[1:-1].split("|")) + ")"
        else:
            out += " " + WORDS.get(token, re.escape(token))
    return out


class Rule:
    """A line of a grammar: its words, what is done with it, and what may stand within it."""

    __slots__ = ("does", "inner", "matches", "prefix")

    def __init__(self, syntax: str, does: Does, inner: Level | None) -> None:
        self.does, self.inner = does, inner
        self.matches = re.compile(pattern(syntax)).fullmatch
        self.prefix = re.compile(pattern(syntax) + r"(?=( .*)?$)").match


class Level:
    """The lines that may stand in one place. `unknown` says what becomes of others: 'told', 'kept' until it is known whether what
    they stand in matters, or 'passed'."""

    def __init__(self, unknown: str, *rows: tuple[str, Does] | tuple[str, Does, Level]) -> None:
        self.unknown = unknown
        self.rules: dict[str, list[Rule]] = {}
        self.any: list[Rule] = []
        for syntax, does, *inner in rows:
            self.add(syntax, does, *inner)

    def add(self, syntax: str, does: Does, inner: Level | None = None) -> None:
        """Adds a line. Its first word finds it, where that is the same always."""
        first = syntax.split()[0]
        rule = Rule(syntax, does, inner)
        choices = first[1:-1].split("|") if first[0] == "(" and first[-1] == ")" else [first]
        if first in WORDS or first[0] == "[":
            self.any.append(rule)
        else:
            for word in choices:
                self.rules.setdefault(word, []).append(rule)

    def having(self, text: str) -> Iterable[Rule]:
        """The rules that a line may follow."""
        return [*self.rules.get(text.partition(" ")[0], ()), *self.any]


def walk(reader: Reader, level: Level, within: Any, blocks: Iterable[Block], paths: bool = False) -> None:
    """Reads blocks by the rules of their place. With `paths` a block may begin with the words of several places, each within the one
    before, as in lines that begin with `set`."""
    for block in blocks:
        text = " " + block.text
        for rule in level.having(block.text):
            found = rule.matches(text)
            if found is not None:
                take(reader, rule, within, block, found.groups(), block.inner, paths)
                break
            found = rule.prefix(text) if paths and rule.inner is not None else None
            if found is not None:
                rest = Block(text[found.end() + 1 :], block.line)
                rest.inner = block.inner
                take(reader, rule, within, block, found.groups()[:-1], [rest], paths)
                break
        else:
            reader.unknown(level.unknown, within, block)


def take(reader: Reader, rule: Rule, within: Any, block: Block, words: tuple[Any, ...], inner: list[Block], paths: bool) -> None:
    """Does what a rule says of a line, and reads what stands within it."""
    if isinstance(rule.does, str):
        reader.left(block, rule.does)
        return
    if rule.does is not None:
        made = rule.does(reader, within, block, *words)
        within = within if made is None else made
    if rule.inner is not None:
        walk(reader, rule.inner, within, inner, paths)
    else:
        for one in inner:
            reader.left(one)
