"""Reads TOML as scenarios are mostly written, in some tenth of the time that `tomllib` takes with its start: tables of plain values, a
value a line. Whatever else a text has, `tomllib` reads it."""

from __future__ import annotations

TYPE_CHECKING = False
if TYPE_CHECKING:
    from collections.abc import Iterator


class NotPlain(Exception):
    """A text has something that this reader leaves to `tomllib`."""


def read_plain(text: str) -> dict[str, object]:
    """The tables of a text in which each line has a comment, the head of a row of an array of tables, a key with its value, or, of the
    first array that a key has over several lines, one text with a comma behind it."""
    if "\\" in text or "'" in text or "\r" in text or "\x7f" in text:
        raise NotPlain
    tables: dict[str, object] = {}
    row = tables
    lines = iter(text.split("\n"))
    for line in lines:
        if line.startswith("[["):
            row = {}
            rows = tables.setdefault(name_in(line[2:-2]), [])
            if line[-2:] != "]]" or not isinstance(rows, list) or rows and not isinstance(rows[0], dict):
                raise NotPlain
            rows.append(row)
        elif line and line[0] != "#":
            key, _, value = line.partition(" = ")
            if name_in(key) in row:
                raise NotPlain
            row[key] = texts_in(lines) if value == "[" else value_in(value)
        elif not line.isprintable():
            raise NotPlain
    return tables


def name_in(word: str) -> str:
    """A bare key."""
    if not word.replace("_", "a").isalnum() or not word.isascii():
        raise NotPlain
    return word


def texts_in(lines: Iterator[str]) -> list[object]:
    """The texts of an array, one a line, up to the line that ends it."""
    texts: list[object] = []
    for line in lines:
        if line == "]" and texts:
            return texts
        if line[-1:] != ",":
            raise NotPlain
        texts.append(text_in(line[:-1].strip(" ")))
    raise NotPlain


def text_in(word: str) -> str:
    """A text between two quotes."""
    text = word[1:-1]
    if len(word) < 2 or word[0] != '"' or word[-1] != '"' or '"' in text or not text.isprintable():
        raise NotPlain
    return text


def value_in(word: str) -> object:
    """A text, a number without a sign, true, false, or an array of texts in one line."""
    if word[:1] == '"':
        return text_in(word)
    if word.isdigit() and word.isascii() and (word[0] != "0" or word == "0"):
        return int(word)
    if word in ("true", "false"):
        return word == "true"
    if word[:1] == "[" and word[-1] == "]":
        return [text_in(part) for part in word[1:-1].split(", ")]
    raise NotPlain
