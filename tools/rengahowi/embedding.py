"""What a page has in it: data for its script, as JSON or packed, and texts. A page is XML too."""

from __future__ import annotations

import base64
import gzip
import json
import pathlib

HERE = pathlib.Path(__file__).resolve().parent
# How hard it is packed: harder takes several times as long for a hundredth less.
LEVEL = 6


def as_script(found: object) -> str:
    """What is found as JSON, in which no text begins a tag or an entity."""
    text = json.dumps(found, separators=(",", ":"))
    for sign in "<>&":
        text = text.replace(sign, f"\\u{ord(sign):04x}")
    return text


def packed(found: object) -> str:
    """What is found as base64 of gzip of JSON, which `unpacked` of a page opens; it takes JSON as it is, too."""
    text = json.dumps(found, separators=(",", ":")).encode()
    return base64.b64encode(gzip.compress(text, LEVEL, mtime=0)).decode()


def as_text(title: str) -> str:
    """A text as a page has it."""
    return title.replace("&", "&amp;").replace("<", "&lt;")


def with_scripts(page: str, *names: str) -> str:
    """A page with these scripts, one behind the other, in the place of @SCRIPT@."""
    return page.replace("@SCRIPT@", "\n".join((HERE / name).read_text(encoding="utf-8") for name in names))
