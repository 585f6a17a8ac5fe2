"""The check of what no contract sees of the crates."""

from __future__ import annotations

import pathlib

from .model_fields import unseen
from .trying import TOP, compare

TYPE_CHECKING = False
if TYPE_CHECKING:
    from collections.abc import Iterator
    from typing import Any

# The fields that no contract sees, each with the reason why none has to.
UNSEEN = {
    ("net_base", "MemLink", "alloc"): "an allocator has no value",
    ("session_core", "In", "stage"): "its type says which stage it is, and it has no octet",
    ("switchover_net", "TakingLink", "alloc"): "an allocator has no value",
    ("vplsnet", "FileShelf", "alloc"): "an allocator has no value",
    ("vplsnet", "FileShelf", "files"): "the system's files, of which nothing is promised",
    ("vplsnet", "FileShelf", "opened"): "those of them that are open: one for each file that was read",
    ("window_audit", "OpenWindows", "alloc"): "an allocator has no value",
}
# A source, and the fields of its struct that no contract sees.
MODEL = "impl Model for Shop {{\n    ghost Value = {{ ℕ }};\n\n    ghost view = {{ λ s. {} }};\n\n    ghost invariant = {{ λ s. {} }};\n}}\n"
SHOP = "pub struct Shop {\n    pub(crate) goods: Vec<Good>,\n    // s.till is counted each night.\n    till: u64,\n}\n\n"
SHOPS = [
    (SHOP + MODEL.format("s.goods", "s.till ≤ 9"), []),
    (SHOP + MODEL.format("s.till", "s.goodsness ≡ 1"), ["goods"]),
    (SHOP + MODEL.format("record { some = s.goods }", "0 ≤ 9"), ["till"]),
]


def models(_folder: pathlib.Path, _gone: set[str]) -> Iterator[Any]:
    """What no contract sees of a struct with a `Model`: in small sources, and in those of the crates."""
    for source, right in SHOPS:
        yield compare("fields that no contract sees", list(unseen(source)), [("Shop", right)])
    found = {
        (path.relative_to(TOP / "crates").parts[0], name, field)
        for path in TOP.glob("crates/*/src/**/*.rt")
        for name, fields in unseen(path.read_text(encoding="utf-8"))
        for field in fields
    }
    yield compare("fields of the crates that no contract sees", sorted(found), sorted(UNSEEN))
