"""The words of a call as argparse reads them, and its help."""

from __future__ import annotations

import argparse
import sys
from typing import Any


class Parser(argparse.ArgumentParser):
    """A reader of words whose help is written as all else is: where that is refused, the tool says so."""

    def print_help(self, file: Any = None) -> None:
        """Writes the help."""
        (file or sys.stdout).write(self.format_help())


def words_by_argparse(about: str, words: tuple[tuple[list[str], dict[str, Any]], ...]) -> dict[str, Any]:
    """The words of a call. Where they are wrong, and where the help is wanted, the tool ends here."""
    parser = Parser(
        description=about.strip(), epilog="This tool is no part of what is proved.", formatter_class=argparse.RawDescriptionHelpFormatter
    )
    for names, more in words:
        parser.add_argument(*names, **more)
    return vars(parser.parse_args())
