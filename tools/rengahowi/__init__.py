"""What the tools share: they read scenarios and reports, and draw and count what stands there.

No part of it is proved. The program under `crates/` is; these scripts only read what it wrote.
"""

from __future__ import annotations

import sys

TYPE_CHECKING = False
if TYPE_CHECKING:
    from types import TracebackType

if sys.version_info < (3, 11):
    sys.exit("the tools need Python 3.11 or later")


def quiet(kind: type[BaseException], fault: BaseException, trace: TracebackType | None) -> None:
    """Until `command.end` begins an interrupt ends a tool without a word."""
    if kind is not KeyboardInterrupt:
        sys.__excepthook__(kind, fault, trace)


sys.excepthook = quiet
