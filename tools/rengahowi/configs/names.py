"""Names as a scenario has them."""

from __future__ import annotations

import re

LONGEST = 32
# Kinds of interfaces as the vendors shorten them, the longest first.
SHORT = {
    "fourhundredgige": "fh", "twohundredgige": "th", "twentyfivegige": "tf", "hundredgige": "hu", "fortygige": "fo", "tengige": "te",
    "fourhundredgigabitethernet": "fh", "twohundredgigabitethernet": "th", "twentyfivegigabitethernet": "tf",
    "hundredgigabitethernet": "hu", "fortygigabitethernet": "fo", "tengigabitethernet": "te", "gigabitethernet": "gi",
    "fastethernet": "fa", "bundle-ether": "be", "port-channel": "po", "ethernet": "et",
}
KIND = re.compile(r"[a-z-]*[a-z]")


def short(interface: str) -> str:
    """The name of an interface with its kind shortened."""
    name = interface.lower()
    found = KIND.match(name)
    return SHORT.get(found[0], found[0]) + name[found.end() :] if found else name


class Names:
    """Names of 32 characters of a to z, 0 to 9 and _ at most, each once."""

    def __init__(self) -> None:
        self.taken: set[str] = set()

    def give(self, *parts: str) -> str:
        """The next name that is free for these words. Of a name that is too long the first word is cut, and then the end."""
        first, *rest = [re.sub(r"[^a-z0-9_]", "_", part.lower()) for part in parts]
        room = LONGEST - sum(1 + len(part) for part in rest)
        wanted = "_".join([first[: max(room, 1)], *rest])[:LONGEST] or "_"
        number, name = 1, wanted
        while name in self.taken:
            number += 1
            name = f"{wanted[: LONGEST - 1 - len(str(number))]}_{number}"
        self.taken.add(name)
        return name
