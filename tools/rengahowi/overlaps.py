"""Opens a picture in a real browser and prints, as JSON, the texts that meet another one.

Usage, in tools/: python3 -m rengahowi.overlaps PICTURE

Needs python3-selenium and chromium-driver.
"""

from __future__ import annotations

import json
import sys

from .browser import opened

# The texts of all of a picture that meet another one, by the boxes in which the browser draws them, less a point on each side.
MEETING = """
const texts = [...document.querySelectorAll("svg text")], boxes = texts.map(text => text.getBoundingClientRect()), found = [];
boxes.forEach((a, at) => boxes.forEach((b, other) => {
  if (at < other && a.left < b.right - 1 && b.left < a.right - 1 && a.top < b.bottom - 2 && b.top < a.bottom - 2) found.push([texts[at].textContent, texts[other].textContent]);
}));
return found;
"""


def main() -> None:
    """Opens the picture and prints what it saw."""
    browser = opened(sys.argv[1])
    try:
        print(json.dumps(browser.execute_script(MEETING)))
    finally:
        browser.quit()


if __name__ == "__main__":
    main()
