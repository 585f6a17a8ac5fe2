#!/usr/bin/env python3
"""Opens a page of what a survey tells in a real browser and tries what a reader does with it.

Usage: survey_browser.py PAGE

Prints, a line each: how many failures the matrix has, and how many of its cells are cases of two and of one; what a click on the first
cell of two tells; and what the other view says of its cases. Needs python3-selenium and chromium-driver.
"""

from __future__ import annotations

import sys

from .browser import click, opened

CHOOSE = "const choice = document.getElementById('choice'); choice.value = arguments[0]; choice.dispatchEvent(new Event('change'));"


def main() -> None:
    """Opens the page, tries it, and prints what it saw."""
    browser = opened(sys.argv[1])
    try:
        counts = [len(browser.find_elements("css selector", found)) for found in ("tbody tr", "td.off", "td.split.alone")]
        print("matrix {} failures, {} cells of two, {} of one".format(*counts))
        click(browser, "td.off")
        print("told", browser.find_element("id", "told").text.splitlines()[0])
        browser.execute_script(CHOOSE, "told")
        print("cases", browser.find_element("id", "count").text)
        for line in browser.get_log("browser"):
            print("log", line["message"])
    finally:
        browser.quit()


if __name__ == "__main__":
    main()
