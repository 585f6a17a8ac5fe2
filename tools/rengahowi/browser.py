#!/usr/bin/env python3
"""Opens a ladder, or a page of what-if, in a real browser and tries what a reader does with it.

Usage: browser.py PAGE [PICTURE]

Prints, a line each: how many rows are drawn; what the first packet's octets are, once it was clicked; the frames of the rows that
are shown once the frame's number was clicked; and how many texts overlap another one of their row, or the edge of the page. Needs
python3-selenium and chromium-driver. Of a page of what-if: how many cases and cells of a fault it has, and whether a click on the
first such cell opens the run of its case with a network, and its ladder with rows.
"""

from __future__ import annotations

import sys
import time

from selenium import webdriver
from selenium.webdriver.chrome.options import Options
from selenium.webdriver.chrome.service import Service

TYPE_CHECKING = False
if TYPE_CHECKING:
    from typing import Any

# The texts of each row in sight that overlap, by the boxes in which the browser draws them.
OVERLAPS = """
let count = 0;
for (const row of document.querySelectorAll("g.row")) {
  const boxes = [...row.querySelectorAll("text")].map(text => text.getBoundingClientRect());
  const right = document.getElementById("space").getBoundingClientRect().right;
  boxes.forEach((a, at) => {
    if (a.right > right + 1) count++;
    boxes.slice(at + 1).forEach(b => {
      if (a.left < b.right - 1 && b.left < a.right - 1 && a.top < b.bottom - 1 && b.top < a.bottom - 1) count++;
    });
  });
}
return count;
"""
# Goes to the first packet, and answers its row.
GO = "const place = data.rows.findIndex(row => row.k === 'sent'); view.scrollTop = place * ROW; draw(); return place;"
OCTETS = """
const text = document.getElementById("octets").textContent;
return text.match(/ [0-9a-f]{2}(?= )/g).join("").replace(/ /g, "");
"""
FRAMES = "return [...new Set(shown.map(row => data.rows[row].f).filter(frame => frame !== undefined))].join(' ')"
CLICK = "arguments[0].dispatchEvent(new MouseEvent('click', {bubbles: true}));"


def opened(page: Any, width: int = 1280) -> Any:
    """A browser of so many pixels with the page in it."""
    options = Options()
    options.binary_location = "/usr/bin/chromium"
    for word in ("--headless", "--no-sandbox", "--disable-gpu", "--hide-scrollbars", f"--window-size={width},900"):
        options.add_argument(word)  # type: ignore[no-untyped-call]
    browser = webdriver.Chrome(service=Service("/usr/bin/chromedriver"), options=options)
    browser.get(f"file://{page}")
    return browser


def click(browser: Any, found: Any) -> bool:
    """Clicks the first element that a selector finds."""
    elements = browser.find_elements("css selector", found)
    if elements:
        browser.execute_script(CLICK, elements[0])
    return bool(elements)


def waited_for(found: Any) -> Any:
    """What is found, as soon as it is something; a machine under load has time for it."""
    until = time.monotonic() + 600
    while True:
        something = found()
        if something or time.monotonic() > until:
            return something
        time.sleep(0.1)


def try_cases(browser: Any) -> None:
    """What a page of what-if shows."""
    print("cases", len(browser.find_elements("css selector", "tbody tr")))
    print("cells", len(browser.find_elements("css selector", "td[data-site]")))
    click(browser, "td[data-site]")
    for name, parts in (("network", "g.edge"), ("ladder", "g.row")):
        browser.switch_to.default_content()
        click(browser, f"#{name}")
        frame = browser.find_element("id", f"{name}-page")
        waited_for(lambda: (frame.get_attribute("src") or "").startswith("blob:"))  # pylint: disable=cell-var-from-loop
        browser.switch_to.frame(frame)
        print(name, bool(waited_for(lambda: browser.find_elements("css selector", parts))))  # pylint: disable=cell-var-from-loop
        if name == "network":
            print("now", browser.find_element("id", "now").text)
    if len(sys.argv) > 2:
        browser.switch_to.default_content()
        browser.save_screenshot(sys.argv[2])


def main() -> None:
    """Opens the page, tries it, and prints what it saw."""
    browser = opened(sys.argv[1])
    try:
        if browser.find_elements("id", "over"):
            try_cases(browser)
            for line in browser.get_log("browser"):
                print("log", line["message"])
            return
        waited_for(lambda: browser.execute_script("return document.body.dataset.open"))
        print("rows", len(browser.find_elements("css selector", "g.row")))
        print("overlaps", browser.execute_script(OVERLAPS))
        place = browser.execute_script(GO)
        if place >= 0:
            click(browser, f"[data-row='{place}'] path")
            print("octets", browser.execute_script(OCTETS))
            print("overlaps", browser.execute_script(OVERLAPS))
            click(browser, f"[data-row='{place}'] [data-frame]")
            print("frames", browser.execute_script(FRAMES))
            print("rows", len(browser.find_elements("css selector", "g.row")))
            print("overlaps", browser.execute_script(OVERLAPS))
            if len(sys.argv) > 2:
                browser.save_screenshot(sys.argv[2])
        for line in browser.get_log("browser"):
            print("log", line["message"])
    finally:
        browser.quit()


if __name__ == "__main__":
    main()
