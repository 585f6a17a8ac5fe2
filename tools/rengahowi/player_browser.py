"""Opens the page of a run in a real browser and tries what a reader does with it.

Usage, in tools/: python3 -m rengahowi.player_browser PAGE EVENT.. [--at WHAT..]

Prints JSON: what the page shows behind each of these events, by the state that it holds; where the keys and buttons lead; what is
looked at once WHAT was chosen, each with its text; and what the browser says of faults. Of a page of two runs: what both show. Needs python3-selenium and chromium-driver.
"""

from __future__ import annotations

import json
import sys

from .browser import opened, waited_for
from .overlaps import MEETING

TYPE_CHECKING = False
if TYPE_CHECKING:
    from typing import Any

# Sessions, ends, labels and stations as the page holds them behind an event.
STATE = """
go(arguments[0]);
const found = {};
for (const [name, cell] of cellAt) {
  if (/^(session|end|told|heard|mac) /.test(name) && state[cell]) found[name] = steps.values[state[cell]];
}
return [found, document.getElementById("now").textContent, document.querySelectorAll("#rows .event.current").length,
  packets.size, document.querySelectorAll("g.packet").length];
"""
KEY = "document.dispatchEvent(new KeyboardEvent('keydown', {key: arguments[0], bubbles: true})); return event;"
CHOOSE = "choose(arguments[0]); return document.getElementById('state').textContent;"
# The event that the page is opened at, and whether its line is in view.
IN_VIEW = """
const row = document.querySelector("#rows .event.current"), view = document.getElementById("lines").getBoundingClientRect();
return [event, row !== null && row.getBoundingClientRect().top >= view.top && row.getBoundingClientRect().bottom <= view.bottom];
"""
OPEN = "return document.body.dataset.open"


def keys(browser: Any) -> dict[str, int]:
    """Where some keys lead, one after another from the first event on; `document` takes them, so the target is replaced by the body."""
    script = KEY.replace("document.dispatchEvent", "document.body.dispatchEvent")
    names = ("Home", "ArrowRight", "ArrowRight", "ArrowLeft", "PageDown", "End", "ArrowRight", "PageUp")
    return {f"{at} {name}": browser.execute_script(script, name) for at, name in enumerate(names)}


def changes(browser: Any, what: str) -> list[int]:
    """The events that change what is looked at, by the key for the next one."""
    browser.execute_script("go(0); choose(arguments[0])", what)
    found: list[int] = []
    while not found or len(found) < 2 or found[-1] != found[-2]:
        found.append(browser.execute_script(KEY.replace("document.dispatchEvent", "document.body.dispatchEvent"), "n"))
    return found[:-1]


def rounds(browser: Any) -> dict[str, list[int]]:
    """Where the keys for rounds lead, from the first event on and from the last one back."""
    script = KEY.replace("document.dispatchEvent", "document.body.dispatchEvent")
    found = {}
    for key, start in (("r", "Home"), ("R", "End")):
        first = browser.execute_script(script, start)
        found[key] = [*([first] if key == "R" else []), *(browser.execute_script(script, key) for _ in range(4 if key == "R" else 5))]
    return found


def meeting(browser: Any, events: list[int]) -> list[Any]:
    """The texts of the picture that meet behind these events."""
    found = []
    for event in events:
        browser.execute_script("go(arguments[0])", event)
        found += browser.execute_script(MEETING)
    return found


def moved_together(browser: Any, events: list[int]) -> list[list[Any]]:
    """What both pages of a pair show once the first one was moved to each of these events, and whether the second one tells differences; and
    the marks at which they part and meet."""
    frames = browser.find_elements("css selector", "iframe")

    def shown(at: int, script: str = "") -> Any:
        browser.switch_to.default_content()
        browser.switch_to.frame(frames[at])
        return browser.execute_script(script or "return document.getElementById('now').textContent")

    waited_for(lambda: shown(0, OPEN) and shown(1, OPEN))
    found = []
    for event in events:
        before = shown(1)
        shown(0, f"go({event})")
        waited_for(lambda: shown(1) != before)  # pylint: disable=cell-var-from-loop
        found.append([shown(0), shown(1), shown(1, "return others.length > 0")])
    return [*found, shown(0, "return run.marks")]


def main() -> None:
    """Opens the page, tries it, and prints what it saw."""
    page, *words = sys.argv[1:]
    split = words.index("--at") if "--at" in words else len(words)
    events, chosen = [int(word) for word in words[:split]], words[split + 1 :]
    browser = opened(page)
    try:
        if browser.find_elements("css selector", "iframe"):
            print(json.dumps({"both": moved_together(browser, events), "log": [line["message"] for line in browser.get_log("browser")]}))
            return
        waited_for(lambda: browser.execute_script(OPEN))
        found: dict[str, Any] = {"states": [browser.execute_script(STATE, event) for event in events], "keys": keys(browser)}
        found["chosen"] = {what: browser.execute_script(CHOOSE, what) for what in chosen}
        found["rounds"], found["meet"] = rounds(browser), meeting(browser, events)
        found["marks"] = browser.execute_script("return marks.map(([at, , text]) => [numberOf(at), text])")
        found["changes"] = {what: changes(browser, what) for what in chosen}
        browser.get("about:blank")
        browser.get(f"file://{page}#event={events[0]}")
        waited_for(lambda: browser.execute_script(OPEN))
        found["opened"] = browser.execute_script(IN_VIEW)
        found["log"] = [line["message"] for line in browser.get_log("browser")]
        print(json.dumps(found))
    finally:
        browser.quit()


if __name__ == "__main__":
    main()
