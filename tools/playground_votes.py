#!/usr/bin/env python3
"""Holds a vote in the playground's lesson mode, and tries what protects a student's work, in a browser.

usage: tools/playground_votes.py PROGRAM [--unproved]

PROGRAM is the built program, served with --lesson. A room of 29 votes over HTTP, and the browser is the thirtieth: no
part of the page may give the verdict away before Show, each voter counts once, and the names and comments of examples
say nothing. In the game and in exercises of two stores the search opens after a try of one's own, and fills in no
answer. Then: what replaces a text can be undone, two tabs keep a text each, and a text of 960 kB leaves the page usable.
Silent where all is well; it needs what tools/playground_browser.py needs.
"""

from __future__ import annotations

import contextlib
import json
import os
import sys
import time
import urllib.request
from typing import Callable

sys.dont_write_bytecode = True
import playground_browser as browser  # noqa: E402

TWO = 'classes = ["L", "H"]\nbelow = [["L", "H"]]\n'
LAMP = "var alarm : H;\nvar lamp : L;\nif alarm then lamp := 1\nelse lamp := 0\n"
REFUSED = "Refused: alarm reaches lamp"
LEAK = "var secret : H;\nvar shown : L;\n\nshown := secret + 1\n"
# Seconds of its processor's time that a tab may need for a key in a text of 960 kB, and how many turns of a loop
# that fills a string take a tenth of them on the machine for which they are meant.
MOST_BUSY, LINES, TURNS = 2, 80_000, 2_300_000
# Fills a string, cuts it into lines, and joins them again, so that a slow machine can be known.
MEASURE = """
let made = "";
for (let turn = 0; turn < arguments[0]; turn++) made += turn % 16 ? "x" : "\\n";
return made.split("\\n").join("").length;
"""
# Puts a text into the editor, and types a letter in its middle.
PUT = """
const area = document.getElementById("text");
area.value = arguments[0];
area.dispatchEvent(new Event("input", { bubbles: true }));
"""
TYPE = """
const area = document.getElementById("text");
area.focus();
area.setSelectionRange(area.value.length / 2, area.value.length / 2);
document.execCommand("insertText", false, " ");
"""
# The panes that a lesson closes before Show, and those that are closed before a try of one's own.
TELLING, UNTRIED = ["flows", "machine", "report", "search"], ["report", "search"]
# The requests that the page may send while it hides a verdict.
HARMLESS = {"/api/lattice", "/api/votes"}


def descendants(process: int) -> "list[int]":
    """A process with all processes that it has begun."""
    parents = {}
    for name in filter(str.isdecimal, os.listdir("/proc")):
        with contextlib.suppress(OSError), open(f"/proc/{name}/stat", encoding="utf-8", errors="replace") as file:
            parents[int(name)] = int(file.read().rsplit(")", 1)[1].split()[1])
    found = [process]
    for one in found:
        found += [child for child, parent in parents.items() if parent == one]
    return found


def busy_seconds(driver: int) -> float:
    """The processor's time that the main threads of a browser's pages have used."""
    total = 0.0
    for one in descendants(driver):
        with contextlib.suppress(OSError), open(f"/proc/{one}/cmdline", encoding="utf-8", errors="replace") as words, \
                open(f"/proc/{one}/task/{one}/schedstat", encoding="utf-8") as times:
            total += int(times.read().split()[0]) / 1e9 if "--type=renderer" in words.read() else 0
    return total


class Voter(browser.Student):
    """A visit to a lesson."""

    def opened(self, item: str) -> None:
        """Opens an item by its address, as the list does."""
        self.js("location.hash = arguments[0]", item or "own")
        self.wait(f"the item {item}", lambda: self.js("return document.getElementById('open').value") == item)

    def closed(self) -> "list[str]":
        """The panes that are closed, and the search if it is."""
        return self.js("""return [...document.querySelectorAll("[role=tab]:disabled, #more option:disabled")]
            .map((one) => one.value || one.id.slice(4))
            .concat(document.getElementById("search").hidden ? ["search"] : [])""")

    def value(self) -> str:
        return self.js("return document.getElementById('text').value")

    def send(self, voter: int, vote: str) -> "dict[str, int]":
        """The vote of another browser, about the lamp."""
        body = json.dumps({"text": LAMP, "lattice": TWO, "profile": "base", "voter": f"{voter:016x}", "vote": vote})
        request = urllib.request.Request(self.address + "api/votes", body.encode(),
                                         {"Content-Type": "application/json"})
        with urllib.request.urlopen(request, timeout=60) as answer:
            return json.load(answer)

    def vote(self) -> None:
        """Votes with a room about the lamp, and shows the verdict."""
        self.go(self.address)
        self.js("performance.clearResourceTimings()")
        self.opened("implicit-flow-3")
        self.wait("a hidden verdict", lambda: self.text("verdict-title") == "Accepted or refused?")
        self.expect("what shows the verdict", (self.text("verdict-body"), self.text("verdict-leak"), self.closed()),
                    ("", "", TELLING))
        self.expect("the comment of the lamp", "#" in self.value(), False)
        if ".vsi" in self.text("open"):
            browser.complain("the list of a lesson has the names of files")
        for voter in range(29):
            self.send(voter, "accepted" if voter < 20 else "refused")
        self.send(0, "unsure")
        self.click("[data-vote=refused]")
        self.wait("the vote of this browser", lambda: self.js(
            "return [...document.querySelectorAll('[aria-pressed=true]')].map((one) => one.textContent)") == ["Refused"])
        self.wait("30 votes", lambda: self.text("votes") == "30 votes so far.")
        self.look("vote")
        asked = set(self.js("return performance.getEntriesByType('resource').map((one) => new URL(one.name).pathname)"))
        self.expect("what was asked for before Show", asked - HARMLESS, set())
        self.press("run-button")
        self.wait("a run by hand", lambda: "halted" in self.text("run-result"))
        self.press("show-verdict")
        self.verdict(REFUSED)
        self.shows("verdict-leak", "the leak after Show", lambda: self.text("verdict-leak")
                   == "An observer at L sees lamp = 0 or 1, depending on alarm = 0 or 1.")
        self.wait("the votes", lambda: self.text("votes") == "The room: accepted 19, refused 10, don't know 1.")
        self.expect("the panes that are closed after Show", self.closed(), [])
        self.look("shown")

    def fix_it(self) -> None:
        """Takes the quick fix, once it is offered for the present text."""
        self.wait("a quick fix", lambda: self.js("return Boolean(document.querySelector('.fixes button'))"))
        self.click(".fixes button")

    def edit(self) -> None:
        """A changed program is a new question; the switch ends the lesson for this browser."""
        self.fix_it()
        self.wait("a question again", lambda: self.text("verdict-title") == "Accepted or refused?")
        self.press("undo")
        self.verdict(REFUSED)
        self.opened("implicit-flow-4")
        self.wait("a question", lambda: self.text("verdict-title") == "Accepted or refused?")
        self.press("lesson")
        self.verdict("Accepted")
        self.expect("the address without a lesson", self.js("return location.hash"), "#implicit-flow/lamp_repaired.vsi")

    def own_try(self) -> None:
        """The search is closed until two stores that differ were compared, and fills in none."""
        for item in ("level-3", "14-a-leak"):
            self.opened(item)
            self.wait(f"a closed search in {item}", lambda: self.closed() == UNTRIED)
            button = "show-button" if item == "level-3" else "pair-button"
            name = self.js("return document.querySelector('#pair-stores input').name").split("-")[0]
            self.ask(button, "pair-result", "two runs", lambda: "after the runs" in self.text("pair-result"))
            self.expect(f"{item}, closed after the stores of its start", self.closed(), UNTRIED)
            self.put(f"{name}-0", "1")
            self.put(f"{name}-1", "2")
            self.press(button)
            self.wait(f"an open search in {item}", lambda: not self.closed())
            self.ask("leak-button", "leak-result", "a leak", lambda: "A leak at" in self.text("leak-result"))
            self.expect(f"{item}: buttons of the search, and what is beside the verdict",
                        (self.texts("#leak-result button"), self.text("verdict-leak")), ([], ""))

    def undo(self) -> None:
        """A quick fix, a ready lattice and another text can be undone, by the button and by the key."""
        from selenium.webdriver.common.keys import Keys
        self.opened("direct-flow/leak.vsi")
        before = self.value()
        self.wait("the verdict about this text", lambda: "report" in self.text("verdict-body"))
        self.fix_it()
        self.verdict("Accepted")
        self.at("text").send_keys(Keys.CONTROL, "z")
        self.verdict("Refused: salary reaches report")
        self.expect("the text after Ctrl-Z", self.value(), before)
        self.at("text").send_keys("x")
        self.expect("a typed letter", len(self.value()), len(before) + 1)
        self.js("""const open = document.getElementById("open");
            open.value = "selection/branch.vsi";
            open.dispatchEvent(new Event("change"));""")
        self.press("undo")
        self.expect("the text after Undo", len(self.value()), len(before) + 1)
        self.expect("what is open after Undo", self.js("return location.hash"), "#direct-flow/leak.vsi")

    def tabs(self) -> None:
        """Two tabs keep a text each, also when they are loaded anew; a query in the address does no harm."""
        self.go(self.address + "?from=elsewhere")
        self.write("var one : L; one := 1")
        first = self.driver.current_window_handle
        self.driver.switch_to.new_window("tab")
        self.go(self.address)
        self.write("var other : L; other := 2")
        self.driver.switch_to.window(first)
        self.go(self.address)
        self.expect("the first tab's text", self.value(), "var one : L; one := 1")

    def taken(self, work: "Callable[[], object]") -> float:
        """The seconds of its processor's time that a tab needs for some work."""
        before = busy_seconds(self.driver.service.process.pid)
        work()
        return busy_seconds(self.driver.service.process.pid) - before

    def slowness(self) -> float:
        """How many times the usual seconds this machine needs, at least one."""
        return max(1.0, self.taken(lambda: self.js(MEASURE, TURNS)) / (MOST_BUSY / 10))

    def least(self, code: str, text: str, most: float) -> "tuple[float, int]":
        """The least seconds of at most three tries of a change, and how many tries it took to stay within the most."""
        def change() -> None:
            self.js(code, text)
            time.sleep(1)
            self.js("return document.body.offsetHeight")
        found: "list[float]" = []
        while len(found) < 3 and (not found or min(found) > most):
            found.append(self.taken(change))
        return min(found), len(found)

    def large(self) -> None:
        """A text of 960 kB, and a key in it, take at most MOST_BUSY seconds of the tab, more on a slow machine."""
        slowness = self.slowness()
        text = "var x : L;\n" + "x := x + 1;\n" * LINES + "x := 0\n"
        for what, code in (("a large text", PUT), ("a key in it", TYPE)):
            taken, tries = self.least(code, text, MOST_BUSY * slowness)
            if taken > MOST_BUSY * slowness:
                browser.complain(f"{what} keeps the tab busy for {taken:.1f} seconds, "
                                 f"{slowness:.1f} times a usual machine's")
        self.expect("the letters of the large text", len(self.value()), len(text) + tries)
        self.expect("the buttons where nothing follows", self.at("run-button").is_displayed(), True)
        self.press("lesson")
        self.write("var x : L; x := 1")
        self.verdict("Accepted")


def hold(address: str) -> None:
    """Goes through all parts, in one browser."""
    voter = Voter(address, (1600, 1100), "light", None)
    try:
        for part in (voter.vote, voter.edit, voter.own_try, voter.undo, voter.tabs, voter.large):
            part()
    finally:
        voter.end()


if __name__ == "__main__":
    browser.held(__doc__, hold, "--lesson")
