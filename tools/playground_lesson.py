#!/usr/bin/env python3
"""Holds the lesson of docs/COURSE.md in the playground alone, in a browser, and compares with what the course shows.

usage: tools/playground_lesson.py PROGRAM [--unproved] [--lesson]

PROGRAM is the built program. Each step of the table opens an example, or types a text or a lattice, and does on the
page what the course does at a shell; what the page then shows must have the words of the course. The argument and the
board (parts 4 and 9) need no program. With --lesson it is held in the lesson mode: each program must hide its verdict,
and is shown then. Silent where all is well; it needs what tools/playground_browser.py needs.
"""

from __future__ import annotations

import os
import sys
from typing import NamedTuple, Optional

sys.dont_write_bytecode = True
import playground_browser as browser  # noqa: E402

LOW_HIGH = "var h : H;\nvar l : L;\n\n"
GLOWS = "temperature = 17 target = 20 heater = 1|refused: 47 AboveClass 0"
BESIDE = "An observer at L sees report = 100 or 101, depending on salary = 0 or 1."
ENDS = "Refused: secret decides whether a loop ends|(loop)"
DOWN = "var h : H;\n\nwhile 0 < h do h := h - 1\n"
ZERO = "var salary : H;\nvar report : L;\n\nreport := salary * 0\n"
HIGHER = "class H sees|salary = 9100|report = 13"


class Step(NamedTuple):
    """One step: the part of the course, what is opened, what is done, and the words that the page then shows."""

    part: int
    item: str
    does: str
    shows: str
    text: Optional[str] = None
    lattice: Optional[str] = None
    profile: str = "base"
    observer: str = ""
    store: str = ""


STEPS = (
    Step(1, "direct-flow/leak.vsi", "verdict", "Refused: salary reaches report"),
    Step(2, "direct-flow/leak.vsi", "leak", "report | 100 | 101 | ✱ differs"),
    Step(2, "direct-flow/leak.vsi", "beside", BESIDE),
    Step(2, "", "verdict", "Refused: salary reaches report", ZERO),
    Step(2, "", "leak", "no leak in 1000 pairs of runs", ZERO),
    Step(2, "direct-flow/overwritten.vsi", "verdict", "Refused: salary reaches report"),
    Step(2, "direct-flow/overwritten.vsi", "leak", "no leak in 1000 pairs of runs"),
    Step(2, "direct-flow/repaired.vsi", "verdict", "Accepted"),
    Step(2, "direct-flow/repaired.vsi", "run", "class L sees|report = 13|staff = 12", store="march.toml"),
    Step(2, "direct-flow/repaired.vsi", "run", "class L sees|report = 13|staff = 12", store="april.toml"),
    Step(2, "direct-flow/repaired.vsi", "run", HIGHER, observer="H", store="april.toml"),
    Step(3, "implicit-flow/lamp.vsi", "verdict", "Refused: alarm reaches lamp"),
    Step(3, "implicit-flow/lamp.vsi", "leak", "lamp | 0 | 1 | ✱ differs"),
    Step(3, "", "verdict", "line 4, column 4", LOW_HIGH + "if h then l := 1\nelse h := h\n"),
    Step(3, "", "leak", "l | 0 | 1 | ✱ differs", LOW_HIGH + "if h then l := 1\nelse h := h\n"),
    Step(3, "implicit-flow/copy.vsi", "leak", "after 5 instructions | after 18 instructions"),
    Step(3, "implicit-flow/lamp_repaired.vsi", "verdict", "Accepted"),
    Step(3, "implicit-flow/lamp_repaired.vsi", "flows", "alarm H | lamp H | allowed"),
    Step(4, "", "verdict", "Accepted", LOW_HIGH + "if l then h := l\nelse l := 0\n"),
    Step(4, "", "verdict", "h : H may not flow to l : L", LOW_HIGH + "if h then l := 1\nelse l := 0\n"),
    Step(5, "label-creep/repaired.vsi", "classes", "count : L|small : H|doubled : H"),
    Step(5, "label-creep/creep.vsi", "verdict", "secret at|doubled at|count at|secret : H may not flow to shown : L"),
    Step(5, "label-creep/creep.vsi", "leak", "no leak in 1000 pairs of runs"),
    Step(6, "two-parties/told.vsi", "verdict", "bob : B may not flow to alice_leads : A"),
    Step(6, "two-parties/told.vsi", "leak", "A leak at A"),
    Step(6, "two-parties/told.vsi", "verdict", "Refused: B isn't in any pair of below|Refusal 9, NoJoin",
         lattice='classes = ["A", "B"]\nbelow = []\n'),
    Step(6, "two-parties/auction.vsi", "flows", "bob B | alice_leads H | allowed"),
    Step(6, "two-parties/auction.vsi", "leak", "no leak in 3000 pairs of runs"),
    Step(7, "password/told.vsi", "verdict", "Refused: first reaches told"),
    Step(7, "password/told.vsi", "leak", "A leak at L"),
    Step(7, "password/door.vsi", "verdict", "Accepted"),
    Step(7, "password/door.vsi", "leak", "no leak in 1000 pairs of runs"),
    Step(8, "loop-ending/waits.vsi", "verdict", "Accepted"),
    Step(8, "loop-ending/waits.vsi", "leak 100 endings", "after 7 instructions | out of budget"),
    Step(8, "strict-profile/waits.vsi", "verdict", ENDS, profile="strict"),
    Step(8, "strict-profile/branch.vsi", "verdict", ENDS, profile="strict"),
    Step(8, "strict-profile/branch.vsi", "leak 100 endings", "after 5 instructions | out of budget"),
    Step(8, "strict-profile/repaired.vsi", "verdict", "Accepted", profile="strict"),
    Step(8, "strict-profile/repaired.vsi", "leak 100 endings", "no leak in 200 pairs of runs"),
    Step(8, "", "verdict", "Refused: h decides whether a loop ends", DOWN, profile="strict"),
    Step(8, "", "leak 100 endings", "out of budget", DOWN),
    Step(10, "password/door.vsi", "verdict", "Accepted", profile="strict"),
    Step(10, "password/door.vsi", "leak 100 steps", "after 17 instructions | after 11 instructions"),
    Step(10, "password/steady.vsi", "leak 100 steps", "no leak in 200 pairs of runs"),
    Step(10, "password/steady.vsi", "verdict", "Accepted", profile="steady"),
    Step(10, "selection/branch.vsi", "leak 100 steps", "after 9 instructions | after 8 instructions"),
    Step(10, "selection/arithmetic.vsi", "leak 100 steps", "no leak in 200 pairs of runs"),
    Step(10, "selection/arithmetic.vsi", "machine", "Step 1 of 11"),
    Step(11, "controller/service.vsi", "verdict", "Refused: key reaches heater"),
    Step(11, "controller/service.vsi", "leak", "A leak at"),
    Step(11, "controller/service.vsi", "flows", "key Secret | heater Public | refused"),
    Step(11, "controller/heater.vsi", "flows", "key Secret | seal Secret | allowed"),
    Step(11, "controller/heater.vsi", "drive", GLOWS, store="morning.toml"),
    Step(11, "controller/heater.vsi", "drive", GLOWS, store="other_key.toml"),
    Step(11, "controller/heater.vsi", "audit", "accepted", profile="strict"),
    Step(11, "controller/heater.vsi", "source", "letvar t1 := target - temperature in"),
    Step(12, "integrity/endorsed.vsi", "verdict", "network : Tainted may not flow to limit : Trusted"),
    Step(12, "integrity/endorsed.vsi", "leak", "A leak at Trusted"),
    Step(12, "integrity/repaired.vsi", "verdict", "Accepted"),
    Step(13, "controller/lock.vsi", "verdict", "Accepted"),
    Step(14, "implicit-flow/lamp.vsi", "pair", "lamp | 0 | 1 | ✱ differs"),
    Step(14, "", "judges", "lets the run end", LOW_HIGH + "if h then l := 1\nelse h := h\n"),
    Step(14, "", "judges", "refuse the program|lets the run end", LOW_HIGH + "if 0 then l := h\nelse l := 1\n"),
    Step(14, "", "judges", "now l has label H|finds a leak at L", LOW_HIGH + "l := h\n"),
)
# The text of an element with ` | ` between the cells of a table.
SHOWN = """
const rows = [...document.getElementById(arguments[0]).querySelectorAll("tr")].map((row) =>
  [...row.cells].map((cell) => cell.textContent).join(" | "));
return document.getElementById(arguments[0]).textContent + "\\n" + rows.join("\\n");
"""
SET = """
const area = document.getElementById(arguments[0]);
if (arguments[1] !== null) area.value = arguments[1];
area.dispatchEvent(new Event(arguments[2], {bubbles: true}));
"""


def neutral(item: str) -> str:
    """The name of an example in a lesson."""
    folder, _, name = item.partition("/")
    names = sorted(os.listdir(os.path.join(browser.ROOT, "examples", folder))) if name else []
    return f"{folder}-{[one for one in names if one.endswith('.vsi')].index(name) + 1}" if name else ""


class Teacher(browser.Student):
    """A visit that holds the lesson."""

    is_lesson = "--lesson" in sys.argv
    shown: "set[tuple[Optional[str], ...]]" = set()

    def take(self, step: Step) -> None:
        """Does a step, and waits for what the course shows."""
        self.js("document.getElementById('about').focus()")
        self.set("open", neutral(step.item) if self.is_lesson else step.item, "change")
        if step.text is not None:
            self.set("text", step.text, "input")
        if step.lattice is not None:
            self.set("lattice-text", step.lattice, "input")
        self.set("profile", step.profile, "change")
        program = (step.item, step.text, step.lattice, step.profile)
        if self.is_lesson and program not in self.shown:
            self.wait("a vote", lambda: self.text("verdict-title") == "Accepted or refused?"
                      and not self.text("verdict-body") and self.at("show-verdict").is_displayed())
            self.press("show-verdict")
            self.shown.add(program)
        self.wait("a shown verdict", lambda: self.text("verdict-title") != "Accepted or refused?")
        self.wait("a verdict", lambda: self.text("verdict-title") != "Reading")
        if step.observer:
            self.wait("the classes", lambda: self.texts(f"#lattice-picture [data-class='{step.observer}']"))
            self.click(f"#lattice-picture [data-class='{step.observer}']")
        place = self.work(step)
        for shows in step.shows.split("|") if " | " not in step.shows else [step.shows]:
            what = f"part {step.part}, {step.item}: {shows}"
            if not self.shows(place, what, lambda: shows in self.js(SHOWN, place)):
                print(self.js(SHOWN, place)[:600], file=sys.stderr)

    def set(self, identifier: str, value: str, event: str) -> None:
        self.js(SET, identifier, value, event)

    def work(self, step: Step) -> str:
        """Opens the pane that the step needs, presses a button where there is one; names what shows the answer."""
        does, *options = step.does.split(" ")
        if does in ("verdict", "classes", "beside", "judges"):
            return {"classes": "program-editor", "beside": "verdict-leak"}.get(does, does)
        if does == "pair":
            self.press("tab-leak")
            self.put("alarm-1", "1")
            self.ask("pair-button", "pair-result", "the steps", lambda: self.at("pair-steps").is_displayed())
            self.press("pair-next")
            return "pair-steps"
        pane = {"audit": "machine", "source": "machine", "drive": "cycles"}.get(does, does)
        if pane == "cycles":
            self.choose("more", pane)
        else:
            self.press(f"tab-{pane}")
        if step.store:
            self.set("files", step.store, "change")
        if does == "leak":
            self.set("leak-tries", options[0] if options else "1000", "change")
            for name in ("endings", "steps"):
                if self.at(f"leak-{name}").is_selected() != (name in options):
                    self.press(f"leak-{name}")
            self.press("leak-button")
        if does == "drive":
            self.set("cycles-lines", "temperature = 17\ntemperature = 12\nkey = 6\n", "input")
            self.press("cycles-button")
        if does in ("audit", "source"):
            self.wait("the trace, which comes first", lambda: self.text("step-now"))
            label = {"audit": "Audit the image", "source": "Program of the image"}[does]
            self.driver.find_element("xpath", f"//button[text()='{label}']").click()
        return {"machine": "step-now", "run": "view-result", "drive": "cycles-result"}.get(
            does, "machine-result" if pane == "machine" else f"{pane}-result")


def hold(address: str) -> None:
    """Holds the lesson from its first step to its last."""
    teacher = Teacher(address, (1600, 1100), "light", None)
    try:
        teacher.go(teacher.address)
        for step in STEPS:
            teacher.take(step)
    finally:
        teacher.end()


if __name__ == "__main__":
    browser.held(__doc__, hold, *(["--lesson"] if Teacher.is_lesson else []))
