#!/usr/bin/env python3
"""Uses the playground in a browser, as a student would, and looks at its pages.

usage: tools/playground_browser.py PROGRAM [--short] [--width N] [--scheme NAME] [--unproved] [--pictures FOLDER]
       tools/playground_browser.py PROGRAM --readme FOLDER

PROGRAM is the built program; `playground/serve` serves it on a free port. Chromium types a text, sees the refusal in
words and what an observer sees of the leak, takes the quick fix, sees the run, lights lines and instructions, fills
fields with what is no number, sees what the types, a monitor and a search say of programs, goes through two runs in
step, solves exercise 02 and level 3, shares a link and opens it again: at widths of 360, 800 and 1,600, light and dark,
and one exercise at 1,280. No page may be wider than its window, each control has a name, text has a contrast of at
least 4.5 to 1, and the console shows no error. A request may take 20 seconds, a request that a busy server has refused
is sent again, and what the page shows is waited for three minutes: a busy machine is no fault. --short goes through one
width; --width and --scheme name the one to go through; --unproved takes the limit of memory from the server, for a
program that `tools/build` has made; --pictures writes the pages as pictures. --readme writes the two pictures of README
instead, as playground-light.png and playground-dark.png.
Silent where all is well. It needs chromium, chromium-driver and python3-selenium of Debian; where one of them is
missing, it says so in one line and ends with status 0.
"""

from __future__ import annotations

import argparse
import json
import os
import shutil
import subprocess
import sys
import tempfile
import time
from typing import Any, Callable, Optional

ROOT = os.path.dirname(os.path.dirname(os.path.abspath(__file__)))
SIZES = ((360, 780), (800, 1100), (1600, 1100))
WIDE_TASK = (1280, 800)
LEAK = "var secret : H;\nvar shown : L;\n\nshown := secret + 1\n"
REFUSED = "Refused: secret reaches shown"
DIAMOND = 'classes = ["L", "A", "B", "H"]\nbelow = [["L", "A"], ["L", "B"], ["A", "H"], ["B", "H"]]\n'
# The instructions, worked by hand: 0 LOAD 0, 1 JZ 5, 2 PUSH 1, 3 STORE 1, 4 JMP 7, 5 PUSH 0, 6 STORE 1, 7 HALT.
LAMP = "var alarm : H;\nvar lamp : L;\n\nif alarm then\n  lamp := 1\nelse\n  lamp := 0\n"
PARTED = "var h : H;\nvar l : L;\nif h then\n  l := 1\nelse\n  l := 0;\nh := 2\n"
# A program, and what the types, the monitor of its run from zeros, and the search say of it.
JUDGED = (
    ("var h : H; var l : L; if h then l := 1 else l := 0",
     ["refuse the program", "stops the run at line 1, column 45: l with label L is assigned under H",
      "finds a leak at L"]),
    ("var h : H; var l : L; if 0 then l := h else l := 1",
     ["refuse the program", "lets the run end", "finds no leak in 0 pairs of runs"]),
    ("var h : H; var l : L; l := h",
     ["refuse the program", "lets the run end; now l has label H", "finds a leak at L"]),
    ("var h : H; var l : L; if h then h := 1 else h := l",
     ["accept the program", "lets the run end", "finds no leak in 100 pairs of runs"]),
)
LAMP_LINES = ["4", "4", "5", "5", "6", "7", "7", None]
# A program, words that its verdict must have, and the word of the program that is marked.
FAULTS = (
    ("var x : L;\nx := y + 1\n", "Refused: y isn't declared here", "y"),
    ("var x : L\nx := 1\n", "Refused: x can't be here", "x"),
    ("var x : Hi;\nx := 1\n", "Refused: the lattice has no class Hi", "Hi"),
    ("var x : L; x := 1 / 2\n", "Refused: / isn't a symbol of this language", "/"),
)
# Words of a shell, which the page shows nowhere.
SHELL = ("`", "vsi ", "--", "with the same files", "text.vsi")
ANSWER = ("var salary : H;\nvar staff : L;\nvar raised : H;\nvar report : L;\n\n"
          "raised := salary + 100;\nreport := staff + 1\n")
# The contrast of each piece of text with what is below it, at least 4.5, or 3 where the text is large.
CONTRAST = """
const rgb = (text) => (text.match(/[0-9.]+/g) || [0, 0, 0, 0]).map(Number);
const light = (part) => { const s = part / 255; return s <= 0.03928 ? s / 12.92 : Math.pow((s + 0.055) / 1.055, 2.4); };
const luminance = (c) => 0.2126 * light(c[0]) + 0.7152 * light(c[1]) + 0.0722 * light(c[2]);
const ground = (element) => {
  for (let at = element; at; at = at.parentElement) {
    const c = rgb(getComputedStyle(at).backgroundColor);
    if (c.length < 4 || c[3] > 0.5) return c;
  }
  return [255, 255, 255];
};
const poor = [];
for (const element of document.querySelectorAll("body *")) {
  const own = [...element.childNodes].some((node) => node.nodeType === 3 && node.textContent.trim());
  const box = element.getBoundingClientRect(), style = getComputedStyle(element);
  if (!own || !box.width || style.visibility === "hidden") continue;
  if (element.closest("svg, textarea, option, :disabled")) continue;
  const one = luminance(rgb(style.color)), other = luminance(ground(element));
  const ratio = (Math.max(one, other) + 0.05) / (Math.min(one, other) + 0.05);
  const large = parseFloat(style.fontSize) >= 24;
  const name = `${element.tagName} ${element.className} ${ratio.toFixed(2)}`;
  if (ratio < (large ? 3 : 4.5)) poor.push(`${name}: ${element.textContent.slice(0, 30)}`);
}
return poor;
"""
NAMELESS = """
return [...document.querySelectorAll("button, input, select, textarea, iframe")].filter((element) =>
  element.offsetParent && element.type !== "hidden" && !element.textContent.trim() && !element.title &&
  !element.getAttribute("aria-label") && !(element.labels && element.labels.length))
  .map((element) => element.outerHTML.slice(0, 80));
"""
WIDE = """
const page = document.documentElement;
return page.scrollWidth <= window.innerWidth ? [] : [...document.querySelectorAll("body *")].filter((element) =>
  element.getBoundingClientRect().right > window.innerWidth + 1)
  .map((element) => `${element.tagName}#${element.id}.${element.className}`).slice(0, 8);
"""
# Lets the page get the answer of a busy server to so many of its next checks.
REFUSE = """
const real = window.fetch;
let left = arguments[0];
window.fetch = (path, ...more) => path !== "api/check" || left-- <= 0 ? real(path, ...more) : Promise.resolve(
  new Response(JSON.stringify({ status: -1, refused: "the server is busy; try again" }), { status: 503 }));
"""
# Parts of the answer of a server that was too busy for a request.
BUSY = ("took too long", "No answer")
# Seconds: for a request, and until the page must show what it should, on a busy machine.
REQUEST, PATIENCE = 20, 180
faults = 0


def complain(*parts: object) -> None:
    """Says what is wrong."""
    global faults
    faults += 1
    print(*parts, file=sys.stderr, flush=True)


def make_docs(folder: str) -> str:
    """A folder of documentation with one refusal, as `tools/site` would make it."""
    os.makedirs(os.path.join(folder, "refusals"))
    for name in ("index.html", "refusals/25.html"):
        with open(os.path.join(folder, name), "w", encoding="utf-8") as file:
            file.write("<!DOCTYPE html><html lang='en'><link rel='icon' href='/icon.svg'>"
                       f"<title>{name}</title><p>{name}</p></html>")
    return folder


def serve(program: str, is_unproved: bool, *words: str) -> "tuple[subprocess.Popen[str], str]":
    """Starts the server on a free port, with time for each request on a busy machine; answers it with its address."""
    more = [*words, "--seconds", str(REQUEST), *(["--memory", "0"] if is_unproved else [])]
    call = [sys.executable, os.path.join(ROOT, "playground", "serve"), "--port", "0", "--vsi", program, *more]
    server = subprocess.Popen(call, stdout=subprocess.PIPE, text=True)
    assert server.stdout
    return server, server.stdout.readline().split(" at ")[1].strip()


class Student:
    """One visit, at one width and in one colour scheme."""

    def __init__(self, address: str, size: "tuple[int, int]", scheme: str, pictures: Optional[str]) -> None:
        from selenium import webdriver
        from selenium.webdriver.chrome.service import Service
        options = webdriver.ChromeOptions()
        for word in ("--headless=new", "--no-sandbox", "--disable-gpu", "--hide-scrollbars", "--disable-dev-shm-usage"):
            options.add_argument(word)
        options.set_capability("goog:loggingPrefs", {"browser": "ALL"})
        options.binary_location = shutil.which("chromium") or ""
        self.driver = webdriver.Chrome(service=Service(shutil.which("chromedriver")), options=options)
        self.driver.set_script_timeout(PATIENCE)
        self.address, self.size, self.scheme, self.pictures = address, size, scheme, pictures
        self.device("Emulation.setDeviceMetricsOverride", width=size[0], height=size[1], deviceScaleFactor=1,
                    mobile=False)
        self.device("Emulation.setEmulatedMedia", features=[{"name": "prefers-color-scheme", "value": scheme}])

    def device(self, command: str, **values: Any) -> Any:
        return self.driver.execute_cdp_cmd(command, values)

    def go(self, address: str) -> None:
        self.driver.get("about:blank")
        self.driver.get(address)
        self.wait("the page is ready", lambda: self.js("return document.body.dataset.ready") == "yes")

    def js(self, code: str, *values: Any) -> Any:
        return self.driver.execute_script(code, *values)

    def at(self, identifier: str) -> Any:
        return self.driver.find_element("id", identifier)

    def text(self, identifier: str) -> str:
        return self.js("return document.getElementById(arguments[0]).textContent", identifier)

    def press(self, identifier: str) -> None:
        self.js("document.getElementById(arguments[0]).scrollIntoView({block: 'center'})", identifier)
        self.at(identifier).click()

    def click(self, selector: str) -> None:
        """Clicks the first element of a selector, once more where the page has just put another in its place."""
        from selenium.common.exceptions import StaleElementReferenceException
        for _ in range(10):
            try:
                found = self.driver.find_element("css selector", selector)
                self.js("arguments[0].scrollIntoView({block: 'center'})", found)
                found.click()
                return
            except StaleElementReferenceException:
                time.sleep(0.2)
        complain(f"{self.size[0]} {self.scheme}: {selector} can't be clicked")

    def wait(self, what: str, happens: Callable[[], Any]) -> bool:
        """Waits until something happens; complains if it doesn't."""
        end = time.monotonic() + PATIENCE
        while time.monotonic() < end:
            if happens():
                return True
            time.sleep(0.1)
        shown = self.js("return [...document.querySelectorAll('#verdict, [role=tabpanel]:not([hidden])')]"
                        ".map((part) => part.innerText)")
        complain(f"{self.size[0]} {self.scheme}: not in {PATIENCE} seconds: {what}; the page shows {shown}")
        return False

    def shows(self, result: str, what: str, happens: Callable[[], Any]) -> bool:
        """Waits for what follows the typing; has the page ask again where the server was busy."""
        def has_happened() -> bool:
            self.js("document.querySelector(arguments[0])?.click()", f"#{result} .again:not([aria-busy])")
            return happens()
        return self.wait(what, has_happened)

    def expect(self, what: str, seen: object, wanted: object) -> None:
        if seen != wanted:
            complain(f"{self.size[0]} {self.scheme}: {what} is {seen!r}, not {wanted!r}")

    def choose(self, name: str, value: str) -> None:
        """Chooses a line of a list, as its reader would."""
        self.js("""const list = document.getElementById(arguments[0]);
            list.value = arguments[1];
            list.dispatchEvent(new Event("change", { bubbles: true }));""", name, value)

    def hover(self, selector: str) -> None:
        """Moves the pointer to the middle of the first element of a selector."""
        self.js("document.querySelector(arguments[0]).scrollIntoView({block: 'center'})", selector)
        x, y = self.js("const box = document.querySelector(arguments[0]).getBoundingClientRect();"
                       "return [box.left + box.width / 2, box.top + Math.min(box.height / 2, 10)]", selector)
        self.device("Input.dispatchMouseEvent", type="mouseMoved", x=x, y=y)

    def texts(self, selector: str) -> "list[str]":
        return self.js("return [...document.querySelectorAll(arguments[0])].map((one) => one.textContent)", selector)

    def ask(self, identifier: str, result: str, what: str, happens: Callable[[], Any]) -> bool:
        """Presses a button and waits for its answer; presses again where the result says that the server was busy."""
        self.press(identifier)

        def has_happened() -> bool:
            if happens():
                return True
            is_asking = self.at(identifier).get_attribute("aria-busy") == "true"
            if not is_asking and any(words in self.text(result) for words in BUSY) and not happens():
                self.press(identifier)
            return False
        return self.wait(what, has_happened)

    def write(self, text: str) -> None:
        """Types a text in place of the present one, with the keyboard."""
        from selenium.webdriver.common.keys import Keys
        area = self.at("text")
        self.js("document.getElementById('text').scrollIntoView({block: 'center'})")
        area.send_keys(Keys.CONTROL, "a")
        area.send_keys(text)

    def put(self, name: str, word: str, stores: str = "pair-stores") -> None:
        """Types a word into a field of a store."""
        field = self.driver.find_element("css selector", f"#{stores} input[name='{name}']")
        self.js("arguments[0].scrollIntoView({block: 'center'})", field)
        field.clear()
        field.send_keys(word)

    def look(self, what: str) -> None:
        """Looks at the page as it is: its width, its names, its contrast; and takes a picture."""
        looks = (("wider than its window", WIDE), ("without a name", NAMELESS), ("of poor contrast", CONTRAST))
        for kind, code in looks:
            for found in self.js(code):
                complain(f"{self.size[0]} {self.scheme}, {what}: {kind}: {found}")
        if self.pictures:
            os.makedirs(self.pictures, exist_ok=True)
            height = self.js("return document.documentElement.scrollHeight")
            self.device("Emulation.setDeviceMetricsOverride", width=self.size[0], height=min(height, 3500),
                        deviceScaleFactor=1, mobile=False)
            self.driver.save_screenshot(os.path.join(self.pictures, f"{what}-{self.size[0]}-{self.scheme}.png"))
            self.device("Emulation.setDeviceMetricsOverride", width=self.size[0], height=self.size[1],
                        deviceScaleFactor=1, mobile=False)

    def verdict(self, begins: str) -> None:
        """Waits for a verdict; asks again where the server was too busy."""
        def is_shown() -> bool:
            self.js("document.querySelector('.doubt #verdict-body button:not([aria-busy])')?.click()")
            return self.text("verdict-title").startswith(begins)
        self.wait(f"the verdict {begins}", is_shown)

    def fix(self) -> None:
        """Types a text that leaks, sees the leak beside the verdict, and takes the quick fix."""
        self.go(self.address)
        self.write(LEAK)
        self.verdict(REFUSED)
        self.shows("verdict-leak", "the leak beside the verdict", lambda: self.text("verdict-leak")
                   == "An observer at L sees shown = 1 or 2, depending on secret = 0 or 1.")
        self.wait("the steps of the flow", lambda: "Here secret is read" in self.text("verdict-body"))
        self.look("refused")
        self.press("tab-leak")
        self.shows("leak-result", "a leak", lambda: "A leak at L" in self.text("leak-result"))
        self.look("leak")
        self.click(".fixes button")
        self.verdict("Accepted")
        if "var shown : H;" not in self.js("return document.getElementById('text').value"):
            complain("the quick fix didn't change the class")
        self.shows("leak-result", "no leak", lambda: "no leak in 0 pairs of runs" in self.text("leak-result"))
        self.expect("what is said of a leak of an accepted program", self.text("verdict-leak"), "")
        self.press("tab-run")
        self.shows("run-result", "a run", lambda: "halted after 5 instructions" in self.text("run-result"))
        self.shows("view-result", "a view", lambda: "An observer of class L sees" in self.text("view-result"))
        self.look("run")

    def ends(self) -> "list[str]":
        """The column of the store after the run."""
        return self.texts("#run-store td.word")

    def fields(self) -> None:
        """A field is filled: the run follows, and what is no number is said to be a fault of its field."""
        self.go(self.address)
        self.write("var a : L; var b : L; b := a * 3 + 1")
        self.shows("run-result", "the run from zeros", lambda: self.ends() == ["0", "1"])
        self.put("a-0", "14", "run-store")
        self.shows("run-result", "the run from 14", lambda: self.ends() == ["14", "43"])
        self.put("a-0", "abc", "run-store")
        self.wait("a faulty field", lambda: self.texts("#run-store [role=alert]")
                  == ["The field of a needs a whole number of 64 bits; “abc” is none."])
        self.wait("no run from it", lambda: self.ends() == ["", ""] and not self.text("run-result"))
        self.look("fields")
        self.put("a-0", "9223372036854775808", "run-store")
        self.wait("a field that is too large", lambda: "9223372036854775808” is none" in self.text("run-store"))
        self.put("a-0", "2", "run-store")
        self.shows("run-result", "the run from 2", lambda: self.ends() == ["2", "7"])
        # LOAD, PUSH, MUL, PUSH, ADD, STORE, HALT: six instructions aren't enough.
        for text, said, shown in (("2000000", "The budget must be a whole number from 0 to 1,000,000.", ""),
                                  ("6", "", "Out of budget: the run hasn't halted after 6 instructions."),
                                  ("7", "", "The run halted after 7 instructions.")):
            self.js("document.getElementById('budget').select()")
            self.at("budget").send_keys(text)
            self.wait(f"what is said of the budget {text}", lambda: self.text("budget-note") == said)
            self.shows("run-result", f"the run with the budget {text}", lambda: bool(shown)
                       == bool(self.text("run-result")) and self.text("run-result").startswith(shown))

    def faults(self) -> None:
        """Faults are marked in the text, with a bubble, and explained in the words of the page; warnings are shown."""
        self.go(self.address)
        for text, title, word in FAULTS:
            self.write(text)
            self.verdict(title)
            self.wait(f"the mark of {word}", lambda: self.texts("#program-editor .faulty .wrong") == [word])
            self.hover("#program-editor .wrong")
            self.wait("a bubble", lambda: self.at("text-bubble").is_displayed())
            shown = self.text("verdict-body") + self.text("text-bubble")
            for found in (words for words in SHELL if words in shown):
                complain(f"{self.size[0]} {self.scheme}: {found} in the explanation of {text!r}: {shown!r}")
        self.look("fault")
        self.write("var x : L; while x < 3 do\n  x := x + 1;\n  x := 0\n")
        self.verdict("Accepted")
        self.wait("a warning", lambda: "line 3, column 3: this comes after the loop" in self.text("verdict-body"))
        self.expect("the marked warning", self.texts("#program-editor .warned"), ["x"])
        self.look("warning")
        self.write("var x : L;\nx := + 1;\nx := 2 2;\nx := 3\n")
        self.verdict("Refused: + can't be here")
        self.wait("a further fault", lambda: "also at line 3, column 8: refusal 15" in self.text("verdict-body"))
        self.expect("the marked faults", self.texts("#program-editor .wrong"), ["+", "2"])
        self.choose("profile", "steady")
        self.write("var s : H; var l : L;\nletvar a : H := s in s := a + 1;\nletvar b : L := l in l := b + 1")
        self.verdict("Refused: s reaches l")
        self.wait("the place of a slot", lambda: "At line 3, column 8." in self.text("verdict-body"))
        self.choose("profile", "base")
        many = "".join(f"var h{n} : H; var l{n} : L;\n" for n in range(4))
        self.write(many + "; ".join(f"l{n} := h{n}" for n in range(4)))
        self.verdict("Refused: h0 reaches l0")
        self.wait("further flows", lambda: "3 further refused flows" in self.text("verdict-body"))
        self.expect("marks of the refused flow", self.texts("#program-editor .read, #program-editor .written"),
                    ["l0", "h0"])

    def wraps(self) -> None:
        """A long line wraps in the text and in its coloured copy alike, so nothing is cut."""
        self.go(self.address)
        self.write("var total_of_all : L; " + "total_of_all := total_of_all + 1000000; " * 9 + "total_of_all := 0")
        self.verdict("Accepted")
        heights = self.js("""const area = document.getElementById("text"), copy = area.previousSibling;
            return [area.scrollHeight - area.clientHeight, area.scrollWidth - area.clientWidth,
              copy.scrollWidth - copy.clientWidth, copy.offsetHeight - area.offsetHeight];""")
        self.expect("what the wrapped text lacks", heights, [0, 0, 0, 0])
        self.look("wrapped")
        self.go(self.address + "#label-creep/repaired.vsi")
        self.wait("the inferred classes", lambda: self.texts("#program-editor .ghost")
                  == ["count : L", "small : H", "doubled : H"])
        self.expect("the inferred classes that are on the text, or cut", self.js("""
            const editor = document.querySelector("#program-editor .editor").getBoundingClientRect();
            return [...document.querySelectorAll("#program-editor .ghost")].filter((ghost) => {
              const own = ghost.getBoundingClientRect();
              const parts = [...ghost.parentElement.querySelectorAll("span:not(.ghost)")];
              return own.right > editor.right || parts.some((part) => [...part.getClientRects()].some((box) =>
                box.right > own.left && box.top < own.bottom - 3 && box.bottom > own.top + 3)); })
              .map((ghost) => ghost.textContent);"""), [])

    def panes(self) -> None:
        """Goes through the other panes."""
        self.go(self.address)
        self.write(LAMP)
        self.verdict("Refused: alarm reaches lamp")
        self.press("tab-flows")
        self.shows("flows-result", "the flows", lambda: "refused" in self.text("flows-result"))
        self.look("flows")
        self.press("tab-machine")
        if self.shows("machine-result", "the steps", lambda: "Step 1 of 5: LOAD 0, of line 4" in self.text("step-now")
                      and self.at("next-step").is_displayed()):
            # From zeros: LOAD 0, JZ 5, PUSH 0, STORE 1, HALT.
            for _ in range(3):
                self.press("next-step")
            self.wait("the fourth step", lambda: self.text("step-now") == "Step 4 of 5: STORE 1, of line 7")
            self.expect("the stack", self.text("stack"), "0")
            self.lights()
            self.look("machine")
        self.choose("more", "report")
        self.press("report-button")
        self.wait("the report", lambda: self.js("return document.getElementById('report-frame').hidden === false"))
        time.sleep(1)
        self.look("report")

    def judged(self) -> None:
        """The types, the monitor and the search judge one program, side by side."""
        self.go(self.address)
        for text, wanted in JUDGED:
            self.write(text)
            self.wait(f"the three judges of {text!r}", lambda: self.texts("#judges dd") == wanted)
            self.look("judged")
        self.put("h-0", "x", "run-store")
        self.wait("no monitored run", lambda: self.text("judge-monitor") == "needs a store and a budget")
        self.write("var h : H; h :=")
        self.wait("no judges of a fault", lambda: not self.at("judges").is_displayed())

    def together(self) -> None:
        """Two runs in step, by the keyboard: where they part and meet, and what each class sees."""
        from selenium.webdriver.common.keys import Keys
        self.go(self.address)
        self.write(PARTED)
        self.verdict("Refused: h reaches l")
        self.press("tab-leak")
        self.put("h-1", "1")
        self.ask("pair-button", "pair-result", "the steps of both runs", lambda: self.at("pair-steps").is_displayed())
        self.expect("where the runs part", self.text("pair-seen"), "The runs part at step 2 and meet again at step 3. "
                    "L sees a difference, first at step 2H sees a difference, first at step 1")
        self.expect("the first step", self.text("pair-now"),
                    "Step 1 of 3. Both are at one command, with different words.")
        self.at("pair-step").send_keys(Keys.ARROW_RIGHT)
        self.expect("the second step", self.text("pair-now"), "Step 2 of 3. Here the runs part.")
        self.expect("the lines of the runs", [self.texts(f"{place} [data-runs='{run}']") for run in (1, 2)
                    for place in ("#program-editor", "#pair-lines")], [["  l := 0;\n"]] * 2 + [["  l := 1\n"]] * 2)
        self.expect("what has changed", self.texts("#pair-table .changed"), ["l = 0", "l = 1", "0", "1"])
        self.look("together")
        self.press("pair-next")
        self.expect("the third step", self.text("pair-now"),
                    "Step 3 of 3. Here the runs meet again. Both runs do the same.")
        self.expect("the line of both runs", self.texts("#pair-lines [data-runs='1+2']"), ["h := 2\n"])
        self.click("#pair-seen li button")
        self.expect("the step that L sees", self.text("pair-now"), "Step 2 of 3. Here the runs part.")
        self.press("tab-run")
        self.expect("marks beside another pane", self.texts("#program-editor [data-runs='1']"), [])
        self.press("tab-leak")
        self.expect("marks once more", self.texts("#program-editor [data-runs='1']"), ["  l := 0;\n"])
        self.write("var l : L; while 1 do l := l + 1")
        self.wait("no steps of another program", lambda: not self.at("pair-steps").is_displayed())
        self.verdict("Accepted")
        self.ask("pair-button", "pair-result", "too many steps", lambda: self.text("pair-now")
                 == "A run takes more than 2000 steps, so they aren't shown.")

    def lights(self) -> None:
        """A line and its instructions light each other, by the pointer and by the keyboard."""
        from selenium.webdriver.common.keys import Keys
        lines = self.js("return [...document.querySelectorAll('#listing li')].map((one) => one.dataset.line ?? null)")
        self.expect("the lines of the instructions", lines, LAMP_LINES)
        self.hover("#listing li:nth-child(3)")
        self.wait("the line of PUSH 1", lambda: self.texts("#program-editor .lit") == ["  lamp := 1\n"])
        self.expect("its instructions", self.texts("#listing .lit > span"), ["PUSH 1", "STORE 1"])
        self.hover("#program-editor .line:nth-child(4)")
        self.wait("the instructions of the guard", lambda: self.texts("#listing .lit > span") == ["LOAD 0", "JZ 5"])
        self.js("document.querySelector('#listing li').focus()")
        self.driver.switch_to.active_element.send_keys(Keys.END, Keys.ARROW_UP)
        self.wait("the line of STORE 1", lambda: self.texts("#program-editor .lit") == ["  lamp := 0\n"])

    def busy(self) -> None:
        """Has the server refuse checks as busy: the page asks again, and at last has a button for that."""
        self.go(self.address)
        self.js(REFUSE, 3)
        self.write(LEAK)
        self.wait("the sign of a busy server", lambda: self.at("busy").is_displayed())
        self.look("busy")
        self.wait("a verdict at last", lambda: self.text("verdict-title") == REFUSED)
        self.js(REFUSE, 6)
        self.write("var l : L; l := 1")
        self.wait("no verdict", lambda: self.text("verdict-title") == "No verdict")
        self.verdict("Accepted")
        if self.at("busy").is_displayed():
            complain("the page says that the server is busy, and it isn't")

    def keys(self) -> None:
        """Goes to a pane and moves the observer by the keyboard alone."""
        from selenium.webdriver.common.keys import Keys
        self.go(self.address)
        self.wait("an observer", lambda: self.text("observed") == "L sees L")
        self.js("document.getElementById('tab-run').focus()")
        self.driver.switch_to.active_element.send_keys(Keys.ARROW_RIGHT, Keys.ARROW_RIGHT)
        self.driver.switch_to.active_element.send_keys(Keys.HOME, Keys.ARROW_LEFT)
        if self.js("return document.activeElement.id") != "tab-machine" or not self.at("machine").is_displayed():
            complain("the arrows don't move between the panes")
        self.js("document.querySelector('#lattice-picture [aria-checked=true]').focus()")
        self.driver.switch_to.active_element.send_keys(Keys.ARROW_UP)
        self.wait("a higher observer", lambda: self.text("observed") == "H sees L H")
        self.expect("what has the focus", self.js("return document.activeElement.dataset.class"), "H")
        self.press("explain")
        self.wait("a page of the language", lambda: "letvar" in self.text("dialog-text"))
        self.driver.switch_to.active_element.send_keys(Keys.ESCAPE)
        self.wait("a closed page", lambda: not self.js("return document.getElementById('dialog').open"))

    def observers(self) -> None:
        """A class is chosen in the picture; nothing is said of a class that the lattice lacks."""
        self.go(self.address)
        self.choose("ready", "1")
        self.write("var a : A; var b : B; var l : L; var x : Secret; l := 1")
        self.verdict("Refused: the lattice has no class Secret")
        self.wait("the diamond", lambda: len(self.texts("#lattice-picture [role=radio]")) == 4)
        self.click("#lattice-picture [data-class=B]")
        self.wait("the observer B", lambda: self.text("observed") == "B sees L B")
        self.expect("what B sees", self.texts("#run-store td:last-child"), ["no", "yes", "yes", "no such class"])
        self.click("#lattice-picture [data-class=H]")
        self.wait("the observer H", lambda: self.text("observed") == "H sees L A B H")
        self.look("observers")
        self.js("""const area = document.getElementById("lattice-text");
            area.value = "classes = [";
            area.dispatchEvent(new Event("input", { bubbles: true }));""")
        self.wait("no observer", lambda: self.text("observed") == "none: the lattice is refused")
        self.expect("what nobody sees", self.texts("#run-store td:last-child"), [""] * 4)
        self.js("""const area = document.getElementById("lattice-text");
            area.value = 'classes = ["L", "H"]\\nbelow = [["L", "H"],\\n  ["H", "L"]]';
            area.dispatchEvent(new Event("input", { bubbles: true }));""")
        self.verdict("Refused: L is below H, H below L: that is a cycle")
        self.wait("the place in the lattice", lambda: "At line 3, column 3 of the" in self.text("verdict-body"))
        self.expect("the marked line of the lattice", self.texts("#lattice-editor .faulty"), ['  ["H", "L"]]\n'])
        self.choose("ready", "0")

    def pages(self) -> None:
        """The number of a refusal leads to its page in the documentation."""
        self.go(self.address)
        self.write(LEAK)
        self.verdict(REFUSED)
        self.click(".refusal-page a")
        self.wait("the page of refusal 25", lambda: self.js("return document.title") == "refusals/25.html")

    def mapped(self) -> None:
        """For every example the page's instructions with their lines are those that the program lists."""
        self.go(self.address)
        missing = self.driver.execute_async_script("""const done = arguments[0];
            (async () => {
            const { lines } = await import("./coding.js"), { lattice, listing, globals } = await import("./reading.js");
            const { ask, load } = await import("./api.js"), found = [];
            for (const { name, files } of await load("examples.json")) {
              const one = Object.values(files).find((text) => /^classes/m.test(text) && /^below/m.test(text));
              for (const [file, text] of Object.entries(files).filter(([file]) => file.endsWith(".vsi"))) {
                const answer = await ask("list", { text, lattice: one });
                const listed = listing(answer.output ?? "").instructions;
                if (answer.status === 0 && !lines(text, listed).length) found.push(`${name}/${file}`);
              }
            }
            done(found); })();""")
        self.expect("the examples whose instructions have no lines", missing, [])

    def share(self) -> None:
        """Shares the text and opens the link."""
        before = self.js("return document.getElementById('text').value")
        self.press("share")
        link = self.js("return document.getElementById('link').value")
        self.go(link)
        if self.js("return document.getElementById('text').value") != before:
            complain("the link has another text")
        self.verdict("Accepted")

    def beside(self) -> None:
        """At a width of 1,280 the task is beside the text, and the verdict is in sight."""
        self.device("Emulation.setDeviceMetricsOverride", width=WIDE_TASK[0], height=WIDE_TASK[1], deviceScaleFactor=1,
                    mobile=False)
        self.go(self.address + "#05-branch")
        self.verdict("Refused: ")
        task, text, verdict = self.js("""return ["task", "text", "verdict-title"].map((one) => {
            const { left, right, top, bottom } = document.getElementById(one).getBoundingClientRect();
            return { left, right, top, bottom }; });""")
        if not (task["right"] <= text["left"] and verdict["bottom"] < WIDE_TASK[1] and task["bottom"] <= WIDE_TASK[1]):
            complain(f"the task isn't beside the text, or the verdict isn't in sight: {task}, {text}, {verdict}")
        self.look("beside")
        self.device("Emulation.setDeviceMetricsOverride", width=self.size[0], height=self.size[1], deviceScaleFactor=1,
                    mobile=False)

    def exercise(self) -> None:
        """Solves exercise 02."""
        self.go(self.address + "#02-direct-flow")
        self.verdict("Refused: raised reaches report")
        self.ask("mark-button", "task-result", "a mark", lambda: "Not right yet" in self.text("task-result")
                 and not any(words in self.text("task-result") for words in BUSY))
        self.look("exercise")
        self.write(ANSWER)
        self.verdict("Accepted")
        self.ask("mark-button", "task-result", "a right mark", lambda: "Right" in self.text("task-result"))
        self.go(self.address + "#02-direct-flow")
        self.wait("the progress", lambda: self.js(
            "return document.querySelector('option[value=\"02-direct-flow\"]').textContent.startsWith('✓')"))

    def level(self) -> None:
        """Solves level 3."""
        self.go(self.address + "#level-3")
        self.ask("show-button", "pair-result", "no leak", lambda: "Not right yet" in self.text("task-result"))
        self.put("high-0", "7")
        self.put("high-1", "8")
        self.ask("show-button", "pair-result", "the level", lambda: "Right" in self.text("task-result"))
        self.look("level")

    def portrait(self, folder: str) -> None:
        """Takes the picture of README: a leak of Bob's bid, as Alice sees it, 1,000 wide at twice the resolution."""
        self.go(self.address + "#two-parties/told.vsi")
        self.verdict("Refused: bob reaches alice_leads")
        self.press("tab-leak")
        self.shows("leak-result", "a leak", lambda: "A leak at A" in self.text("leak-result"))
        self.shows("verdict-leak", "the leak beside it", lambda: "An observer at A" in self.text("verdict-leak"))
        self.click("#lattice-picture [data-class=A]")
        self.js("""for (const fold of document.querySelectorAll("#verdict details")) fold.open = false;
            document.activeElement.blur();
            scrollTo(0, 0);""")
        height = self.js("return document.querySelector('#leak-result').getBoundingClientRect().bottom")
        self.device("Emulation.setDeviceMetricsOverride", width=1000, height=int(height) + 4, deviceScaleFactor=2,
                    mobile=False)
        self.driver.save_screenshot(os.path.join(folder, f"playground-{self.scheme}.png"))

    def end(self) -> None:
        """Complains of errors in the console, but for answers of a busy server, and closes the browser."""
        for entry in self.driver.get_log("browser"):
            if entry["level"] in ("SEVERE", "WARNING") and "status of 503" not in entry["message"]:
                complain(f"{self.size[0]} {self.scheme}: the console shows {json.dumps(entry['message'])}")
        self.driver.quit()


DEBIAN_PYTHON = "/usr/bin/python3"


def has_selenium(python: str) -> bool:
    """Whether a Python has the package that drives the browser."""
    words = [python, "-c", "import selenium"]
    return os.path.exists(python) and subprocess.run(words, capture_output=True).returncode == 0


def missing() -> "list[str]":
    """What of Debian's packages is not here."""
    lacking = [name for name in ("chromium", "chromedriver") if not shutil.which(name)]
    return lacking + ([] if has_selenium(sys.executable) or has_selenium(DEBIAN_PYTHON) else ["python3-selenium"])


def visits(options: argparse.Namespace) -> "list[tuple[tuple[int, int], str]]":
    """The widths and colour schemes to go through."""
    if options.readme:
        return [((1000, 900), scheme) for scheme in ("light", "dark")]
    if options.short:
        return [(SIZES[1], "light")]
    return [(size, scheme) for size in SIZES if options.width in (None, size[0])
            for scheme in ("light", "dark") if options.scheme in (None, scheme)]


def held(doc: "Optional[str]", hold: "Callable[[str], None]", *words: str) -> None:
    """Serves the program that a script has as its first argument, and does `hold` at the server's address."""
    if len(sys.argv) < 2:
        sys.exit(doc)
    if missing():
        print(f"{os.path.basename(sys.argv[0])} opened no browser; missing:", ", ".join(missing()))
        return
    if not has_selenium(sys.executable):
        os.execv(DEBIAN_PYTHON, [DEBIAN_PYTHON, "-B", *sys.argv])
    server, address = serve(os.path.abspath(shutil.which(sys.argv[1]) or sys.argv[1]), "--unproved" in sys.argv, *words)
    try:
        hold(address)
    finally:
        server.terminate()
        server.wait()
    sys.exit(1 if faults else 0)


def go_through(options: argparse.Namespace, address: str) -> None:
    """Goes through the widths and schemes, or takes the pictures of README."""
    for size, scheme in visits(options):
        student = Student(address, size, scheme, options.pictures)
        try:
            if options.readme:
                student.portrait(options.readme)
            else:
                wide = [student.beside, student.mapped] if size == SIZES[-1] or options.short else []
                for part in (student.fix, student.share, student.fields, student.faults, student.wraps, student.panes,
                             student.judged, student.together, student.busy, student.keys, student.observers,
                             student.pages, student.exercise, student.level, *wide):
                    part()
        finally:
            student.end()


def main() -> None:
    parser = argparse.ArgumentParser(description=(__doc__ or "").split("\n")[0])
    parser.add_argument("program")
    parser.add_argument("--short", action="store_true")
    parser.add_argument("--width", type=int)
    parser.add_argument("--scheme", choices=("light", "dark"))
    parser.add_argument("--unproved", action="store_true")
    parser.add_argument("--pictures")
    parser.add_argument("--readme")
    options = parser.parse_args()
    with tempfile.TemporaryDirectory() as folder:
        held(__doc__, lambda address: go_through(options, address), "--docs", make_docs(os.path.join(folder, "docs")))


if __name__ == "__main__":
    main()
