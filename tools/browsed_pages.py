#!/usr/bin/env python3
"""Opens the pages that `vsi report` prints of the examples in a browser, and looks at what it makes of them.

usage: tools/browsed_pages.py PROGRAM [EXAMPLE ..]

PROGRAM is the built program; without EXAMPLE all folders of examples/ are gone through, each lattice file with each
source text. Chromium opens each page, headless, in a frame that is 360, 800 and 1,600 wide, since its windows aren't as
narrow as a phone; it is installed first where it is missing. The text of the source panel as the browser has it must be
the source, byte for byte; nothing may stick out of the frame to the right; and the console may show no error. Texts with
120 variables, where each flows to each, need at most 12 sheets of A4. Silent where all is well; it needs some three
minutes.
"""

import glob
import html
import json
import os
import re
import shutil
import subprocess
import sys
import tempfile
import urllib.parse

WIDTHS = (360, 800, 1600)
FRAME = """<!DOCTYPE html>
<body><iframe id="page" width="%d" height="1000" style="border: 0" srcdoc="%s"></iframe>
<script>
onload = () => {
  var frame = document.getElementById("page");
  var page = frame.contentDocument;
  var told = document.createElement("pre");
  told.id = "told";
  told.textContent = encodeURIComponent(JSON.stringify({
    text: page.querySelector("pre.source").textContent,
    width: frame.contentWindow.innerWidth,
    wide: page.documentElement.scrollWidth,
  }));
  document.body.replaceChildren(told);
};
</script></body>"""
ROOT = os.path.dirname(os.path.dirname(os.path.abspath(__file__)))
faults = 0


def complain(name, text):
    global faults
    faults += 1
    print(f"{name}: {text}", flush=True)


def browser():
    if not shutil.which("chromium"):
        for words in (["update"], ["install", "-y", "chromium"]):
            subprocess.run(["apt-get", *words], check=True, stdout=subprocess.DEVNULL, stderr=subprocess.DEVNULL)
    return "chromium"


def opened(path):
    """The browser's account of the page in the frame, or None, and its complaints."""
    words = [browser(), "--headless=new", "--no-sandbox", "--disable-gpu", "--hide-scrollbars", "--window-size=1700,1100",
             "--enable-logging=stderr", "--virtual-time-budget=2000", "--dump-dom", f"file://{path}"]
    ran = subprocess.run(words, capture_output=True, timeout=120)
    found = re.search(r'<pre id="told">(.*?)</pre>', ran.stdout.decode(), re.S)
    errors = re.findall(r"CONSOLE.*", ran.stderr.decode(errors="replace"))
    return json.loads(urllib.parse.unquote(found[1])) if found else None, errors


def look(name, page, source, scratch):
    path = os.path.join(scratch, "frame.html")
    for width in WIDTHS:
        with open(path, "w", encoding="utf-8") as file:
            file.write(FRAME % (width, html.escape(page.decode())))
        told, errors = opened(path)
        if told is None:
            complain(name, f"nothing told at {width}")
        elif told["text"].encode() != source:
            complain(name, f"another source at {width}")
        elif told["width"] != width or told["wide"] > width:
            complain(name, f"{told['wide']} wide in a window of {told['width']}, at {width}")
        for error in errors:
            complain(name, f"an error at {width}: {error}")


def printed(program, scratch):
    """Prints the pages of texts of 120 variables, in a chain upwards or downwards that ends where it begins."""
    leaves = ("lattice", "source", "page.html", "sheets")
    lattice, source, page, sheets = (os.path.join(scratch, leaf) for leaf in leaves)
    with open(lattice, "w") as file:
        file.write('classes = ["L", "H"]\nbelow = [["L", "H"]]\n')
    for step in (1, -1):
        lines = [f"var v{n} : {'LH'[n % 2]};" for n in range(120)]
        lines += [f"v{n} := v{(n + step) % 120} + 1{';' * (n < 119)}" for n in range(120)]
        with open(source, "w") as file:
            file.write("\n".join(lines) + "\n")
        with open(page, "wb") as file:
            subprocess.run([program, "report", lattice, source], check=True, stdout=file)
        subprocess.run([browser(), "--headless=new", "--no-sandbox", "--disable-gpu", "--no-pdf-header-footer",
                        f"--print-to-pdf={sheets}", f"file://{page}"], capture_output=True, timeout=120)
        with open(sheets, "rb") as file:
            count = len(re.findall(rb"/Type /Page\b", file.read()))
        if not 0 < count <= 12:
            complain(f"a chain by {step}", f"{count} sheets")


def main():
    if len(sys.argv) < 2:
        sys.exit(__doc__)
    program = os.path.abspath(sys.argv[1])
    wanted = sys.argv[2:] or sorted(os.listdir(os.path.join(ROOT, "examples")))
    pages = 0
    with tempfile.TemporaryDirectory() as scratch:
        for example in wanted:
            folder = os.path.join(ROOT, "examples", example)
            for lattice in sorted(glob.glob(folder + "/*.toml")):
                for source in sorted(glob.glob(folder + "/*.vsi")):
                    # A store file is no lattice: it has no page.
                    made = subprocess.run([program, "report", lattice, source], capture_output=True)
                    if made.returncode == 0:
                        with open(source, "rb") as file:
                            name = os.path.relpath(source, ROOT)
                            look(name, made.stdout, file.read(), scratch)
                        pages += 1
        printed(program, scratch)
    if pages == 0:
        complain("examples", "no page")
    sys.exit(1 if faults else 0)


if __name__ == "__main__":
    main()
