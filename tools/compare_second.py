#!/usr/bin/env python3
"""Runs the built program and the second implementation, tools/second, on the same inputs, and reports differences.

usage: tools/compare_second.py [PROGRAM] [--programs N] [--inputs N] [--minutes M] [--seed S] [--first N] [--jobs J]
        [--keep FOLDER] [--quiet]

PROGRAM is crates/vsi_program/out/vsi_program unless another is named. Programs are source texts from a generator,
with lattices and stores; each goes through fmt, check, check --strict, classes, flows, mend and build, its image
through list, run and view. A text with a program goes through conform with an interface, and an image through audit,
which must accept it as check does, and bound, which must find the longest way where no jump leads back. Inputs are
those of tools/soak.py. Program or input number K is the same for the same seed, whatever the other options are, so
--first K --programs 1 --inputs 0 gives it again. Compared are status, both streams and the written image; of help and
of mistakes in the words only the status and which stream is written. Each difference is reported with its input, whose
files are copied to FOLDER. The last line has the counts, and is left out by --quiet where nothing differs; the status
is 1 where there was a difference. It needs /dev/shm, and leaves nothing there.
"""

import collections
import os
import random
import sys
import time

sys.dont_write_bytecode = True
sys.path.insert(1, os.path.join(os.path.dirname(os.path.abspath(__file__)), "second"))

import program as second  # noqa: E402
from conformance import conform, longest_run  # noqa: E402
from faults import Refusal  # noqa: E402
from grammar import parse  # noqa: E402
from image import decode  # noqa: E402
from lattice import read_lattice  # noqa: E402
from scopes import resolve  # noqa: E402
from toml import document  # noqa: E402
from compare_inputs import Case  # noqa: E402
from soak import Answer, Runner  # noqa: E402
from soak_inputs import COMPILING, Input  # noqa: E402
from workers import gathered, option_parser, read_options  # noqa: E402

SHOWN_BYTES = 1500
NO_FILES = {"source": b"", "lattice": b"", "image": b"", "store": b"", "other": b""}
MISTAKE = b"error: a mistake in the words\n"


def second_answer(words, files):
    """What the second implementation answers; a fault of its own is an answer that the program never gives."""
    try:
        return second.answer([word.encode() for word in words], lambda limit: files["source"][:limit])
    except Exception as fault:
        return -1, b"", f"{type(fault).__name__}: {fault}".encode()


def is_same(one, other):
    """Whether the program's answer is the second implementation's; the wording of help and of mistakes is free."""
    if other.status == 2 and other.error == MISTAKE:
        return one.status == 2 and not one.output and one.error and not one.error.startswith(b"no class ")
    if other.status == 0 and other.output == second.HELP:
        return one.status == 0 and one.output and not one.error
    return one == other


class Worker:
    """Goes through every so many programs and inputs."""

    def __init__(self, options, job, folder):
        self.options = options
        self.numbers = range(options.first + job, options.first + max(options.programs, options.inputs), options.jobs)
        self.runner = Runner(options.program, folder)
        self.figures = collections.Counter()

    def compare(self, label, words, files):
        """Runs both on a command line with its files; the second implementation's answer."""
        self.runner.put(files)
        self.runner.is_stopped = False
        one, _ = self.runner.run(words)
        other = Answer(*second_answer(words, files), None)
        other = other._replace(written=self.runner.written())
        self.figures["runs"] += 1
        self.figures[f"status {other.status}"] += 1
        if other.status == 1 and other.error:
            self.figures["refused " + other.error.split()[1].decode()] += 1
        if self.runner.is_stopped or not is_same(one, other):
            self.report(label, words, files, one, other)
        return other

    def run_program(self, words, files):
        """The program's answer alone."""
        self.runner.put(files)
        self.runner.is_stopped = False
        self.figures["runs"] += 1
        return self.runner.run(words)[0]

    def require(self, label, words, files, status, output):
        """Runs the program alone, and compares it with an answer without a text on standard error."""
        one, other = self.run_program(words, files), Answer(status, output, b"", None)
        if one != other:
            self.report(label, words, files, one, other)

    def try_interface(self, label, case, files):
        """Judges a text that has a program by an interface."""
        try:
            lattice = read_lattice(files["lattice"])
            resolved = resolve(parse(files["source"]), lattice)
        except Refusal:
            return
        declared = [(each.name.decode(), lattice.names[each.label].decode()) for each in resolved.globals]
        files = {**files, "other": case.interface(declared)}
        self.require(label, ["conform", "other", "source"], files,
                     *conform(files["source"], resolved, lattice, document(files["other"])))
        self.figures["interfaces"] += 1

    def try_image(self, label, files):
        """Audits an image that was built, and compares its bound."""
        self.require(label, ["audit", "lattice", "image"], files, 0, b"accepted\n")
        if self.run_program(["check", "--strict", "lattice", "source"], files).status == 0:
            self.require(label, ["audit", "--strict", "lattice", "image"], files, 0, b"accepted\n")
        most = longest_run(decode(files["image"]))
        if most is not None:
            self.require(label, ["bound", "image"], files, 0, b"halts within %d instructions\n" % most)
            self.figures["bounds"] += 1
        self.figures["audits"] += 1

    def report(self, label, words, files, one, other):
        self.figures["differences"] += 1
        named = [name for name in files if name in words or not words and name == "source"]
        lines = [f"{label}: {words}", *(f"  {name}: {files[name][:SHOWN_BYTES]!r}" for name in named)]
        for who, answer in (("program", one), ("second", other)):
            lines += [f"  {who}: {answer.status} {answer.output[:SHOWN_BYTES]!r} {answer.error[:SHOWN_BYTES]!r} "
                      f"{answer.written and answer.written[:SHOWN_BYTES]!r}"]
        print("\n".join(lines), flush=True)
        if self.options.keep:
            folder = os.path.join(self.options.keep, f"{label.replace(' ', '-')}-{self.figures['runs']}")
            os.makedirs(folder, exist_ok=True)
            for name, data in {**files, "words": "\n".join(words).encode()}.items():
                with open(os.path.join(folder, name), "wb") as file:
                    file.write(data)

    def try_program(self, number):
        case = Case(random.Random(f"program {self.options.seed}/{number}"))
        files = {**NO_FILES, "source": case.source, "lattice": case.lattice}
        answer = None
        for words in case.compilations():
            answer = self.compare(f"program {number}", words, files)
        self.figures["programs"] += 1
        self.try_interface(f"program {number}", case, files)
        if answer.status != 0:
            return
        self.figures["accepted"] += 1
        files["image"] = answer.written
        self.try_image(f"program {number}", files)
        for words, store in case.runs():
            self.compare(f"program {number}", words, {**files, "store": store})

    def try_input(self, number):
        given = Input(random.Random(f"{self.options.seed}/{number}"), COMPILING)
        self.compare(f"input {number}", given.words, given.files)
        self.figures["inputs"] += 1

    def work(self):
        end = time.monotonic() + 60 * self.options.minutes
        for number in self.numbers:
            if time.monotonic() > end:
                break
            if number < self.options.first + self.options.programs:
                self.try_program(number)
            if number < self.options.first + self.options.inputs:
                self.try_input(number)
        return self.figures


def tool_options():
    parser = option_parser(__doc__, 600, 2)
    parser.add_argument("--programs", type=int, default=10_000)
    parser.add_argument("--inputs", type=int, default=10_000)
    parser.add_argument("--keep", type=os.path.abspath)
    parser.add_argument("--quiet", action="store_true")
    return read_options(parser)


def main():
    options = tool_options()
    answers, lost = gathered(Worker, options, "compare")
    figures = sum(answers, collections.Counter({"lost workers": lost}))
    counts = ["programs", "accepted", "interfaces", "audits", "bounds", "inputs", "runs",
              *sorted(key for key in figures if key[:2] in ("st", "re")),
              "lost workers", "differences"]
    is_bad = bool(figures["lost workers"] or figures["differences"] or options.quiet and not figures["accepted"])
    if is_bad or not options.quiet:
        print(f"seed {options.seed}: " + ", ".join(f"{key} {figures[key]}" for key in counts))
    return 1 if is_bad else 0


if __name__ == "__main__":
    sys.exit(main())
