#!/usr/bin/env python3
"""Builds programs of the soak's generator, and reports images that `vsi audit` doesn't accept.

usage: tools/audited.py [PROGRAM] [--count N] [--minutes M] [--seed S] [--jobs J] [--first N]

PROGRAM is crates/vsi_program/out/vsi_program unless another is named. A program is a source text that the generator of
tools/soak.py draws from the grammar, with a lattice whose classes it has; now and then one of many variables, or one
that is nested deeply. Each is built under both profiles; an image that is built is audited under the same profile, must
be accepted, and the text that `vsi source` finds back, if the image has one, must be accepted by `vsi check` under it.
Programs whose flows are refused have no image and count as refused. Program number K is the same for the same seed.
The last line has the figures; the status is 1 where anything was reported. It needs /dev/shm, and leaves nothing there.
"""

import collections
import os
import random
import sys
import time

sys.dont_write_bytecode = True

from soak import Runner  # noqa: E402
from soak_inputs import a_deep_program, a_large_program, a_program  # noqa: E402
from workers import gathered, option_parser, read_options  # noqa: E402

LATTICES = [text.encode() for text in (
    'classes = ["L", "H", "A", "B"]\nbelow = [["L", "A"], ["L", "B"], ["A", "H"], ["B", "H"]]\n',
    'classes = ["L", "A", "B", "H"]\nbelow = [["L", "A"], ["A", "B"], ["B", "H"]]\n',
    'classes = ["H", "B", "A", "L"]\nbelow = [["H", "B"], ["B", "A"], ["A", "L"]]\n',
)]
ACCEPTED = b"accepted\n"


def a_case(rng):
    """A source text, and a lattice with its classes."""
    chance = rng.random()
    maker = a_large_program if chance < 0.0005 else a_deep_program if chance < 0.02 else a_program
    return maker(rng), rng.choice(LATTICES)


class Worker:
    """Goes through every so many programs and counts what becomes of them."""

    def __init__(self, options, job, folder):
        self.options, self.job = options, job
        self.runner = Runner(options.program, folder)
        self.figures = collections.Counter()

    def report(self, number, what):
        self.figures["reports"] += 1
        print(f"program {number}: {what}", flush=True)

    def audit(self, number, source, lattice, strict):
        """Builds a program under a profile, and audits the image if there is one."""
        self.runner.put({"source": source, "lattice": lattice})
        built, _ = self.runner.run(["build", "lattice", "source", "written", *strict])
        if built.status != 0:
            self.figures["refused"] += 1
            return
        self.figures["images"] += 1
        self.runner.put({"image": built.written})
        judged, _ = self.runner.run(["audit", "lattice", "image", *strict])
        if (judged.status, judged.output) != (0, ACCEPTED):
            self.report(number, f"audited {strict}: {judged}")
            return
        found, _ = self.runner.run(["source", "image"])
        if found.error == b"refused: 51 NoText\n":
            self.figures["without a text"] += 1
            return
        self.runner.put({"source": found.output})
        again, _ = self.runner.run(["check", "lattice", "source", *strict])
        if (found.status, again.status, again.output) != (0, 0, ACCEPTED):
            self.report(number, f"found back {strict}: {found.status}, {again}")

    def work(self):
        first, end = self.options.first, time.monotonic() + 60 * self.options.minutes
        for number in range(first + self.job, first + self.options.count, self.options.jobs):
            if time.monotonic() > end:
                break
            source, lattice = a_case(random.Random(f"{self.options.seed}/{number}"))
            for strict in [], ["--strict"]:
                self.audit(number, source, lattice, strict)
            self.figures["programs"] += 1
        return self.figures


def main():
    parser = option_parser(__doc__, 60, len(os.sched_getaffinity(0)))
    parser.add_argument("--count", type=int, default=100_000)
    options = read_options(parser)
    answers, lost = gathered(Worker, options, "audited")
    figures = sum(answers, collections.Counter())
    print(f"seed {options.seed}, programs {figures['programs']}, images {figures['images']},",
          f"refused {figures['refused']}, without a text {figures['without a text']},",
          f"lost workers {lost}, reports {figures['reports']}")
    return 1 if lost or figures["reports"] else 0


if __name__ == "__main__":
    sys.exit(main())
