#!/usr/bin/env python3
"""Runs emitted C beside the machine, as many C compilers build it and on several processors.

usage: tools/emitted.py [PROGRAM] [--count N] [--first N] [--builds N]

PROGRAM is crates/vsi_program/out/vsi_program unless another is named. Half of the images are compiled from texts by
the generator of tools/generated.py, half are valid images that no compiler made (tools/emitted_images.py). Each is
printed by `vsi emit-c`, and run from three stores with the budgets 0, 1, one below what the run takes, what it takes,
and a large one: the answers and the globals must be those of `vsi run`. Where an image has a bound, the function of
`emit-c --bounded` must leave the same globals as each run that halts. A hundred images are compiled at a time,
without a warning: by gcc and clang at each level with the sanitizer of undefined behaviour, and by the compilers for
other processors, whose programs run under qemu-user. With `--builds` each hundred is compiled only N times, in turn
by each compiler at each of its levels. What isn't installed is left out, and named in a line; without any compiler
the trial fails. A difference ends it with its case; else nothing is written.
"""

import argparse
import itertools
import os
import random
import re
import subprocess
import sys
import tempfile

sys.dont_write_bytecode = True
HERE = os.path.dirname(os.path.abspath(__file__))
sys.path.insert(1, os.path.join(HERE, "second"))

import image as images  # noqa: E402
from c_compilers import HEADERS, HOSTS, OTHERS, SILENT, Fault, installed  # noqa: E402
from emitted_images import NUMBERS, odd_image  # noqa: E402
from generated import Trial  # noqa: E402

BATCH, LARGE = 100, 20_000
# So many images of a whole batch have a bound, at least.
BOUNDED = 20

HARNESS = """\
#include <inttypes.h>
#include <stdio.h>
#include <string.h>
%(includes)s
typedef int emitted(int64_t *, uint64_t);
typedef void bounded(int64_t *);
static const struct { emitted *run; bounded *settle; int globals; } images[] = {
%(rows)s
};

int main(void) {
    unsigned number;
    uint64_t budget;
    int64_t globals[256] = {0}, again[256];
    while (scanf("%%u %%" SCNu64, &number, &budget) == 2) {
        for (int at = 0; at < images[number].globals; at++)
            if (scanf("%%" SCNd64, &globals[at]) != 1) return 1;
        memcpy(again, globals, sizeof again);
        int answer = images[number].run(globals, budget);
        printf("%%d", answer);
        if (answer == 0 && images[number].settle) {
            images[number].settle(again);
            if (memcmp(again, globals, (size_t)images[number].globals * sizeof again[0])) printf(" bounded:");
            memcpy(globals, again, sizeof again);
        }
        for (int at = 0; at < images[number].globals; at++) printf(" %%" PRId64, globals[at]);
        putchar('\\n');
    }
    return 0;
}
"""


class Emitted:
    """One image by its number, in a folder: its C, its header, and what the machine says of each of its runs."""

    def __init__(self, program, folder, number):
        self.program, self.folder, self.number = program, folder, number
        self.name = f"image_{number % BATCH}"
        self.rng = random.Random(f"emitted {number}")
        self.data = self.made()
        self.globals = [name.decode() for name, _ in images.decode(self.data).globals]
        self.put(f"{self.name}.image", self.data)
        self.put(f"{self.name}.c", self.vsi(0, "emit-c", f"{self.name}.image")[0])
        self.put(f"{self.name}.h", self.vsi(0, "emit-c", f"{self.name}.image", "--header")[0])
        self.is_bounded = self.is_settled()
        self.cases = [case for _ in range(3) for case in self.runs(self.store())]

    def made(self):
        if self.number % 2:
            return odd_image(self.rng)
        trial = Trial(self.program, self.number)
        if not trial.builds(trial.text) and not trial.builds(trial.free_text):
            raise Fault(f"image {self.number}: a text of one class is refused")
        with open("image", "rb") as file:
            return file.read()

    def is_settled(self):
        """Writes the function without a budget, with its header; or the image is refused in one line."""
        name = f"{self.name}_bounded"
        asked = ["emit-c", f"{self.name}.image", "--bounded", "--name", name]
        text, said = self.vsi(1, *asked)
        if text is None:
            if not said.startswith(b"no bound") or said.count(b"\n") != 1:
                raise Fault(f"image {self.number}: {' '.join(asked)} says {said.decode()}")
            return False
        if re.search(rb"uint64_t budget\b|\bbudget (<|-)", text):
            raise Fault(f"image {self.number}: {' '.join(asked)} writes a budget")
        self.put(f"{name}.c", text)
        self.put(f"{name}.h", self.vsi(0, *asked, "--header")[0])
        return True

    def put(self, name, data):
        with open(os.path.join(self.folder, name), "wb") as file:
            file.write(data)

    def vsi(self, wanted, *arguments):
        done = subprocess.run([self.program, *arguments], cwd=self.folder, capture_output=True,
                              stdin=subprocess.DEVNULL)
        if done.returncode not in (wanted, 0):
            raise Fault(f"image {self.number}: vsi {' '.join(arguments)} ends with status {done.returncode}\n"
                        f"{done.stderr.decode()}")
        return (done.stdout if done.returncode == 0 else None), done.stderr

    def store(self):
        return [self.rng.choice([*NUMBERS, self.rng.randrange(-2 ** 63, 2 ** 63)]) for _ in self.globals]

    def runs(self, store):
        """The cases of a store: the number of the image, the budget and the words, with the line that is wanted."""
        self.put("store", "".join(f"{name} = {word}\n" for name, word in zip(self.globals, store)).encode())
        taken = self.vsi(3, "run", f"{self.name}.image", "--store", "store", "--budget", str(LARGE), "--count")[1]
        exact = int(taken.split()[1]) if taken.startswith(b"instructions: ") else LARGE
        for budget in sorted({0, 1, exact - 1, exact, LARGE}):
            output, _ = self.vsi(3, "run", f"{self.name}.image", "--store", "store", "--budget", str(budget))
            words = store if output is None else [line.split(" = ")[1] for line in output.decode().splitlines()]
            yield (" ".join(map(str, [self.number % BATCH, budget, *store])),
                   " ".join(map(str, [int(output is None), *words])))


def files_of(batch):
    """The names of the files of a batch, without their endings."""
    return [each.name for each in batch] + [f"{each.name}_bounded" for each in batch if each.is_bounded]


def row_of(each):
    """The line of an image in the table of the functions."""
    bounded = f"{each.name}_bounded_run" if each.is_bounded else "0"
    return f"    {{{each.name}_run, {bounded}, {each.name}_globals}}"


def write_harness(folder, batch):
    """One file with all functions, and one that calls them by their headers."""
    with open(os.path.join(folder, "functions.c"), "w", encoding="ascii") as file:
        file.writelines(f'#include "{name}.c"\n' for name in files_of(batch))
    with open(os.path.join(folder, "harness.c"), "w", encoding="ascii") as file:
        file.write(HARNESS % {
            "includes": "".join(f'#include "{name}.h"\n' for name in files_of(batch)),
            "rows": ",\n".join(map(row_of, batch))})


def compile_headers(compilers, folder, batch):
    """Compiles the headers as C++ too, silently."""
    with open(os.path.join(folder, "headers.cpp"), "w", encoding="ascii") as file:
        file.writelines(f'#include "{name}.h"\n' for name in files_of(batch))
    for compiler in compilers:
        compiler.compile(["-std=c++11", *SILENT[1:], "-c", "headers.cpp", "-o", "headers.o"], folder)


def compare(target, level, folder, batch):
    """Compiles a batch by a compiler at a level, and compares its lines with those of the machine."""
    target.compile([*SILENT, level, "functions.c", "harness.c", "-o", "built"], folder)
    cases = [case for each in batch for case in each.cases]
    lines = target.run("built", folder, "".join(f"{case}\n" for case, _ in cases)).splitlines()
    for (case, wanted), line in zip(cases, [*lines, *[None] * len(cases)]):
        if line != wanted:
            number = int(case.split()[0])
            raise Fault(f"{target.name} {level}: image {batch[number].number} with the budget and the words "
                        f"{case.split(' ', 1)[1]}\nanswers {line}\nand vsi {wanted}\n"
                        f"{images.listing(images.decode(batch[number].data)).decode()}")


def read_options():
    parser = argparse.ArgumentParser(usage=__doc__.split("usage: ")[1].split("\n\n")[0])
    built = os.path.join(os.path.dirname(HERE), "crates/vsi_program/out/vsi_program")
    parser.add_argument("program", nargs="?", default=built)
    parser.add_argument("--count", type=int, default=100)
    parser.add_argument("--first", type=int, default=0)
    parser.add_argument("--builds", type=int)
    return parser.parse_args()


def main():
    options = read_options()
    program = os.path.abspath(options.program)
    of_headers = installed(HEADERS)
    builds = [(target, level) for target in installed(HOSTS + OTHERS) for level in target.levels]
    if not builds:
        raise Fault("nothing runs, since no compiler is installed")
    wanted = min(options.builds or len(builds), len(builds))
    turns = itertools.cycle(builds)
    end = options.first + options.count
    with tempfile.TemporaryDirectory() as folder:
        os.chdir(folder)
        for first in range(options.first, end, BATCH):
            batch = [Emitted(program, folder, number) for number in range(first, min(first + BATCH, end))]
            if len(batch) == BATCH and sum(each.is_bounded for each in batch) < BOUNDED:
                raise Fault(f"of the images from {first} on too few have a bound")
            write_harness(folder, batch)
            compile_headers(of_headers, folder, batch)
            for target, level in itertools.islice(turns, wanted):
                compare(target, level, folder, batch)
        os.chdir("/")


if __name__ == "__main__":
    sys.setrecursionlimit(50_000)
    try:
        main()
    except Fault as fault:
        sys.exit(str(fault))
