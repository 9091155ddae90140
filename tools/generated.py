#!/usr/bin/env python3
"""Holds runs of the built program against the meaning of the text, over programs from a generator with fixed seeds.

usage: tools/generated.py [PROGRAM] [--programs N] [--first N]

PROGRAM is crates/vsi_program/out/vsi_program unless another is named. Each program has a lattice, a class of it that
looks on, and two stores that agree at and below that class. Where the text is accepted, its image runs from both:
what a run prints must be the words that an evaluator of the text's tree (below; it knows no image and no class) comes
to, a run may be out of budget only where the evaluator takes many turns, and the two views of the class must be one
where both runs halt. So that the last isn't empty, a text of the same declarations whose flows go anywhere is run too,
with all its classes made the lowest, so that none is refused: some of those must leave the class different words.
Nothing is written where all is well.
"""

import argparse
import os
import random
import subprocess
import sys
import tempfile

sys.dont_write_bytecode = True
HERE = os.path.dirname(os.path.abspath(__file__))
sys.path.insert(1, os.path.join(HERE, "second"))

import grammar  # noqa: E402
from compare_inputs import Maker, ORDERS, written  # noqa: E402

BUDGET = 2_000
TURNS = 40_000
WORDS = (0, 1, -4, 6, 2, -1, 2 ** 63 - 1, -2 ** 63)
# Counts in a hundred programs: accepted ones, those with both runs compared, and texts of one class that leave different
# words. About half of the counts when this was written, so that a shallow generator shows.
LEAST_ACCEPTED, LEAST_COMPARED, LEAST_LEAKING = 40, 30, 3


class TooLong(Exception):
    """The evaluator gives up."""


class Evaluator:
    """The rules of evaluation over the tree: a scope has a cell for each name, and a `letvar` one of its own."""

    def __init__(self, program, store):
        self.turns = 0
        self.cells = {each.name: [store.get(each.name.decode(), 0)] for each in program.globals}
        self.sequence(program.body, self.cells)

    def words(self):
        return {name.decode(): cell[0] for name, cell in self.cells.items()}

    def value(self, tree, scope):
        match tree:
            case grammar.Number(value):
                return value
            case grammar.Name(name, _):
                return scope[name][0]
            case grammar.Bracket(inner):
                return self.value(inner, scope)
            case grammar.Operator(symbol, left, right):
                one, other = self.value(left, scope), self.value(right, scope)
                result = {"+": one + other, "-": one - other, "*": one * other, "=": int(one == other),
                          "<": int(one < other)}[symbol]
                return (result + 2 ** 63) % 2 ** 64 - 2 ** 63

    def sequence(self, commands, scope):
        for each in commands:
            self.command(each, scope)

    def command(self, tree, scope):
        self.turns += 1
        if self.turns > TURNS:
            raise TooLong
        match tree:
            case grammar.Assignment(name, _, value):
                scope[name][0] = self.value(value, scope)
            case grammar.If(guard, first, second):
                self.command(first if self.value(guard, scope) else second, scope)
            case grammar.While(guard, body):
                while self.value(guard, scope):
                    self.command(body, scope)
            case grammar.Letvar(name, _, _, value, body):
                self.command(body, {**scope, name: [self.value(value, scope)]})
            case grammar.Block(commands):
                self.sequence(commands, scope)


class Trial:
    """One program by its number, in a folder of its own."""

    def __init__(self, program, number):
        rng = random.Random(f"generated {number}")
        self.program, self.number = program, number
        self.order = rng.choice(ORDERS[:8])
        tokens = self.drawn(rng, 1)
        self.text = written(rng, tokens)
        self.looking = rng.choice(self.order.names)
        declared = [(tokens[at + 1], tokens[at + 3]) for at, token in enumerate(tokens) if token == "var"]
        self.low = [name for name, label in declared if self.order.is_below(label, self.looking)]
        shared = {name: rng.choice(WORDS) for name in self.low}
        self.stores = [{name: shared.get(name, rng.choice(WORDS)) for name, _ in declared} for _ in range(2)]
        self.put("lattice", self.order.text)
        free = Maker(rng, self.order)
        free.care, lowest = 0, next(name for name in self.order.names if len(self.order.lower[name]) == 1)
        labels, body = {*self.order.names}, free.sequence(declared, self.order.names, 4)
        front = [token for name, _ in declared for token in ("var", name, ":", lowest, ";")]
        self.free_text = " ".join(front + [lowest if token in labels and before == ":" else token
                                           for before, token in zip(["", *body], body)]).encode()

    def drawn(self, rng, least):
        """The tokens of a program with at least so many globals."""
        while True:
            tokens = Maker(rng, self.order).program()
            if tokens.count("var") >= least:
                return tokens

    def put(self, name, data):
        with open(name, "wb") as file:
            file.write(data)

    def vsi(self, *words):
        done = subprocess.run([self.program, *words], capture_output=True, stdin=subprocess.DEVNULL)
        return done.returncode, done.stdout, done.stderr

    def fail(self, what):
        sys.exit(f"program {self.number}: {what}\n{self.text.decode()}\n{self.order.text.decode()}{self.stores}")

    def builds(self, text):
        """Whether the text is accepted; flows are the one refusal that a generated text may have."""
        self.put("source", text)
        status, _, error = self.vsi("build", "lattice", "source", "image")
        if status not in (0, 1) or status == 1 and not error.startswith(b"refused: 25 "):
            self.fail(f"build ends with {status} {error}")
        return status == 0

    def ends(self, store):
        """What the image prints at its end from a store, none where it is out of budget; and what the class sees."""
        self.put("store", "".join(f"{name} = {word}\n" for name, word in store.items()).encode())
        options = ["--store", "store", "--budget", str(BUDGET)]
        status, output, error = self.vsi("run", "image", *options)
        if status not in (0, 3):
            self.fail(f"run ends with {status} {error}")
        seen = self.vsi("view", "lattice", "image", "--class", self.looking, *options)
        if seen[0] != status:
            self.fail(f"run ends with {status}, view with {seen}")
        return (None, None) if status else (output, seen[1])

    def is_meant(self, store, output):
        """Whether a run prints what the tree means; true where the run, or the evaluator, was cut off."""
        try:
            meaning = Evaluator(grammar.parse(self.text), store)
        except TooLong:
            return output is None or self.fail("the run halts where the evaluator takes very long")
        if output is None:
            return meaning.turns > BUDGET // 2000 or self.fail("the run is out of budget where few turns are taken")
        return output.decode() == "".join(f"{name} = {word}\n" for name, word in meaning.words().items())

    def judge(self):
        """Whether the text is accepted, and whether both of its runs halted."""
        if not self.builds(self.text):
            return False, False
        (one, seen), (other, also_seen) = map(self.ends, self.stores)
        if not self.is_meant(self.stores[0], one) or not self.is_meant(self.stores[1], other):
            self.fail("a run prints other words than the text means")
        has_both = one is not None and other is not None
        if has_both and seen != also_seen:
            self.fail(f"{self.looking} sees {seen} and {also_seen}")
        return True, has_both

    def leaks(self):
        """Whether the text of one class leaves different words in the names that were low."""
        if not self.builds(self.free_text):
            self.fail("a text of one class is refused")
        one, other = (self.ends(store)[0] for store in self.stores)
        if one is None or other is None:
            return False
        lines = [dict(line.split(" = ") for line in each.decode().splitlines()) for each in (one, other)]
        return any(lines[0][name] != lines[1][name] for name in self.low)


def read_options():
    parser = argparse.ArgumentParser(usage=__doc__.split("usage: ")[1].split("\n\n")[0])
    built = os.path.join(os.path.dirname(HERE), "crates/vsi_program/out/vsi_program")
    parser.add_argument("program", nargs="?", default=built)
    parser.add_argument("--programs", type=int, default=300)
    parser.add_argument("--first", type=int, default=0)
    parser.add_argument("--figures", action="store_true", help="tell the counts")
    return parser.parse_args()


def main():
    options = read_options()
    program, accepted, compared, leaking = os.path.abspath(options.program), 0, 0, 0
    with tempfile.TemporaryDirectory() as folder:
        os.chdir(folder)
        for number in range(options.first, options.first + options.programs):
            trial = Trial(program, number)
            is_accepted, has_both = trial.judge()
            accepted, compared, leaking = accepted + is_accepted, compared + has_both, leaking + trial.leaks()
        os.chdir("/")
    figures = f"accepted {accepted}, compared {compared}, leaking {leaking} of {options.programs}"
    if options.figures:
        print(figures)
    least = (LEAST_ACCEPTED, LEAST_COMPARED, LEAST_LEAKING)
    if any(100 * count < floor * options.programs for count, floor in zip((accepted, compared, leaking), least)):
        sys.exit(f"too few to tell: {figures}")


if __name__ == "__main__":
    sys.setrecursionlimit(50_000)
    main()
