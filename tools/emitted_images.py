"""Valid images that no compiler made, drawn from a generator of numbers: code that nothing reaches, jumps anywhere,
runs without an end, many slots, deep stacks, no globals, and names that mean something in C."""

import os
import sys

sys.path.insert(1, os.path.join(os.path.dirname(os.path.abspath(__file__)), "second"))

from image import encode  # noqa: E402
from instructions import GIVES, TAKES, Image  # noqa: E402

NAMES = ["int", "goto", "volatile", "restrict", "inline", "run", "globals", "budget", "words", "x0", "s0", "L0", "at",
         "VSI_KEEP", "uint64_t", "UINT64_C", "main", "NULL", "class", "typename", "a" * 32, "B" * 32, "h", "l"]
NUMBERS = [0, 1, -1, 2, 3, 255, 2 ** 31, -2 ** 31, 2 ** 32, 2 ** 63 - 1, -2 ** 63, 2 ** 62, 0x5555555555555555]
OPERATORS = ["ADD", "SUB", "MUL", "EQ", "LT"]


class Code:
    """Instructions with the depth at which each is met, the jumps still without a target."""

    def __init__(self, rng, slots, room, operators):
        self.rng, self.slots, self.room, self.operators = rng, slots, room, operators
        self.code, self.depths, self.depth = [], [], 0

    def add(self, name, operand=None):
        self.code.append((name, operand))
        self.depths.append(self.depth)
        self.depth += GIVES.get(name, 0) - TAKES.get(name, 0)

    def push(self):
        if self.slots and self.rng.random() < 0.7:
            self.add("LOAD", self.rng.randrange(self.slots))
        else:
            self.add("PUSH", self.rng.choice(NUMBERS))

    def straight(self, deepest):
        """Operands and operators, up to so many operands, down to one."""
        for _ in range(self.rng.randrange(1, 2 * deepest + 2)):
            if self.depth < 2 or self.depth < deepest and self.rng.random() < 0.6:
                self.push()
            else:
                self.add(self.rng.choice(self.operators))
        while self.depth > 1:
            self.add(self.rng.choice(self.operators))

    def segment(self):
        """An assignment, a branch, a jump or a halt."""
        choice = self.rng.random()
        if choice < 0.12 or self.room == 0:
            self.add(self.rng.choice(["JMP", "JMP", "HALT"]))
            self.depth = 0
            return
        self.straight(self.rng.choice([1, min(2, self.room), min(4, self.room), self.room]))
        if choice < 0.35 or self.slots == 0:
            self.add("JZ")
        else:
            self.add("STORE", self.rng.randrange(self.slots))

    def finished(self, segments):
        """So many segments, with targets wherever no operand is met."""
        for _ in range(segments):
            self.segment()
        self.add("HALT" if self.rng.random() < 0.8 else "JMP")
        places = [place for place, depth in enumerate(self.depths) if depth == 0]
        later = self.rng.random() < 0.6
        code = []
        for place, (name, operand) in enumerate(self.code):
            if name in ("JZ", "JMP"):
                ahead = [each for each in places if each > place] if later else places
                operand = self.rng.choice(ahead or places)
            code.append((name, operand))
        return code


def odd_image(rng):
    """The bytes of a valid image."""
    globals_ = rng.choice([0, 1, 2, 3, 5, 5, 5, 24, rng.choice([255, 256])])
    slots = rng.choice([globals_, globals_ + 1, globals_ + 3, 512 if rng.random() < 0.2 else globals_])
    room = rng.choice([0, 1, 2, 2, 3, 8, 256 if rng.random() < 0.2 else 5])
    version = rng.choice([1, 2, 2])
    code = Code(rng, slots, room, OPERATORS if version == 2 else [each for each in OPERATORS if each != "MUL"])
    names = rng.sample(NAMES, min(globals_, len(NAMES))) + [f"g{number}" for number in range(len(NAMES), globals_)]
    named = [(name.encode(), rng.choice(NAMES).encode()) for name in names]
    instructions = code.finished(rng.choice([0, 1, 3, 8, 20, 40]))
    stack = max(code.depths) if rng.random() < 0.8 else 256
    return encode(Image(version, slots, stack, named, instructions))
