#!/usr/bin/env python3
"""Lattices of 64 classes and texts of 200 variables, whose pictures are as wide, as high or as full as they get.

usage: tools/large_texts.py FOLDER

Writes each lattice to FOLDER/NAME.toml and each text to FOLDER/NAME.vsi, and prints the names of the pairs that fit, a
line each: a lattice and a text. tools/pages takes pictures of their pages.
"""

import json
import os
import sys

VARIABLES = 200
WORDS = ["temperature", "pressure", "valve", "operator_password", "set_point", "alarm", "journal", "k",
         "backup_of_the_journal"]


def lattice(classes, below):
    return f"classes = {json.dumps(classes)}\nbelow = {json.dumps(below)}\n"


def chain():
    """64 classes, one above the other."""
    names = [f"level_{number}" for number in range(64)]
    return names, list(zip(names, names[1:]))


def grid():
    """Eight by eight: secrecy and integrity, say."""
    names = [f"s{row}_i{column}" for row in range(8) for column in range(8)]
    return names, [(f"s{row}_i{column}", f"s{row + up}_i{column + right}") for row in range(8) for column in range(8)
                   for up, right in ((1, 0), (0, 1)) if row + up < 8 and column + right < 8]


def flat():
    """62 classes side by side, one below all and one above all."""
    names = [f"tenant_{number}" for number in range(62)]
    return (["public"] + names + ["auditor"],
            [("public", name) for name in names] + [(name, "auditor") for name in names])


def sets():
    """The sets of six owners."""
    def name(members):
        return "_".join("abcdef"[bit] for bit in range(6) if members >> bit & 1) or "none"
    return ([name(members) for members in range(64)],
            [(name(members), name(members | 1 << bit)) for members in range(64) for bit in range(6)
             if not members >> bit & 1])


def two():
    """One class below another one."""
    return ["L", "H"], [("L", "H")]


LATTICES = {"chain": chain, "grid": grid, "flat": flat, "sets": sets, "two": two}


def variables(classes):
    """So many names of many lengths, and their classes in turn."""
    return [(f"{WORDS[number % len(WORDS)]}_{number}", classes[number * len(classes) // VARIABLES])
            for number in range(VARIABLES)]


def declared(pairs):
    return "".join(f"var {name} : {label};\n" for name, label in pairs)


def one_each(classes):
    """A flow for each two neighbours of a class, and no other."""
    pairs = variables(classes)
    steps = [f"{name} := {before} + 1" for (before, one), (name, other) in zip(pairs, pairs[1:]) if one == other]
    return declared(pairs) + ";\n".join(steps)


def links(classes):
    """A chain through all variables, of which some step is refused unless the classes are a chain too."""
    pairs = variables(classes)
    return declared(pairs) + ";\n".join(f"{name} := {before} + 1" for (before, _), (name, _) in zip(pairs, pairs[1:]))


def star(classes):
    """One variable into all others."""
    pairs = variables(classes)
    return declared(pairs) + ";\n".join(f"{name} := {pairs[0][0]}" for name, _ in pairs[1:])


def sink(classes):
    """All others into the last one, by the guard of a choice."""
    pairs = variables(classes)
    guard = " + ".join(name for name, _ in pairs[:180])
    return declared(pairs) + f"if {guard} then {pairs[-1][0]} := 1 else {pairs[-1][0]} := 2"


def all_to_all(classes):
    """A loop whose guard reads all variables, all of which it writes."""
    pairs = variables(classes)
    return (declared(pairs) + f"while {balanced([name for name, _ in pairs])} do {{\n"
            + ";\n".join(f"{name} := 1" for name, _ in pairs) + "\n}")


def balanced(names):
    """The sum of the names, as flat as brackets make it."""
    if len(names) < 3:
        return " + ".join(names)
    middle = len(names) // 2
    return f"({balanced(names[:middle])}) + ({balanced(names[middle:])})"


TEXTS = {"one_each": one_each, "links": links, "star": star, "sink": sink, "all_to_all": all_to_all}


def main():
    if len(sys.argv) != 2:
        sys.exit(__doc__)
    for name, make in LATTICES.items():
        classes, below = make()
        with open(os.path.join(sys.argv[1], name + ".toml"), "w", encoding="ascii") as file:
            file.write(lattice(classes, below))
        for word, text in TEXTS.items():
            with open(os.path.join(sys.argv[1], f"{name}-{word}.vsi"), "w", encoding="ascii") as file:
                file.write(text(classes))
            print(f"{name}.toml {name}-{word}.vsi")


if __name__ == "__main__":
    main()
