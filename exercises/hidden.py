"""Runs that no page lists: from stores drawn at random, with the numbers that the solution computes.

The folder `solution` of an exercise has, beside its text, a file `domain.toml`: a line `NAME = [LEAST, GREATEST]` for
each global from where the page's numbers may come. Each other global is 0 at first. The solution says what each global
that the page's runs expect has at the end. So an answer that only gives the page's numbers is found, and one that
computes the same in another way isn't.
"""

import os
import random
import re

COUNT, SEED = 200, 1
PATIENCE, NAME, MOST_TOLD = 20, "hidden.toml", 4_000_000
ROW = re.compile(r"^(\w+) = \[(-?[0-9]+), (-?[0-9]+)\]", re.M)
EXPECTED = re.compile(r"^expect = \{(.*)\}", re.M)
BUDGET = re.compile(r"^budget = ([0-9]+)", re.M)
LATTICE = re.compile(r'^lattice = "(.*)"', re.M)
TOLD = re.compile(r"run ([0-9]+) (\w+) = (-?[0-9]+), expected")
# A word that no solution computes.
NEVER = 8_888_888_888_888_888_888


class Unmade(Exception):
    """The hidden runs of an exercise can't be made from its solution."""


def is_there(exercise):
    return exercise.has("solution/domain.toml") and exercise.has("solution/answer.vsi")


def read(path):
    with open(path, encoding="utf-8") as file:
        return file.read()


def stores_of(exercise):
    """The stores, the same for each answer: the ends of each range first, then what is drawn."""
    rows = [(name, int(least), int(greatest))
            for name, least, greatest in ROW.findall(read(exercise.path("solution", "domain.toml")))]
    draw = random.Random(f"{exercise.name} {SEED}")
    ends = [{name: row[at] for name, *row in rows} for at in (0, 1)]
    return ends + [{name: draw.randint(least, greatest) for name, least, greatest in rows}
                   for _ in range(COUNT - len(ends))]


def table(words):
    return "{ " + ", ".join(f"{name} = {word}" for name, word in words.items()) + " }"


def interface(head, stores, ends, budget):
    """The bytes of an interface with these runs."""
    runs = [f"\n[[runs]]\nstore = {table(store)}\nbudget = {budget}\nexpect = {table(end)}\n"
            for store, end in zip(stores, ends)]
    return (head + "".join(runs)).encode()


def make(exercise, runner):
    """The files of an interface with the hidden runs, by their names, and the stores."""
    text, stores = read(exercise.path("interface.toml")), stores_of(exercise)
    head = text.split("[[runs]]")[0]
    files = {name: read(exercise.path(name)).encode() for name in LATTICE.findall(head)}
    names = {name: NEVER for row in EXPECTED.findall(text) for name in re.findall(r"(\w+) =", row)}
    budget = PATIENCE * max(map(int, BUDGET.findall(text)))
    for name, data in files.items():
        runner.keep(name, data)
    path = runner.keep(NAME, interface(head, stores, [names] * len(stores), budget))
    _, output, error = runner.run("conform", path, exercise.path("solution", "answer.vsi"), most=MOST_TOLD)
    ends, told = [{} for _ in stores], TOLD.findall(output.decode())
    for number, name, word in told:
        ends[int(number) - 1][name] = int(word)
    if len(told) != len(stores) * len(names):
        raise Unmade("the solution doesn't end from each hidden store: " + (output + error)[:200].decode())
    return {**files, NAME: interface(head, stores, ends, budget)}, stores


def lines_of(output, stores):
    """The points of hidden runs, the first three, each with the store from which its run begins."""
    told = []
    for line in output.decode(errors="replace").splitlines():
        found = re.match(r"run ([0-9]+) (.*)", line)
        if found:
            told.append(f"from the store {table(stores[int(found[1]) - 1])}: {found[2]}")
    return [*told[:3], *["and from others"] * (len(told) > 3)]
