"""Flow steps in their order, least classes, the walk that is told, and its explanation."""

from typing import NamedTuple

from faults import Refusal, place
from scopes import Assignment, If, Letvar, Variable, While, first_reads, has_loop
from typing_rules import is_typable


class Step(NamedTuple):
    """A single flow: the places are those of the read and of the name that is written."""

    source: Variable
    target: Variable
    rule: str
    read_at: int
    written_at: int


class Steps:
    """The steps of a program in their order. Of the steps with one source and one target only the first is kept:
    in a walk each can stand for the other, and the first gives the walk that comes first."""

    def __init__(self, resolved, is_strict, ending):
        self.kept = {}
        self.is_strict = is_strict
        self.ending = ending
        self.guards = []
        self.sequence(resolved.body)
        self.list = list(self.kept.values())

    def add(self, reads, target, rule, written_at=None):
        for read in reads:
            at = read.at if written_at is None else written_at
            self.kept.setdefault((read.variable, target), Step(read.variable, target, rule, read.at, at))

    def sequence(self, commands):
        """In a sequence or a block: the steps of its commands, in turn."""
        for command in commands:
            self.command(command)

    def command(self, tree):
        match tree:
            case Assignment(variable, at, value):
                self.add(first_reads(value), variable, "ASSIGN", at)
                for reads, rule in self.guards:
                    self.add(reads, variable, rule, at)
            case Letvar(variable, value, body):
                self.add(first_reads(value), variable, "LETVAR", variable.at)
                self.sequence(body)
            case If(guard, first, second):
                self.under(guard, "IF", has_loop(first + second), [first, second])
            case While(guard, body):
                self.under(guard, "WHILE", True, [body])

    def under(self, guard, rule, has_a_loop, bodies):
        """The steps at an `if` or `while`: under the strict profile LOOP steps of its own guard, then its parts'."""
        reads = first_reads(guard)
        if self.is_strict and has_a_loop:
            self.add(reads, self.ending, "LOOP")
        self.guards.append((reads, rule))
        for body in bodies:
            self.sequence(body)
        self.guards.pop()


def least_classes(declared, steps, lattice):
    """Starting from the bottom class, and joining until nothing changes."""
    classes = {each: lattice.bottom() if each.label is None else each.label for each in declared}
    is_changed = True
    while is_changed:
        is_changed = False
        for step in steps:
            source, target = classes[step.source], classes[step.target]
            if step.target.label is None and not lattice.is_below[source][target]:
                classes[step.target] = lattice.join(source, target)
                is_changed = True
    return classes


def distances(targets, steps):
    """The fewest steps from each variable to one of the targets, where there is a walk."""
    before = {}
    for step in steps:
        before.setdefault(step.target, []).append(step.source)
    found, edge, distance = dict.fromkeys(targets, 0), list(targets), 0
    while edge:
        distance += 1
        edge = [source for target in edge for source in before.get(target, ())]
        edge = [source for source in dict.fromkeys(edge) if source not in found]
        found |= dict.fromkeys(edge, distance)
    return found


def bad_walk(declared, steps, lattice):
    """A bad walk of the fewest steps, and of these the first in dictionary order; None where there is none."""
    ends = [each for each in declared if each.label is not None]
    to_bad = {}
    for label in {each.label for each in ends}:
        to_bad[label] = distances([end for end in ends if not lattice.is_below[label][end.label]], steps)
    lengths = {each: to_bad[each.label][each] for each in ends if each in to_bad[each.label]}
    if not lengths:
        return None
    length = min(lengths.values())
    starts = {each for each in lengths if lengths[each] == length}
    first = next(step for step in steps
                 if step.source in starts and to_bad[step.source.label].get(step.target) == length - 1)
    walk, remaining = [first], to_bad[first.source.label]
    while remaining[walk[-1].target] > 0:
        walk.append(next(step for step in steps if step.source is walk[-1].target
                         and remaining.get(step.target) == remaining[step.source] - 1))
    return walk


def explanation(walk, text, lattice):
    """One line for each step of the walk, then one last line."""
    lines = [b"%s %s flows to %s by %s at %s\n" % (
        place(text, step.read_at).encode(), step.source.name, step.target.name, step.rule.encode(),
        place(text, step.written_at).encode()) for step in walk]
    first, last = walk[0].source, walk[-1].target
    names = lattice.names
    lines.append(b"%s : %s may not flow to %s : %s\n" % (first.name, names[first.label], last.name, names[last.label]))
    return b"".join(lines)


def judge(resolved, text, lattice, is_strict):
    """The class of each variable, declared or inferred; or 25 Refused with its explanation."""
    ending = Variable(b"(loop)", None, lattice.bottom(), False)
    declared = [*resolved.declared, ending]
    steps = Steps(resolved, is_strict, ending).list
    classes = least_classes(declared, steps, lattice)
    walk = bad_walk(declared, steps, lattice)
    goes_up = all(lattice.is_below[classes[step.source]][classes[step.target]] for step in steps)
    assert goes_up == (walk is None) == is_typable(resolved, lattice, classes, is_strict)
    if walk:
        raise Refusal("Refused", explanation=explanation(walk, text, lattice))
    return classes


def class_lines(resolved, text, lattice, classes):
    """For each declaration `LINE:COLUMN NAME : CLASS`, globals first, then `letvar`s in the order of the text."""
    return b"".join(b"%s %s : %s\n" % (place(text, each.at).encode(), each.name, lattice.names[classes[each]])
                    for each in resolved.declared)
