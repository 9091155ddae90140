"""Resolution: each name as the declaration that it stands for; brackets leave nothing, blocks join the sequence."""

from typing import NamedTuple

import grammar
from faults import Refusal, place

GLOBAL_LIMIT = 256
DECLARATION_LIMIT = 1024
SIZE_LIMIT = 65_534


class Variable:
    """A variable is a declaration; its label is the number of its declared class, or None."""

    def __init__(self, name, at, label, is_global, label_at=None):
        self.name = name
        self.at = at
        self.label = label
        self.label_at = label_at
        self.is_global = is_global


class Number(NamedTuple):
    value: int


class Read(NamedTuple):
    variable: Variable
    at: int


class Operation(NamedTuple):
    symbol: str
    left: object
    right: object


class Assignment(NamedTuple):
    variable: Variable
    at: int
    value: object


class If(NamedTuple):
    guard: object
    first: list
    second: list


class While(NamedTuple):
    guard: object
    body: list


class Letvar(NamedTuple):
    variable: Variable
    value: object
    body: list


class Resolved(NamedTuple):
    """The globals, all declarations in the order of the text, and the body as a list of commands."""

    globals: list
    declared: list
    body: list


class Resolver:
    """Goes through a program in the order of its text, with the innermost declaration of each name."""

    def __init__(self, program, lattice):
        self.program = program
        self.lattice = lattice
        self.declared = []
        self.scope = {}
        self.size = 0

    def refuse(self, name, at):
        raise Refusal(name, place(self.program.text, at))

    def resolve(self):
        for each in self.program.globals:
            self.declare_global(each)
        body = self.sequence(self.program.body)
        if self.size > SIZE_LIMIT:
            raise Refusal("TooLarge")
        return Resolved([each for each in self.declared if each.is_global], self.declared, body)

    def declare_global(self, each):
        """A name that a global above has already is Duplicate, a 257th global TooManyGlobals."""
        if each.name in self.scope:
            self.refuse("Duplicate", each.at)
        if len(self.declared) == GLOBAL_LIMIT:
            self.refuse("TooManyGlobals", each.at)
        self.scope[each.name] = self.declare(each, True)

    def declare(self, tree, is_global):
        """A 1,025th declaration is TooManyDeclarations, a class that the lattice lacks UnknownClass."""
        if len(self.declared) == DECLARATION_LIMIT:
            self.refuse("TooManyDeclarations", tree.at)
        label = self.lattice.number(tree.label.name) if tree.label else None
        if tree.label and label is None:
            self.refuse("UnknownClass", tree.label.at)
        self.declared.append(Variable(tree.name, tree.at, label, is_global, tree.label and tree.label.at))
        return self.declared[-1]

    def named(self, name, at):
        """A name stands for the innermost declaration round it; one that isn't declared is Unbound."""
        if name not in self.scope:
            self.refuse("Unbound", at)
        return self.scope[name]

    def expression(self, tree):
        """A number or a name that is read counts 1, an operator 1."""
        match tree:
            case grammar.Bracket(inner):
                return self.expression(inner)
            case grammar.Number(value):
                self.size += 1
                return Number(value)
            case grammar.Name(name, at):
                self.size += 1
                return Read(self.named(name, at), at)
            case grammar.Operator(symbol, left, right):
                self.size += 1
                return Operation(symbol, self.expression(left), self.expression(right))

    def sequence(self, trees):
        """A block's commands join the sequence round it."""
        commands = []
        for tree in trees:
            commands += self.command(tree)
        return commands

    def command(self, tree):
        """An assignment counts 1, an `if` or `while` 2 and a `letvar` 1, beside their parts; blocks count nothing."""
        match tree:
            case grammar.Block(commands):
                return self.sequence(commands)
            case grammar.Assignment(name, at, value):
                self.size += 1
                return [Assignment(self.named(name, at), at, self.expression(value))]
            case grammar.If(guard, first, second):
                self.size += 2
                return [If(self.expression(guard), self.command(first), self.command(second))]
            case grammar.While(guard, body):
                self.size += 2
                return [While(self.expression(guard), self.command(body))]
            case grammar.Letvar():
                self.size += 1
                return [self.letvar(tree)]

    def letvar(self, tree):
        """`letvar x := e in c` makes a new variable for `c` alone; the initial value is read outside."""
        variable = self.declare(tree, False)
        value = self.expression(tree.value)
        outer = dict(self.scope)
        self.scope[tree.name] = variable
        body = self.command(tree.body)
        self.scope = outer
        return Letvar(variable, value, body)


def resolve(program, lattice):
    """The resolved program, or the first of 17 to 21 in the order of the text, else 22."""
    return Resolver(program, lattice).resolve()


def reads(tree):
    """The names read in an expression, in the order of the text."""
    match tree:
        case Read():
            return [tree]
        case Operation(_, left, right):
            return reads(left) + reads(right)
    return []


def first_reads(tree):
    """Of each variable that is read the first read: a later one makes steps behind it in the order, and the same."""
    firsts = {}
    for read in reads(tree):
        firsts.setdefault(read.variable, read)
    return list(firsts.values())


def has_loop(commands):
    """Whether a `while` stands among the commands, at any depth."""
    return any(isinstance(each, While) or any(has_loop(part) for part in parts(each)) for each in commands)


def parts(command):
    """The lists of commands within a command."""
    match command:
        case If(_, first, second):
            return [first, second]
        case While(_, body) | Letvar(_, _, body):
            return [body]
    return []
