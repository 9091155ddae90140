"""Instructions, and the image of an accepted text."""

from typing import NamedTuple

from optimiser import optimised
from scopes import Assignment, If, Letvar, Number, Operation, Read, While

OPCODES = {"PUSH": 1, "LOAD": 2, "STORE": 3, "ADD": 4, "SUB": 5, "EQ": 6, "LT": 7, "JZ": 8, "JMP": 9, "HALT": 10,
           "MUL": 11}
OPERAND_BYTES = {"PUSH": 8, "LOAD": 2, "STORE": 2, "JZ": 4, "JMP": 4}
TAKES = {"STORE": 1, "ADD": 2, "SUB": 2, "EQ": 2, "LT": 2, "JZ": 1, "MUL": 2}
GIVES = {"PUSH": 1, "LOAD": 1, "ADD": 1, "SUB": 1, "EQ": 1, "LT": 1, "MUL": 1}
INSTRUCTION_OF = {"+": "ADD", "-": "SUB", "*": "MUL", "=": "EQ", "<": "LT"}


class Image(NamedTuple):
    """`globals` are pairs of a name and a class name, `code` pairs of an instruction's text and its operand."""

    version: int
    slots: int
    stack: int
    globals: list
    code: list


class Writer:
    """Writes instructions; the slots grow by one for each `letvar` that stands round a command."""

    def __init__(self, globals_):
        self.code = []
        self.slot_of = {each: slot for slot, each in enumerate(globals_)}
        self.slots = len(globals_)
        self.stack = 0

    def write(self, name, operand=None):
        self.code.append((name, operand))
        return len(self.code) - 1

    def set_target(self, jump):
        """The target of a jump that was written is the next instruction."""
        self.code[jump] = (self.code[jump][0], len(self.code))

    def expression(self, tree):
        """Those of the left operand, those of the right one, the operator's; the operands that it needs."""
        match tree:
            case Number(value):
                self.write("PUSH", value)
                return 1
            case Read(variable, _):
                self.write("LOAD", self.slot_of[variable])
                return 1
            case Operation(symbol, left, right):
                needed = max(self.expression(left), 1 + self.expression(right))
                self.write(INSTRUCTION_OF[symbol])
                return needed

    def value(self, tree):
        self.stack = max(self.stack, self.expression(tree))

    def sequence(self, commands, depth):
        """Those of its commands, in turn; `depth` is the number of the globals and of the `letvar`s round it."""
        for command in commands:
            self.command(command, depth)

    def command(self, tree, depth):
        match tree:
            case Assignment(variable, _, value):
                self.value(value)
                self.write("STORE", self.slot_of[variable])
            case Letvar(variable, value, body):
                self.value(value)
                self.slot_of[variable] = depth
                self.slots = max(self.slots, depth + 1)
                self.write("STORE", depth)
                self.sequence(body, depth + 1)
            case If(guard, first, second):
                self.value(guard)
                to_second = self.write("JZ")
                self.sequence(first, depth)
                to_end = self.write("JMP")
                self.set_target(to_second)
                self.sequence(second, depth)
                self.set_target(to_end)
            case While(guard, body):
                start = len(self.code)
                self.value(guard)
                to_end = self.write("JZ")
                self.sequence(body, depth)
                self.write("JMP", start)
                self.set_target(to_end)


def compile_image(resolved, lattice):
    """The image of an accepted text; one HALT ends the code."""
    writer = Writer(resolved.globals)
    writer.sequence(optimised(resolved.body), len(resolved.globals))
    writer.write("HALT")
    names = [(each.name, lattice.names[each.label]) for each in resolved.globals]
    return Image(2, writer.slots, writer.stack, names, writer.code)
