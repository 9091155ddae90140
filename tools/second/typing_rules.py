"""The typing rules, for classes that are chosen: a program is typable where its body has a type."""

from scopes import Assignment, If, Letvar, Number, Operation, Read, While


class Untypable(Exception):
    """There is no type."""


class Typing:
    """`classes` has a class for each variable; a command's type is the greatest `t` with which it is `t cmd`."""

    def __init__(self, lattice, classes, is_strict):
        self.lattice = lattice
        self.classes = classes
        self.is_strict = is_strict

    def expression(self, tree):
        """The least `t` of an expression, by INT, R-VAL, ARITH and SUBTYPE."""
        match tree:
            case Number():
                return self.lattice.bottom()
            case Read(variable, _):
                return self.classes[variable]
            case Operation(_, left, right):
                return self.lattice.join(self.expression(left), self.expression(right))

    def require_below(self, low, high):
        if not self.lattice.is_below[low][high]:
            raise Untypable

    def sequence(self, commands):
        """COMPOSE; the empty list of commands has every type."""
        type_ = self.lattice.top()
        for command in commands:
            type_ = self.lattice.meet(type_, self.command(command))
        return type_

    def command(self, tree):
        match tree:
            case Assignment(variable, _, value):
                self.require_below(self.expression(value), self.classes[variable])
                return self.classes[variable]
            case If(guard, first, second):
                type_ = self.lattice.meet(self.sequence(first), self.sequence(second))
                self.require_below(self.expression(guard), type_)
                return type_
            case While(guard, body):
                type_ = self.lattice.meet(self.sequence(body), self.lattice.bottom() if self.is_strict
                                          else self.lattice.top())
                self.require_below(self.expression(guard), type_)
                return type_
            case Letvar(variable, value, body):
                self.require_below(self.expression(value), self.classes[variable])
                return self.sequence(body)


def is_typable(resolved, lattice, classes, is_strict):
    """Whether the body has a type with these classes."""
    try:
        Typing(lattice, classes, is_strict).sequence(resolved.body)
        return True
    except Untypable:
        return False
