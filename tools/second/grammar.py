"""The grammar: a list of tokens as the tree that writes it, read from the left with count of the room."""

from typing import NamedTuple

from faults import Refusal, place
from words import tokens_of

DEPTH_LIMIT = 200


class Number(NamedTuple):
    value: int


class Name(NamedTuple):
    name: bytes
    at: int


class Operator(NamedTuple):
    symbol: str
    left: object
    right: object


class Bracket(NamedTuple):
    inner: object


class Assignment(NamedTuple):
    name: bytes
    at: int
    value: object


class If(NamedTuple):
    guard: object
    first: object
    second: object


class While(NamedTuple):
    guard: object
    body: object


class Letvar(NamedTuple):
    name: bytes
    at: int
    label: Name | None
    value: object
    body: object


class Block(NamedTuple):
    commands: list


class Global(NamedTuple):
    name: bytes
    at: int
    label: Name


class Program(NamedTuple):
    text: bytes
    globals: list
    body: list


class Reader:
    """Reads tokens from the left; it refuses at the first token with which no program goes on."""

    def __init__(self, text):
        self.text = text
        self.tokens = tokens_of(text)
        self.next = 0

    def kind(self):
        return self.tokens[self.next].kind if self.next < len(self.tokens) else None

    def refuse(self, name):
        """At the token, or behind the last byte of the last token (at 1:1, where there is no token)."""
        if self.next < len(self.tokens):
            raise Refusal(name, place(self.text, self.tokens[self.next].at))
        last = self.tokens[-1] if self.tokens else None
        raise Refusal(name, place(self.text, last.at + len(last.text) if last else 0))

    def take(self, kind):
        """The next token, which must be of this kind; else Unexpected."""
        if self.kind() != kind:
            self.refuse("Unexpected")
        self.next += 1
        return self.tokens[self.next - 1]

    def open(self, kind, room):
        """`if`, `while`, `letvar`, `{` and `(` want a room of at least 1, else they are TooDeep."""
        if room < 1:
            self.refuse("TooDeep")
        return self.take(kind)

    def name(self):
        token = self.take("name")
        return Name(token.text, token.at)

    def program(self):
        """program = { "var" name ":" name ";" } sequence; the body begins with room 200."""
        declared = []
        while self.kind() == "var":
            declared.append(self.declaration())
        body = self.sequence(DEPTH_LIMIT)
        if self.kind() is not None:
            self.refuse("Unexpected")
        return Program(self.text, declared, body)

    def declaration(self):
        self.take("var")
        name = self.name()
        self.take(":")
        label = self.name()
        self.take(";")
        return Global(name.name, name.at, label)

    def sequence(self, room):
        """sequence = simple { ";" simple }; it hands on the room that it has."""
        commands = [self.simple(room)]
        while self.kind() == ";":
            self.take(";")
            commands.append(self.simple(room))
        return commands

    def simple(self, room):
        """A command by its first token; parts are read with a room of one less, an assignment's with the same."""
        readers = {"name": self.assignment, "if": self.conditional, "while": self.loop, "letvar": self.local,
                   "{": self.block}
        if self.kind() not in readers:
            self.refuse("Unexpected")
        return readers[self.kind()](room)

    def assignment(self, room):
        name = self.name()
        self.take(":=")
        return Assignment(name.name, name.at, self.expr(room)[0])

    def conditional(self, room):
        self.open("if", room)
        guard, _ = self.expr(room - 1)
        self.take("then")
        first = self.simple(room - 1)
        self.take("else")
        return If(guard, first, self.simple(room - 1))

    def loop(self, room):
        self.open("while", room)
        guard, _ = self.expr(room - 1)
        self.take("do")
        return While(guard, self.simple(room - 1))

    def local(self, room):
        self.open("letvar", room)
        name, label = self.name(), None
        if self.kind() == ":":
            self.take(":")
            label = self.name()
        self.take(":=")
        value, _ = self.expr(room - 1)
        self.take("in")
        return Letvar(name.name, name.at, label, value, self.simple(room - 1))

    def block(self, room):
        self.open("{", room)
        commands = self.sequence(room - 1)
        self.take("}")
        return Block(commands)

    def expr(self, room):
        """expr = sum [ ( "=" | "<" ) sum ]; a comparison doesn't go on. The tree and its depth."""
        left = self.sum(room)
        return self.operation(left, self.sum, room) if self.kind() in ("=", "<") else left

    def sum(self, room):
        """sum = term { ( "+" | "-" ) term }"""
        left = self.term(room)
        while self.kind() in ("+", "-"):
            left = self.operation(left, self.term, room)
        return left

    def term(self, room):
        """term = atom { "*" atom }"""
        left = self.atom(room)
        while self.kind() == "*":
            left = self.operation(left, self.atom, room)
        return left

    def operation(self, left, right_reader, room):
        """An operator is TooDeep where the depth of the finished operand before it isn't below the room."""
        tree, depth = left
        if depth >= room:
            self.refuse("TooDeep")
        symbol = self.take(self.kind()).kind
        right, right_depth = right_reader(room - 1)
        return Operator(symbol, tree, right), 1 + max(depth, right_depth)

    def atom(self, room):
        """atom = number | name | "(" expr ")"; a number or name without brackets has depth 0."""
        if self.kind() == "number":
            return Number(int(self.take("number").text.lstrip(b"0") or b"0")), 0
        if self.kind() == "name":
            return self.name(), 0
        if self.kind() != "(":
            self.refuse("Unexpected")
        self.open("(", room)
        inner, depth = self.expr(room - 1)
        self.take(")")
        return Bracket(inner), depth + 1


def parse(text):
    """The program of a text, or the first of 11, of 12 to 14, of 15 and 16."""
    return Reader(text).program()
