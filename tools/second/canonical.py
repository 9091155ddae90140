"""Canonical text of a program, as `fmt` prints it."""

from grammar import Assignment, Block, Bracket, If, Letvar, Name, Number, Operator, While


def expression_text(tree):
    """An operator has a space on each side, a bracket none inside, a number no leading zeros."""
    match tree:
        case Number(value):
            return b"%d" % value
        case Name(name, _):
            return name
        case Bracket(inner):
            return b"(" + expression_text(inner) + b")"
        case Operator(symbol, left, right):
            return expression_text(left) + b" " + symbol.encode() + b" " + expression_text(right)


def command_text(tree, indent):
    """A block has its sequence at indent k + 1; other commands go on where they are."""
    match tree:
        case Assignment(name, _, value):
            return name + b" := " + expression_text(value)
        case If(guard, first, second):
            return (b"if " + expression_text(guard) + b" then " + command_text(first, indent) + b" else "
                    + command_text(second, indent))
        case While(guard, body):
            return b"while " + expression_text(guard) + b" do " + command_text(body, indent)
        case Letvar(name, _, label, value, body):
            front = b"letvar " + name + (b" : " + label.name if label else b"")
            return front + b" := " + expression_text(value) + b" in " + command_text(body, indent)
        case Block(commands):
            return b"{\n" + sequence_text(commands, indent + 1) + b"\n" + b"  " * indent + b"}"


def sequence_text(commands, indent):
    """Each command begins a line with 2k spaces, and a `;` and a line feed stand between two."""
    return b";\n".join(b"  " * indent + command_text(command, indent) for command in commands)


def canonical_text(program):
    """For each global the line `var NAME : CLASS;`, then the body at indent 0, then a line feed."""
    front = b"".join(b"var " + each.name + b" : " + each.label.name + b";\n" for each in program.globals)
    return front + sequence_text(program.body, 0) + b"\n"
