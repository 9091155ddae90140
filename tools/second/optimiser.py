"""Folding, and dead assignments: a resolved body as the body that is written as instructions."""

from scopes import Assignment, If, Letvar, Number, Operation, While, reads


def word(value):
    """A value modulo 2^64, from -9223372036854775808 to 9223372036854775807."""
    return (value + 2 ** 63) % 2 ** 64 - 2 ** 63


OPERATORS = {"+": lambda a, b: word(a + b), "-": lambda a, b: word(a - b), "*": lambda a, b: word(a * b),
             "=": lambda a, b: int(a == b), "<": lambda a, b: int(a < b)}


def folded_expression(tree):
    """An operator on two numbers becomes the number that it gives; nothing else of arithmetic is used."""
    match tree:
        case Operation(symbol, left, right):
            left, right = folded_expression(left), folded_expression(right)
            if isinstance(left, Number) and isinstance(right, Number):
                return Number(OPERATORS[symbol](left.value, right.value))
            return Operation(symbol, left, right)
    return tree


def folded(commands):
    """The commands of a sequence, with those that come of each."""
    return [each for command in commands for each in folded_command(command)]


def folded_command(tree):
    """An `if` whose guard has become a number is replaced, a `while` whose guard has become 0 goes; all else stays."""
    match tree:
        case Assignment(variable, at, value):
            return [Assignment(variable, at, folded_expression(value))]
        case Letvar(variable, value, body):
            return [Letvar(variable, folded_expression(value), folded(body))]
        case If(guard, first, second):
            guard = folded_expression(guard)
            if isinstance(guard, Number):
                return folded(second if guard.value == 0 else first)
            return [If(guard, folded(first), folded(second))]
        case While(guard, body):
            guard = folded_expression(guard)
            return [] if guard == Number(0) and isinstance(guard, Number) else [While(guard, folded(body))]


def variables_read(tree):
    return frozenset(read.variable for read in reads(tree))


def all_read(commands):
    """What any expression within the commands reads: all guards, values and initial values, at any depth."""
    found = set()
    for command in commands:
        match command:
            case Assignment(_, _, value):
                found |= variables_read(value)
            case Letvar(_, value, body) | While(value, body):
                found |= variables_read(value) | all_read(body)
            case If(guard, first, second):
                found |= variables_read(guard) | all_read(first) | all_read(second)
    return frozenset(found)


def kept_sequence(commands, live):
    """What stays of a sequence, the last command first, and what is live before it."""
    kept = []
    for command in reversed(commands):
        stays, live = kept_command(command, live)
        kept += reversed(stays)
    return kept[::-1], live


def kept_command(tree, live):
    match tree:
        case Assignment(variable, _, value):
            if not variable.is_global and variable not in live:
                return [], live
            return [tree], live - ({variable} if not variable.is_global else set()) | variables_read(value)
        case If(guard, first, second):
            first, before_first = kept_sequence(first, live)
            second, before_second = kept_sequence(second, live)
            return [If(guard, first, second)], before_first | before_second | variables_read(guard)
        case Letvar(variable, value, body):
            body, before = kept_sequence(body, live)
            return [Letvar(variable, value, body)], before - {variable} | variables_read(value)
        case While(guard, body):
            throughout = live | variables_read(guard) | all_read(body)
            return [While(guard, kept_in_loop(body, throughout))], throughout


def kept_in_loop(commands, live):
    """Within a loop an assignment to a variable from outside stays exactly where the set has the variable, one to the
    variable of a `letvar` exactly where the command behind its `in` reads it."""
    kept = []
    for command in commands:
        match command:
            case Assignment(variable, _, _):
                kept += [command] if variable.is_global or variable in live else []
            case If(guard, first, second):
                kept.append(If(guard, kept_in_loop(first, live), kept_in_loop(second, live)))
            case While(guard, body):
                kept.append(While(guard, kept_in_loop(body, live)))
            case Letvar(variable, value, body):
                inner = live - {variable} | ({variable} & all_read(body))
                kept.append(Letvar(variable, value, kept_in_loop(body, inner)))
    return kept


def optimised(body):
    """The body folded, and then rid of dead assignments; at its end the globals are live, as they are everywhere."""
    return kept_sequence(folded(body), frozenset())[0]
