"""Fault texts: the refusals, their numbers and names, and places as LINE:COLUMN."""

NAMES = {
    1: "NotToml", 2: "BadShape", 3: "NoClass", 4: "TooManyClasses", 5: "BadName", 6: "DuplicateName", 7: "UnknownName",
    8: "Cycle", 9: "NoJoin", 10: "NoMeet", 11: "TooLong", 12: "BadByte", 13: "BadWord", 14: "BadNumber",
    15: "Unexpected", 16: "TooDeep", 17: "Duplicate", 18: "UnknownClass", 19: "Unbound", 20: "TooManyGlobals",
    21: "TooManyDeclarations", 22: "TooLarge", 25: "Refused", 27: "BadMagic", 28: "BadVersion", 29: "BadField",
    30: "BadOpcode", 31: "Truncated", 32: "Trailing", 33: "BadSlot", 34: "BadTarget", 35: "Underflow", 36: "Overflow",
    37: "NotEmpty", 38: "RunsOff", 40: "NotToml", 41: "NotANumber", 42: "UnknownGlobal", 43: "ClassNotInLattice"}


class Refusal(Exception):
    """A refusal by its number, with its fields, and the explanation that follows where there is one."""

    def __init__(self, name, *fields, number=None, explanation=b""):
        self.number = number or next(number for number in NAMES if NAMES[number] == name)
        self.fields = fields
        self.explanation = explanation
        super().__init__(self.number, *fields)

    def text(self):
        """The line `refused: NUMBER NAME`, and the fields behind it, each after a space."""
        fields = [field if isinstance(field, bytes) else str(field).encode() for field in self.fields]
        words = [b"%d" % self.number, NAMES[self.number].encode(), *fields]
        return b"refused: " + b" ".join(words) + b"\n" + self.explanation


def place(text, at):
    """Lines and columns are counted from 1, columns in bytes; a line ends with a line feed, and no other byte."""
    line, column = text.count(b"\n", 0, at) + 1, at - text.rfind(b"\n", 0, at)
    return f"{line}:{column}"
