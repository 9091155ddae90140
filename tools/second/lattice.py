"""Lattice files: the classes, their order, joins and meets."""

import functools

from faults import Refusal
from toml import NotToml, document
from words import is_name

CLASS_LIMIT = 64


class Lattice:
    """Classes by their numbers; `is_below` is the reflexive and transitive closure of the pairs."""

    def __init__(self, names, pairs):
        self.names = names
        self.classes = range(len(names))
        self.is_below = closure(len(names), pairs)
        self.join, self.meet = functools.cache(self.join), functools.cache(self.meet)
        self.bottom, self.top = functools.cache(self.bottom), functools.cache(self.top)

    def least(self, candidates):
        """The one of these classes that is below all of them, or None."""
        return next((a for a in candidates if all(self.is_below[a][b] for b in candidates)), None)

    def greatest(self, candidates):
        return next((a for a in candidates if all(self.is_below[b][a] for b in candidates)), None)

    def join(self, a, b):
        """The least class above both."""
        return self.least([c for c in self.classes if self.is_below[a][c] and self.is_below[b][c]])

    def meet(self, a, b):
        """The greatest class below both."""
        return self.greatest([c for c in self.classes if self.is_below[c][a] and self.is_below[c][b]])

    def bottom(self):
        return self.least(self.classes)

    def top(self):
        return self.greatest(self.classes)

    def number(self, name):
        """The number of the class of this name, or None."""
        return self.names.index(name) if name in self.names else None


def closure(count, pairs):
    """The reflexive and transitive closure of the declared pairs."""
    below = [[a == b for b in range(count)] for a in range(count)]
    for low, high in pairs:
        below[low][high] = True
    for middle in range(count):
        for low in range(count):
            if below[low][middle]:
                below[low] = [old or new for old, new in zip(below[low], below[middle])]
    return below


def is_shaped(tables):
    """Exactly two keys: `classes`, an array of strings, and `below`, an array of arrays of exactly two strings."""
    if set(tables) != {b"classes", b"below"}:
        return False
    classes, below = tables[b"classes"], tables[b"below"]
    if not isinstance(classes, list) or not isinstance(below, list):
        return False
    return all(isinstance(name, str) for name in classes) and all(
        isinstance(pair, list) and len(pair) == 2 and all(isinstance(name, str) for name in pair) for pair in below)


def judge_names(names, pairs):
    """3 to 7: each is looked for in the whole file before the next."""
    if not names:
        raise Refusal("NoClass")
    if len(names) > CLASS_LIMIT:
        raise Refusal("TooManyClasses")
    for number, name in enumerate(names):
        if not is_name(name):
            raise Refusal("BadName", number)
    for number, name in enumerate(names):
        if name in names[:number]:
            raise Refusal("DuplicateName", number)
    for number, pair in enumerate(pairs):
        if any(name not in names for name in pair):
            raise Refusal("UnknownName", number)


def judge_order(lattice):
    """8 to 10: of several pairs of classes the least in dictionary order of their numbers."""
    pairs = [(a, b) for a in lattice.classes for b in lattice.classes if a < b]
    for a, b in pairs:
        if lattice.is_below[a][b] and lattice.is_below[b][a]:
            raise Refusal("Cycle", a, b)
    for a, b in pairs:
        if lattice.join(a, b) is None:
            raise Refusal("NoJoin", a, b)
    for a, b in pairs:
        if lattice.meet(a, b) is None:
            raise Refusal("NoMeet", a, b)


def read_lattice(text):
    """The lattice that a lattice file declares."""
    try:
        tables = document(text)
    except NotToml:
        raise Refusal("NotToml", number=1) from None
    if not is_shaped(tables):
        raise Refusal("BadShape")
    names = [name.encode() for name in tables[b"classes"]]
    pairs = [tuple(name.encode() for name in pair) for pair in tables[b"below"]]
    judge_names(names, pairs)
    lattice = Lattice(names, [(names.index(low), names.index(high)) for low, high in pairs])
    judge_order(lattice)
    return lattice
