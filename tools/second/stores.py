"""Store files, store texts and views."""

from faults import Refusal
from toml import NotToml, document


def read_store(text, globals_):
    """A word for each global, 0 for one without a key; else the first faulty key in the order of their bytes."""
    try:
        tables = document(text)
    except NotToml:
        raise Refusal("NotToml", number=40) from None
    names = [name for name, _ in globals_]
    for key in sorted(tables):
        if not isinstance(tables[key], int):
            raise Refusal("NotANumber", key)
        if key not in names:
            raise Refusal("UnknownGlobal", key)
    return [tables.get(name, 0) for name in names]


def store_text(image, store, is_shown=lambda label: True):
    """A line `NAME = NUMBER` for each global in order, in a view for each that is shown."""
    return b"".join(b"%s = %d\n" % (name, number) for (name, label), number in zip(image.globals, store)
                    if is_shown(label))


def class_numbers(image, lattice):
    """The classes of the image's globals in the lattice; 43, the first global whose class it lacks."""
    for number, (_, label) in enumerate(image.globals):
        if lattice.number(label) is None:
            raise Refusal("ClassNotInLattice", number)
    return {label: lattice.number(label) for _, label in image.globals}
