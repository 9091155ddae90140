#!/usr/bin/env python3
"""Texts within the limits whose flows are as many, or whose walks as long, as the limits allow.

usage: tools/hostile_texts.py FOLDER

Writes each text to FOLDER/NAME, two.toml (two classes) and chain.toml (64 classes, one above the other) beside them,
and prints the names, each with its lattice. tools/soak.py draws them too.
"""

import os
import sys

ROOM = 65_000
NEST = 190

TWO = 'classes = ["L", "H"]\nbelow = [["L", "H"]]\n'
CHAIN = ("classes = [" + ", ".join(f'"c{number}"' for number in range(64)) + "]\nbelow = ["
         + ", ".join(f'["c{number}", "c{number + 1}"]' for number in range(63)) + "]\n")


def balanced(names):
    """The sum of the names, as flat as brackets make it: 2 instructions less one for each."""
    if len(names) < 3:
        return " + ".join(names)
    middle = len(names) // 2
    return f"({balanced(names[:middle])}) + ({balanced(names[middle:])})"


def globals_of(pairs):
    return "".join(f"var {name} : {label}; " for name, label in pairs)


def repeated(names, count):
    return (names * (count // len(names) + 1))[:count]


def assignments(names, count, value="1"):
    return "; ".join(f"{name} := {value}" for name in repeated(names, count))


def chain(first, count, body, name="v"):
    """Letvars of which each is the one before it, and the first one the given name; the body reads the last."""
    letvars = "".join(f"letvar {name}{number} := {f'{name}{number - 1}' if number else first} in "
                      for number in range(count))
    return letvars + body


FRONT = globals_of([("h", "H"), ("l", "L"), ("g", "L"), ("w", "H")])


def guard_before_chain(room=ROOM, links=NEST, keyword="while"):
    """One guard with many reads round many assignments, and then a chain to a bad assignment."""
    reads, writes = room // 4, room // 4 - 2 * links
    loop = {"while": "while {} do {{ {} }}", "if": "if {} then {{ {}; while 0 do w := 1 }} else w := 1"}[keyword]
    return FRONT + "{ " + loop.format(balanced(["g"] * reads), assignments(["w"], writes)) + " }; " \
        + chain("h", links, f"l := v{links - 1}")


def guard_round_chain(room=ROOM, links=NEST):
    """The same with the chain inside."""
    reads, writes = room // 4, room // 4 - 2 * links
    return FRONT + f"while {balanced(['g'] * reads)} do {{ " \
        + chain("h", links, f"{{ {assignments(['w'], writes)}; l := v{links - 1} }}") + " }"


def guard_behind_chain(room=ROOM, links=NEST - 20):
    """The same with the guard after the bad assignment."""
    reads, writes = room // 4, room // 4 - 2 * links
    return FRONT + chain("h", links, f"{{ l := v{links - 1}; while {balanced(['g'] * reads)} do "
                         f"{{ {assignments(['w'], writes)} }} }}")


def nested_guards(room=ROOM, guards=NEST // 2, links=NEST // 2, word="while {} do "):
    """Many guards, one in another, with a share of the reads each, round many assignments."""
    reads, writes = room // 4 // guards, room // 4 - 2 * links
    return FRONT + "{ " + "".join(word.format(balanced(["g"] * reads)) for _ in range(guards)) \
        + f"{{ {assignments(['w'], writes)} }} }}; " + chain("h", links, f"l := v{links - 1}")


def many_names(room=ROOM, links=NEST):
    """Guard and assignments over as many names as there may be, and a chain."""
    names = [f"g{number}" for number in range(200)]
    reads, writes = room // 4, room // 4 - 2 * links
    return FRONT + globals_of([(name, "L") for name in names]) \
        + f"{{ while {balanced(repeated(names, reads))} do {{ {assignments(names, writes)} }} }}; " \
        + chain("h", links, f"l := v{links - 1}")


def long_walk(room=ROOM, nests=5, links=NEST - 10, gap=""):
    """A walk of about 1,000 steps, from one nest of letvars to the next through a letvar round both."""
    ends = [f"t{number}" for number in range(nests - 1)]
    reads, writes = room // 4, room // 4 - 2 * nests * links
    rooms = [chain(top, links, f"{end} := {name}{links - 1}", name)
             for top, end, name in zip(["h"] + ends, ends + ["l"], "abcdefij")]
    return FRONT + f"{{ while {balanced(['g'] * reads)} do {{ {assignments(['w'], writes)} }} }}; " \
        + "".join(f"letvar {end} := 0 in " for end in ends) \
        + "{ " + f"; {gap}".join(f"{{ {text} }}" for text in reversed(rooms)) + " }"


def far_places(size=1_000_000):
    """A long walk whose places are far apart in a text that is nearly as long as a text may be."""
    gap = "#" + "x" * (size // 5 - 3000) + "\n"
    return long_walk(8000, gap=gap)


def many_classes(nests=5, links=NEST - 20, ring="", is_refused=True):
    """64 classes that flow one after another, the lowest first, into a chain of letvars through several nests."""
    ends = [f"t{number}" for number in range(nests - 1)]
    tops = [f"g{number}" for number in range(64)]
    front = globals_of([(top, f"c{63 - number}") for number, top in enumerate(tops)] + [("z", "c63")])
    rooms = []
    for top, end, name in zip(["s"] + ends, ends + ["z"], "abcdefij"):
        inner = [f"{name}{number}" for number in range(links)] + ends
        body = ring and ring.format(balanced(inner), assignments(inner, len(inner)))
        rooms.append(f"{{ {chain(top, links, f'{{ {body}{end} := {name}{links - 1} }}', name)} }}")
    back = "".join(f"; {top} := {ends[-1]}" for top in tops) if is_refused else ""
    return front + "".join(f"letvar {name} := 0 in " for name in ["s"] + ends) \
        + "{ " + "; ".join(f"s := {top}" for top in tops) + "; " + "; ".join(rooms) + back + " }"


RING = "while {} do {{ {} }}; "

# Each shape by its name, with the lattice of its classes.
SHAPES = {
    "guard_before_chain": (guard_before_chain, "two"),
    "guard_round_chain": (guard_round_chain, "two"),
    "guard_behind_chain": (guard_behind_chain, "two"),
    "choice_before_chain": (lambda: guard_before_chain(keyword="if"), "two"),
    "nested_guards": (nested_guards, "two"),
    "nested_choices": (lambda: nested_guards(word="if {} then w := 2 else "), "two"),
    "many_names": (many_names, "two"),
    "long_walk": (long_walk, "two"),
    "far_places": (far_places, "two"),
    "many_classes": (many_classes, "chain"),
    "many_classes_accepted": (lambda: many_classes(is_refused=False), "chain"),
    "rings_of_classes": (lambda: many_classes(ring=RING), "chain"),
}


LATTICES = {"two": TWO, "chain": CHAIN}


def some_hostile_text(rng):
    """One of the shapes and its lattice, as bytes; some without their last character."""
    shape, lattice = SHAPES[rng.choice(sorted(SHAPES))]
    text = shape()
    return text[:len(text) - (rng.random() < 0.1)].encode(), LATTICES[lattice].encode()


def main():
    if len(sys.argv) != 2:
        sys.exit(__doc__)
    for name, text in LATTICES.items():
        with open(os.path.join(sys.argv[1], name + ".toml"), "w", encoding="ascii") as file:
            file.write(text)
    for name, (shape, lattice) in SHAPES.items():
        text = shape()
        with open(os.path.join(sys.argv[1], name), "w", encoding="ascii") as file:
            file.write(text)
        print(f"{name} {lattice}.toml {len(text)} bytes")


if __name__ == "__main__":
    main()
