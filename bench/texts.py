#!/usr/bin/env python3
"""Writes texts of nearly 1 MiB, an accepted one, a refused one and the like in Lua, and a text of one command.

usage: bench/texts.py FOLDER

Writes FOLDER/two.toml, accepted.vsi, refused.vsi, like.lua and start.vsi. The large texts have 5,800 assignments, choices
and loops in turn among 36 variables of the lower class, each with a comment after it; in the refused one a variable of the
upper class flows into one of them, and so into all.
"""

import os
import sys

VARIABLES = 36
COMMANDS = 5800
COMMENT = "the comment of a line, as long as those that a person writes who explains each step to whoever reads it " * 2


def name(number):
    return f"variable_{number % VARIABLES}"


def command(number, forms):
    """A command of the kind that is next, over variables that change from one to the next."""
    one, two, three, four = (name(number * step) for step in (1, 5, 7, 11))
    return forms[number % 3].format(one=one, two=two, three=three, four=four)


VSI = ("{one} := {two} + {three} * {four} - {one} + 2",
       "if {one} < {two} then {three} := {four} + 1 else {one} := {four}",
       "while {one} < {two} + 3 do {three} := {three} - 1")
LUA = ("{one} = {two} + {three} * {four} - {one} + 2",
       "if {one} < {two} then {three} = {four} + 1 else {one} = {four} end",
       "while {one} < {two} + 3 do {three} = {three} - 1 end")


def lines(forms, mark, end, room):
    """The commands, each with its comment: a line has this many bytes."""
    for number in range(COMMANDS):
        last = end if number + 1 < COMMANDS else ""
        written = command(number, forms) + last
        yield f"{written}  {mark} {COMMENT}"[:room] + "\n"


def main():
    if len(sys.argv) != 2:
        sys.exit(__doc__)

    def write(file, text):
        with open(os.path.join(sys.argv[1], file), "w", encoding="ascii") as out:
            out.write(text)

    declared = "".join(f"var {name(number)} : L;\n" for number in range(VARIABLES))
    body = "".join(lines(VSI, "#", ";", 178))
    write("two.toml", 'classes = ["L", "H"]\nbelow = [["L", "H"]]\n')
    write("accepted.vsi", declared + body)
    write("refused.vsi", f"var secret : H;\n{declared}{name(0)} := secret;\n{body}")
    write("like.lua", "".join(f"local {name(number)} = 0\n" for number in range(VARIABLES))
          + "".join(lines(LUA, "--", "", 178)))
    write("start.vsi", "var x : L; x := 1 + 2")


if __name__ == "__main__":
    main()
