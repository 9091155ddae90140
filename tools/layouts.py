#!/usr/bin/env python3
"""Holds the layouts of `vsi fmt --keep-comments` against a second implementation, and against what must stay the same.

usage: tools/layouts.py [PROGRAM] [--texts N] [--first N]

PROGRAM is crates/vsi_program/out/vsi_program unless another is named. The texts are those of the examples and of the
exercises, and N from a generator with fixed seeds, with blanks and comments of every kind between their tokens. For each
text: the layout is the one made below from FORMATS; it has itself as its layout and the canonical text of the text;
`--check` prints the lines made below, and nothing about the layout; `--write` leaves the layout. Under each lattice file
beside an example, or the generator's own, the text and its layout have the same image, or refusals of one number.
Nothing is written where all is well.
"""

import argparse
import glob
import os
import random
import re
import subprocess
import sys
import tempfile

sys.dont_write_bytecode = True
HERE = os.path.dirname(os.path.abspath(__file__))
sys.path.insert(1, os.path.join(HERE, "second"))

import words  # noqa: E402
from compare_inputs import Maker, ORDERS  # noqa: E402

COMMENT = re.compile(rb"#[^\n]*")
# The least number of generated texts, of a hundred, that have an image.
LEAST_BUILT = 40
FILLS = ("", " ", "\t", "\n", "\r\n", "\n\n\n", "# c\n", " #\n", "\n # own  \n", "\n\n#one\n\n\n  # two\t\r\n\n",
         " # a\n# b\n", "\n# x := $ \u00e9\n", "\t#}\n")


def line(blank, keeps, level):
    """A new line at a level of indentation, after a blank one if one is kept."""
    return (b"\n\n" if keeps and blank.count(b"\n") > 1 else b"\n") + b"  " * level


def plain(gap, before, after, keeps, level):
    """What separates two tokens without comments between them."""
    if before is None:
        return b""
    if after is None:
        return b"\n"
    if before in (";", "{") or after == "}":
        return line(gap, keeps, level)
    return b"" if before == "(" or after in (")", ";") else b" "


def separated(gap, before, after, depth):
    """The layout of what is between two tokens, within so many blocks after the first."""
    keeps = before in (None, ";") or after is None
    own = token = depth
    if before is None or after is None or before in (";", "{"):
        token -= after == "}"
    elif after == "}":
        token -= 1
    elif after not in ("then", "else", "do", "in", "{", ";"):
        own = token = depth + 1
    comments = [*COMMENT.finditer(gap)]
    if not comments:
        return plain(gap, before, after, keeps, token)
    out, at = b"", 0
    for comment in comments:
        blank, at = gap[at:comment.start()], comment.end()
        if out == b"" and before is None:
            pass
        elif out == b"" and b"\n" not in blank:
            out += b" "
        else:
            out += line(blank, keeps, own)
        out += comment.group()
    return out + (b"\n" if after is None else line(gap[at:], keeps, token))


def pieces(text):
    """The gap before each token, and the token; at the end the last gap and None."""
    at = 0
    for token in words.tokens_of(text):
        yield at, text[at:token.at], token
        at = token.at + len(token.text)
    yield at, text[at:], None


def layout(text):
    """The layout of a text, as FORMATS describes it."""
    out, before, depth = b"", None, 0
    for _, gap, token in pieces(text):
        out += separated(gap, before, token and token.kind, depth)
        if token:
            out += str(int(token.text)).encode() if token.kind == "number" else token.text
            before = token.kind
            depth += (before == "{") - (before == "}")
    return out if len(out) <= words.TEXT_LIMIT else text


def differences(text, laid):
    """The lines of `fmt --check`, as FORMATS describes them."""
    told, last = b"", 0
    for (at, gap, token), (_, other_gap, other) in zip(pieces(text), pieces(laid)):
        places = [at + len(os.path.commonprefix([gap, other_gap]))] if gap != other_gap else []
        places += [token.at] if token and token.text != other.text else []
        for place in places:
            row = 1 + text.count(b"\n", 0, place)
            if row != last:
                told += b"%d:%d differs\n" % (row, place - text.rfind(b"\n", 0, place))
            last = row
    return told


def filled(rng, tokens):
    """A text of these tokens with blanks and comments of every kind between them."""
    rare, text = rng.choice((0.05, 0.3, 0.9)), ""
    for before, token in zip(["", *tokens], [*tokens, ""]):
        fill = rng.choice(FILLS) if rng.random() < rare else ""
        joined = before[-1:].isalnum() and token[:1].isalnum() or before == ":" and token == "="
        text += (fill or (" " if joined else "")) + token
    return text.encode()


class Trial:
    """One text and its layout."""

    def __init__(self, program, name, text):
        self.program, self.name, self.text = program, name, text
        self.put("text.vsi", text)

    def put(self, name, data):
        with open(name, "wb") as file:
            file.write(data)

    def vsi(self, *arguments):
        done = subprocess.run([self.program, *arguments], capture_output=True, stdin=subprocess.DEVNULL)
        return done.returncode, done.stdout, done.stderr

    def wants(self, found, wanted, what):
        if found != wanted:
            print(f"{self.name}: {what}: {found!r} in place of {wanted!r}")
            sys.exit(1)

    def judge(self, lattices):
        """Tries the text under these lattice files, and counts its images."""
        wanted = layout(self.text)
        self.wants(self.vsi("fmt", "--keep-comments", "text.vsi"), (0, wanted, b""), "the layout")
        self.put("laid.vsi", wanted)
        self.wants(self.vsi("fmt", "--keep-comments", "laid.vsi"), (0, wanted, b""), "the layout of the layout")
        self.wants(self.vsi("fmt", "laid.vsi"), self.vsi("fmt", "text.vsi"), "the canonical text")
        differs = differences(self.text, wanted)
        self.wants((differs == b""), (self.text == wanted), "no line exactly without a difference")
        self.wants(self.vsi("fmt", "--check", "text.vsi"), (int(differs != b""), differs, b""), "the differences")
        self.wants(self.vsi("fmt", "--check", "laid.vsi"), (0, b"", b""), "the differences of the layout")
        built = sum([self.same_image(lattice) for lattice in lattices])
        self.wants(self.vsi("fmt", "--write", "text.vsi"), (0, b"", b""), "what --write prints")
        with open("text.vsi", "rb") as file:
            self.wants(file.read(), wanted, "what --write leaves")
        return built

    def same_image(self, lattice):
        """Compares the images of the text and of its layout under a lattice file, and says whether there is one."""
        told = []
        for name in ("text", "laid"):
            status, _, error = self.vsi("build", lattice, f"{name}.vsi", f"{name}.image")
            told.append((status, error.split(b" ")[:2]))
        self.wants(told[0], told[1], "the refusal")
        if told[0][0] != 0:
            return False
        images = [open(f"{name}.image", "rb").read() for name in ("text", "laid")]
        self.wants(images[0] == images[1], True, "the same image")
        return True


def given_texts(root):
    """The texts of the examples and of the exercises, with the lattice files beside each or above it."""
    for path in sorted(glob.glob(f"{root}/examples/*/*.vsi") + glob.glob(f"{root}/exercises/**/*.vsi", recursive=True)):
        folder = os.path.dirname(path)
        found = glob.glob(f"{folder}/*.toml") + glob.glob(f"{os.path.dirname(folder)}/*.toml")
        with open(path, "rb") as file:
            yield os.path.relpath(path, root), file.read(), found


def main():
    root = os.path.dirname(HERE)
    parser = argparse.ArgumentParser()
    parser.add_argument("program", nargs="?", default=f"{root}/crates/vsi_program/out/vsi_program")
    parser.add_argument("--texts", type=int, default=150)
    parser.add_argument("--first", type=int, default=0)
    asked = parser.parse_args()
    program, built = os.path.abspath(asked.program), 0
    with tempfile.TemporaryDirectory() as scratch:
        os.chdir(scratch)
        for name, text, lattices in given_texts(root):
            try:
                words.tokens_of(text)
            except words.Refusal:
                continue
            if subprocess.run([program, "fmt", f"{root}/{name}"], capture_output=True).returncode == 0:
                Trial(program, name, text).judge(lattices)
        for number in range(asked.first, asked.first + asked.texts):
            rng = random.Random(number)
            order = rng.choice(ORDERS)
            trial = Trial(program, f"text {number}", filled(rng, Maker(rng, order).program()))
            trial.put("order.toml", order.text)
            built += trial.judge(["order.toml"])
    if built * 100 < LEAST_BUILT * asked.texts:
        print(f"only {built} of {asked.texts} generated texts have an image")
        sys.exit(1)


main()
