"""The subcommands: what is read and judged, in which order, and what is written."""

import json
import re
import sys

import flows
import image as images
import verifier
from canonical import canonical_text
from command_line import Help, Mistake, read_words
from faults import NAMES, Refusal
from grammar import parse
from instructions import compile_image
from lattice import Lattice, read_lattice
from machine import run
from scopes import resolve
from stores import class_numbers, read_store, store_text
from tables import Flows

READ_LIMIT = 1_048_577
TOML_LIMIT = 1_048_576
DEFAULT_BUDGET = 1_000_000
VERSION = b"vsi 0.1.0\n"
HELP = b"Compiles programs whose information flows are typed, and runs them: see docs/FORMATS.md.\n"

sys.setrecursionlimit(50_000)


class FileFault(Exception):
    """A file that doesn't open or can't be read or written, or that is too long."""


class NoClass(Exception):
    """The lattice lacks the class that is to look."""


class Answered(Exception):
    """An answer as a line of JSON, with its status and what goes to standard error."""


class OutOfBudget(Exception):
    """The run didn't halt; what was printed before stays."""


def read_file(path):
    """At most 1,048,577 bytes of a file."""
    try:
        with open(path, "rb") as file:
            return file.read(READ_LIMIT)
    except OSError:
        raise FileFault(path) from None


def read_toml(path):
    """A lattice or store file of more than 1,048,576 bytes is a file fault."""
    text = read_file(path)
    if len(text) > TOML_LIMIT:
        raise FileFault(path)
    return text


def read_valid_image(path):
    """IMAGE is judged, first its fields and then whether it is valid."""
    image = images.decode(read_file(path))
    verifier.judge(image)
    return image


def judged(lattice, text, is_strict):
    """The resolved program of an accepted text, and the classes of its variables."""
    resolved = resolve(parse(text), lattice)
    return resolved, flows.judge(resolved, text, lattice, is_strict)


def without_words(stdin):
    """Standard input with the classes `L` below `H`, a store of zeros and a budget of 1,000,000."""
    lattice = Lattice([b"L", b"H"], [(0, 1)])
    resolved, _ = judged(lattice, stdin(READ_LIMIT), False)
    image = compile_image(resolved, lattice)
    return halted_store(image, [0] * len(image.globals), DEFAULT_BUDGET, None)


def halted_store(image, store, budget, trace, is_shown=lambda label: True):
    """The store text where the run halts."""
    has_halted, store = run(image, store, budget, trace)
    if not has_halted:
        raise OutOfBudget
    return store_text(image, store, is_shown)


def source_words(words):
    """LATTICE is read and judged, then SOURCE."""
    lattice = read_lattice(read_toml(words.paths[0]))
    text = read_file(words.paths[1])
    return lattice, text, *judged(lattice, text, b"--strict" in words.options)


def check(words, trace):
    source_words(words)
    return b"accepted\n"


def classes(words, trace):
    lattice, text, resolved, found = source_words(words)
    return flows.class_lines(resolved, text, lattice, found)


def object_of(refusal):
    """The object of a refusal that is no flow."""
    text = refusal.text().decode().removesuffix("\n")
    position = re.search(r"(\d+):(\d+)$", text)
    found = {"accepted": False, "name": NAMES[refusal.number], "number": refusal.number, "text": text}
    return found | ({"line": int(position[1]), "column": int(position[2])} if position else {})


def line_of(document):
    return json.dumps(document, sort_keys=True, separators=(",", ":")).encode() + b"\n"


def table_words(words):
    """The flows of a text, whether it is accepted or not; with --json a refusal is an object too."""
    is_json, is_strict = b"--json" in words.options, b"--strict" in words.options
    try:
        lattice = read_lattice(read_toml(words.paths[0]))
    except Refusal as refusal:
        if not is_json:
            raise
        raise Answered(1, line_of(object_of(refusal)), refusal.text()) from None
    text = read_file(words.paths[1])
    try:
        return Flows(resolve(parse(text), lattice), text, lattice, is_strict)
    except Refusal as refusal:
        if not is_json:
            raise
        raise Answered(1, line_of(object_of(refusal)), b"") from None


def flow_lines(words, trace):
    found = table_words(words)
    return line_of(found.objects()) if b"--json" in words.options else found.lines(b"--walks" in words.options)


def mend(words, trace):
    """The printed text is accepted, since it is judged before."""
    found = table_words(words)
    if b"--json" in words.options:
        return line_of(found.raise_objects())
    if b"--apply" not in words.options:
        return found.raise_lines()
    text = found.raised_text()
    judged(found.lattice, text, b"--strict" in words.options)
    return text


def build(words, trace):
    """IMAGE is opened only when all bytes of the image are there."""
    lattice, _, resolved, _ = source_words(words)
    data = images.encode(compile_image(resolved, lattice))
    try:
        with open(words.paths[2], "wb") as file:
            file.write(data)
    except OSError:
        raise FileFault(words.paths[2]) from None
    return b""


def list_image(words, trace):
    return images.listing(read_valid_image(words.paths[0]))


def run_image(words, trace):
    """The bytes of FILE are read; IMAGE is read and judged; the store is judged; the image runs."""
    path = words.options.get(b"--store")
    text = read_toml(path) if path is not None else b""
    image = read_valid_image(words.paths[0])
    store = read_store(text, image.globals)
    return halted_store(image, store, words.options[b"--budget"], trace if b"--trace" in words.options else None)


def view(words, trace):
    """LATTICE; the class; IMAGE; FILE; the classes of the image's globals; then the image runs."""
    lattice = read_lattice(read_toml(words.paths[0]))
    looking = lattice.number(words.options[b"--class"])
    if looking is None:
        raise NoClass(words.options[b"--class"])
    image = read_valid_image(words.paths[1])
    path = words.options.get(b"--store")
    store = read_store(read_toml(path) if path is not None else b"", image.globals)
    numbers = class_numbers(image, lattice)
    return halted_store(image, store, words.options[b"--budget"], None,
                        lambda label: lattice.is_below[numbers[label]][looking])


def fmt(words, trace):
    return canonical_text(parse(read_file(words.paths[0])))


SUBCOMMANDS = {b"check": check, b"classes": classes, b"build": build, b"list": list_image, b"run": run_image,
               b"view": view, b"fmt": fmt, b"flows": flow_lines, b"mend": mend}


def answer(words, stdin):
    """The status, what goes to standard output, and what goes to standard error."""
    trace = []
    try:
        read = read_words(words)
        output = SUBCOMMANDS[read.command](read, trace) if read.command else without_words(stdin)
        return 0, b"".join(trace) + output, b""
    except Help as question:
        return 0, VERSION if question.args == ("version",) else HELP, b""
    except Mistake:
        return 2, b"", b"error: a mistake in the words\n"
    except NoClass as fault:
        return 2, b"", b"no class " + fault.args[0] + b"\n"
    except Answered as answered:
        return answered.args
    except Refusal as refusal:
        return 1, b"", refusal.text()
    except OutOfBudget:
        return 3, b"".join(trace), b"out of budget\n"
    except FileFault as fault:
        return 4, b"", b"file fault: " + fault.args[0] + b"\n"
    except MemoryError:
        return 5, b"".join(trace), b"out of memory\n"
