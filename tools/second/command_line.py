"""The words of a command line, which are judged before any file is opened."""

from typing import NamedTuple

PATHS = {b"check": 2, b"classes": 2, b"build": 3, b"list": 1, b"run": 1, b"view": 2, b"fmt": 1,
         b"flows": 2, b"mend": 2}
FLAGS = {b"check": {b"--strict"}, b"classes": {b"--strict"}, b"build": {b"--strict"}, b"run": {b"--trace"},
         b"flows": {b"--strict", b"--walks", b"--json"}, b"mend": {b"--strict", b"--apply", b"--json"}}
APART = [{b"--json", b"--walks"}, {b"--json", b"--apply"}]
OPTIONS = {b"run": {b"--budget", b"--store"}, b"view": {b"--budget", b"--store", b"--class"}}
REQUIRED = {b"run": {b"--budget"}, b"view": {b"--budget", b"--class"}}
LARGEST_BUDGET = 18446744073709551615


class Mistake(Exception):
    """A mistake in the words."""


class Help(Exception):
    """A question for help, or for the version."""


class Words(NamedTuple):
    command: bytes
    paths: list
    options: dict


def budget(value):
    """A whole number from 0 to 18446744073709551615, written by one or more digits alone; zeros may lead."""
    digits = value.lstrip(b"0")
    if not value or value.strip(b"0123456789") or len(digits) > 20 or int(digits or b"0") > LARGEST_BUDGET:
        raise Mistake
    return int(digits or b"0")


def check_text(words):
    """A word that isn't UTF-8 is a mistake, also behind a question for help."""
    try:
        for word in words:
            word.decode("utf-8")
    except UnicodeDecodeError:
        raise Mistake from None


def asks(word, letter, name):
    """A word that begins with a `-` and the letter asks, whatever else stands in it; so does the whole name."""
    return word.startswith(letter) or word == name


class Reader:
    """Goes through the words behind a subcommand; of a mistake and a question for help the first counts."""

    def __init__(self, command, words):
        self.words = words
        self.next = 0
        self.read = Words(command, [], {})

    def all(self):
        while self.next < len(self.words):
            word = self.words[self.next]
            self.next += 1
            if word == b"--":
                self.only_paths()
            elif word.startswith(b"-") and word != b"-":
                self.option(word)
            else:
                self.path(word)
        if len(self.read.paths) < PATHS[self.read.command]:
            raise Mistake
        if not REQUIRED.get(self.read.command, set()) <= set(self.read.options):
            raise Mistake
        if any(apart <= set(self.read.options) for apart in APART):
            raise Mistake
        return self.read

    def only_paths(self):
        """Behind a word `--` all words are paths."""
        for word in self.words[self.next:]:
            self.path(word)
        self.next = len(self.words)

    def path(self, word):
        if len(self.read.paths) == PATHS[self.read.command]:
            raise Mistake
        self.read.paths.append(word)

    def option(self, word):
        """Options stand each at most once and by their whole name."""
        name, equals, value = word.partition(b"=")
        if asks(word, b"-h", b"--help"):
            raise Help
        if name in self.read.options:
            raise Mistake
        if word in FLAGS.get(self.read.command, ()):
            self.read.options[name] = True
        elif name in OPTIONS.get(self.read.command, ()):
            value = value if equals else self.next_value()
            self.read.options[name] = budget(value) if name == b"--budget" else value
        else:
            raise Mistake

    def next_value(self):
        """A next word that begins with `-` is no value, but `-` alone is one."""
        if self.next == len(self.words):
            raise Mistake
        value = self.words[self.next]
        self.next += 1
        if value.startswith(b"-") and value != b"-":
            raise Mistake
        return value


def read_words(words):
    """The words as a subcommand with its paths and options, or as none; else Mistake or Help."""
    if not words:
        return Words(None, [], {})
    check_text(words)
    first, *others = words
    if asks(first, b"-h", b"--help"):
        raise Help("help")
    if asks(first, b"-V", b"--version"):
        raise Help("version")
    if first == b"help":
        if others and (others[0] not in {*PATHS, b"help"} or len(others) > 1):
            raise Mistake
        raise Help("help")
    if first not in PATHS:
        raise Mistake
    return Reader(first, others).all()
