"""Words: a text's bytes as a list of tokens."""

import re
from typing import NamedTuple

from faults import Refusal, place

TEXT_LIMIT = 1_048_576
NAME_LIMIT = 32
LARGEST_WORD = 9223372036854775807
KEYWORDS = {b"var", b"letvar", b"in", b"if", b"then", b"else", b"while", b"do"}

BLANKS_AND_COMMENTS = re.compile(rb"(?:[ \t\r\n]|#[^\n]*)*")
WORD = re.compile(rb"[A-Za-z0-9_]+")
SYMBOL = re.compile(rb":=|[:;+\-*=<(){}]")
NAME = re.compile(rb"[A-Za-z][A-Za-z0-9_]*")
DIGITS = re.compile(rb"[0-9]+")


class Token(NamedTuple):
    """A keyword or symbol (its kind is its text), a `name` or a `number`; the place of its first byte."""

    kind: str
    text: bytes
    at: int


def is_name(word):
    """A name begins with a letter, has 1 to 32 bytes, is no keyword."""
    return bool(NAME.fullmatch(word)) and len(word) <= NAME_LIMIT and word not in KEYWORDS


def is_small(digits):
    """A number's value is up to 9223372036854775807; zeros may lead."""
    significant = digits.lstrip(b"0")
    return len(significant) <= 19 and int(significant or b"0") <= LARGEST_WORD


def kind_of_word(text, word, at):
    """Digits of a larger value are BadNumber; any other word that is none of these is BadWord."""
    if word in KEYWORDS:
        return word.decode()
    if is_name(word):
        return "name"
    if not DIGITS.fullmatch(word):
        raise Refusal("BadWord", place(text, at))
    if not is_small(word):
        raise Refusal("BadNumber", place(text, at))
    return "number"


def next_token(text, at):
    """A word is as long as it can be; a byte that begins no word, symbol, blank or comment is BadByte."""
    word = WORD.match(text, at)
    if word:
        return Token(kind_of_word(text, word.group(), at), word.group(), at)
    symbol = SYMBOL.match(text, at)
    if symbol:
        return Token(symbol.group().decode(), symbol.group(), at)
    raise Refusal("BadByte", place(text, at))


def tokens_of(text):
    """The tokens of a text, of several faults the first; a text of more than 1,048,576 bytes is TooLong."""
    if len(text) > TEXT_LIMIT:
        raise Refusal("TooLong")
    tokens, at = [], 0
    while True:
        at = BLANKS_AND_COMMENTS.match(text, at).end()
        if at == len(text):
            return tokens
        tokens.append(next_token(text, at))
        at += len(tokens[-1].text)
