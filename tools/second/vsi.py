#!/usr/bin/env python3
"""A second implementation, from the pages docs/LANGUAGE.md and docs/FORMATS.md alone.

usage: tools/second/vsi.py WORDS..

It behaves as the program does, but for the texts of help and on mistakes in the words.
"""

import os
import sys

sys.dont_write_bytecode = True

from program import FileFault, answer  # noqa: E402


def read_standard_input(limit):
    """At most so many bytes of standard input."""
    data = b""
    try:
        while len(data) < limit:
            piece = os.read(0, limit - len(data))
            if not piece:
                break
            data += piece
    except OSError:
        raise FileFault(b"-") from None
    return data


def write_all(stream, data):
    while data:
        data = data[os.write(stream, data):]


def main():
    status, output, error = answer([os.fsencode(word) for word in sys.argv[1:]], read_standard_input)
    try:
        write_all(1, output)
    except OSError:
        status, error = 4, b"file fault: -\n"
    try:
        write_all(2, error)
    except OSError:
        pass
    return status


if __name__ == "__main__":
    sys.exit(main())
