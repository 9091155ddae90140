#!/usr/bin/env python3
"""Writes the images that the benchmark runs: python3 images.py FOLDER."""

import struct
import sys

OPCODES = {
    "PUSH": (1, ">q"), "LOAD": (2, ">H"), "STORE": (3, ">H"), "ADD": (4, None), "SUB": (5, None),
    "EQ": (6, None), "LT": (7, None), "JZ": (8, ">I"), "JMP": (9, ">I"), "HALT": (10, None), "MUL": (11, None),
}


def image(names, stack, lines):
    """The bytes of an image whose globals are its only slots. A line `name:` is a label."""
    places, code = {}, []
    for line in lines:
        if line.endswith(":"):
            places[line[:-1]] = len(code)
        else:
            code.append(line.split())
    out = b"VSI" + struct.pack(">BHHHI", 2, len(names), len(names), stack, len(code))
    for name in names:
        out += bytes([len(name)]) + name.encode() + b"\x01L"
    for word, *operand in code:
        opcode, form = OPCODES[word]
        out += bytes([opcode])
        if form is not None:
            value = operand[0]
            out += struct.pack(form, places[value] if value in places else int(value))
    return out


def counting(turns):
    """while i < turns do { a := a * 3 + i; i := i + 1 }"""
    return image(["i", "a"], 2, [
        "loop:", "LOAD 0", f"PUSH {turns}", "LT", "JZ end",
        "LOAD 1", "PUSH 3", "MUL", "LOAD 0", "ADD", "STORE 1",
        "LOAD 0", "PUSH 1", "ADD", "STORE 0", "JMP loop",
        "end:", "HALT",
    ])


def nested(outer, inner):
    """Two loops, one in the other, that count the pairs below, on and above the diagonal."""
    return image(["i", "j", "b", "d", "a"], 2, [
        "outer:", "LOAD 0", f"PUSH {outer}", "LT", "JZ end", "PUSH 0", "STORE 1",
        "inner:", "LOAD 1", f"PUSH {inner}", "LT", "JZ next",
        "LOAD 1", "LOAD 0", "LT", "JZ other", "LOAD 2", "PUSH 1", "ADD", "STORE 2", "JMP done",
        "other:", "LOAD 1", "LOAD 0", "EQ", "JZ above", "LOAD 3", "PUSH 1", "ADD", "STORE 3", "JMP done",
        "above:", "LOAD 4", "PUSH 1", "ADD", "STORE 4",
        "done:", "LOAD 1", "PUSH 1", "ADD", "STORE 1", "JMP inner",
        "next:", "LOAD 0", "PUSH 1", "ADD", "STORE 0", "JMP outer",
        "end:", "HALT",
    ])


def straight(groups, turns):
    """A long body without a branch: x := (x + k) * y - x; y := y + (x - (y - k)), again and again."""
    body = []
    for k in range(groups):
        body += [
            "LOAD 1", f"PUSH {k}", "ADD", "LOAD 2", "MUL", "LOAD 1", "SUB", "STORE 1",
            "LOAD 2", "LOAD 1", "LOAD 2", f"PUSH {k}", "SUB", "SUB", "ADD", "STORE 2",
        ]
    return image(["i", "x", "y"], 4, [
        "loop:", "LOAD 0", f"PUSH {turns}", "LT", "JZ end", *body,
        "LOAD 0", "PUSH 1", "ADD", "STORE 0", "JMP loop",
        "end:", "HALT",
    ])


def main():
    folder = sys.argv[1]
    for name, data in [
        ("counting", counting(20_000_000)),
        ("nested", nested(3_000, 3_500)),
        ("straight", straight(4_000, 4_000)),
    ]:
        with open(f"{folder}/{name}.vsi", "wb") as out:
            out.write(data)


main()
