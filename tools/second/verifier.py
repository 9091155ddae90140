"""Verified images: an image is listed and run only where it is valid."""

from faults import Refusal
from instructions import GIVES, TAKES


def judge_instruction(image, number, depth):
    """The depth behind an instruction that is met with `depth` operands, or the first of its faults 33 to 37."""
    name, operand = image.code[number]
    if name in ("LOAD", "STORE") and operand >= image.slots:
        raise Refusal("BadSlot", number)
    if name in ("JZ", "JMP") and operand >= len(image.code):
        raise Refusal("BadTarget", number)
    if TAKES.get(name, 0) > depth:
        raise Refusal("Underflow", number)
    behind = depth - TAKES.get(name, 0) + GIVES.get(name, 0)
    if behind > image.stack:
        raise Refusal("Overflow", number)
    if name in ("JZ", "JMP", "HALT") and behind > 0:
        raise Refusal("NotEmpty", number)
    return behind


def judge(image):
    """All instructions are judged, also those that no run reaches; then the end, then jump by jump."""
    depths = [0]
    for number, (name, _) in enumerate(image.code):
        behind = judge_instruction(image, number, depths[number])
        depths.append(0 if name in ("JMP", "HALT") else behind)
    if not image.code or image.code[-1][0] not in ("HALT", "JMP"):
        raise Refusal("RunsOff")
    for number, (name, operand) in enumerate(image.code):
        if name in ("JZ", "JMP") and depths[operand] != 0:
            raise Refusal("NotEmpty", number)
