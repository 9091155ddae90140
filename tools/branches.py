"""Looks for conditional jumps in the machine code of emitted C: each must be at a test of the budget or a guard.

Compilers turn arithmetic into predicated instructions, too, which jump nowhere: the blocks of IT of Thumb-2, `csel` and
its kin of AArch64, `cmov` of x86-64. Whatever isn't at a test of the budget or a guard may only move a value between
registers there: a predicated load, store, comparison or jump is reported.

Without a budget blocks are joined, and a compiler may turn a guard into a choice of values, for which it jumps at no
line of the C, or loads one of two. Such jumps and predicated instructions are allowed, any number of them, if some
guard of the file has no jump at its own line.
"""

import bisect
import os
import re
import subprocess

from c_compilers import LEVELS, SILENT, Fault

# Where a line of a disassembly begins that names a place of the C, and one with an instruction and its operands.
PLACE = re.compile(r"^\S.*\.c:(\d+)")
INSTRUCTION = re.compile(r"^\s*[0-9a-f]+:\s+(?:[0-9a-f]{2,8}\s)+\s*([a-z][a-z0-9.]*)\s*(.*)$")
CONDITION = "(?:eq|ne|cs|hs|cc|lo|mi|pl|vs|vc|hi|ls|ge|lt|gt|le)"
# The conditional jumps of ARM, RISC-V and x86-64.
JUMP = re.compile(rf"b\.?{CONDITION}(?:\.[nw])?|cbn?z(?:\.[nw])?|tb[bh]|tbn?z"
                  r"|b(?:eqz|nez|lez|gez|ltz|gtz|ltu|geu|gtu|leu)|c\.b\w+|j(?!mp|alr?$|r$)\w+|loop\w*")
# The instruction that begins a block of Thumb-2, with a letter for each further one, and a move in such a block.
BLOCK = re.compile(r"it[te]{0,3}")
BLOCK_MOVE = re.compile(rf"(?:mov[wt]?|mvn){CONDITION}(?:\.[nw])?")
# The predicated instructions of AArch64 and x86-64, and those among them that move a value, or a constant.
PREDICATED = re.compile(r"cs(?:el|et|etm|inc|inv|neg)|c(?:inc|inv|neg)|fcsel|f?ccm[pn]e?|cmov\w+|fcmov\w+")
MOVE = re.compile(r"cs(?:el|et|etm|inc|inv|neg)|c(?:inc|inv|neg)|cmov\w+")
# An operand in memory, and the program counter, which a move would make a jump.
NO_REGISTER = re.compile(r"[\[(]|\bpc\b")
# A row of the table of lines: the line and the address.
ROW = re.compile(r"^\S+\.c\s+(\d+)\s+(0x[0-9a-f]+|0)\b")
CALL = re.compile(r"R_(?:ARM_THM_CALL|ARM_CALL|RISCV_CALL(?:_PLT)?|AARCH64_CALL26|X86_64_PLT32)\s+(\S+)")
ALLOWED = "if ("
# The levels, and one at which the barrier is that of a compiler which isn't GNU's.
WAYS = [[level] for level in LEVELS] + [["-O2", "-U__GNUC__", "-ffreestanding"]]
# A Cortex-M0 has no product of 64 bits: a compiler calls this function, of which examples/controller/firmware has one
# without a jump.
PRODUCT = "__aeabi_lmul"


def disassembled(controller, way, folder, name):
    """The machine code of a C file of the folder, with the lines that it comes from."""
    done = subprocess.run([*controller.compiler, *SILENT, *way, "-g", "-c", f"{name}.c", "-o", "looked_at.o"],
                          cwd=folder, capture_output=True, text=True)
    if done.returncode or done.stderr:
        raise Fault(f"{controller.name} {way} {name}.c\n{done.stderr}")
    return asked(controller, folder, "-d", "-l", "-r")


def asked(controller, folder, *options):
    """The output of the disassembler about the machine code."""
    return subprocess.run([*controller.disassembler, *options, "looked_at.o"], cwd=folder, capture_output=True,
                          text=True, check=True).stdout.splitlines()


def has_no_line(rows, text):
    """Whether the instruction of a line of the disassembly comes from no line of the C."""
    at = bisect.bisect_right(rows, (int(text.split(":")[0], 16), len(rows), 0))
    return at > 0 and rows[at - 1][2] == 0


def wanders(block, operation, operands):
    """Whether an instruction that is predicated, in a block of IT or by itself, does more than move a value."""
    if block:
        return not BLOCK_MOVE.fullmatch(operation) or NO_REGISTER.search(operands) is not None
    return PREDICATED.fullmatch(operation) is not None and (
        not MOVE.fullmatch(operation) or NO_REGISTER.search(operands) is not None)


def instructions(texts):
    """Each line of a disassembly with an instruction or a call: its line of the C, or that of its block of IT, the text,
    the instruction, its operands, whether it is in such a block, and the name that is called."""
    line, block, begun = 0, 0, 0
    for text in texts:
        place, instruction, call = PLACE.match(text), INSTRUCTION.match(text), CALL.search(text)
        if place:
            line = int(place[1])
        elif instruction and BLOCK.fullmatch(instruction[1]):
            block, begun = len(instruction[1]) - 1, line
        elif instruction:
            yield begun if block else line, text, instruction[1], instruction[2], block > 0, None
            block = max(block - 1, 0)
        elif call:
            yield line, text, "", "", False, call[1]


def strange(controller, way, folder, name, joins=False):
    """The conditional jumps of no test in the C, the predicated instructions there that aren't moves, and the calls,
    each with its line; and the count of other jumps."""
    with open(os.path.join(folder, f"{name}.c"), encoding="ascii") as file:
        source = [line.strip() for line in file]
    found, allowed, joined = [], [], []
    texts = disassembled(controller, way, folder, name)
    matches = filter(None, map(ROW.match, asked(controller, folder, "--dwarf=decodedline")))
    rows = sorted((int(row[2], 16), at, int(row[1])) for at, row in enumerate(matches))
    for line, text, operation, operands, block, call in instructions(texts):
        is_jump = JUMP.fullmatch(operation) and not block
        if call:
            found += [] if call == PRODUCT else [(call, source[line - 1])]
        elif not is_jump and not wanders(block, operation, operands):
            continue
        elif line and source[line - 1].startswith(ALLOWED):
            allowed += [line] if is_jump else []
        elif joins and (not is_jump or has_no_line(rows, text)):
            joined.append((operation, "no guard's line"))
        else:
            found.append((operation, source[line - 1] if line else "?"))
    guards = sum(text.startswith(ALLOWED) for text in source) - len(set(allowed))
    return found + ([] if guards > 0 else joined), len(allowed)


def look(controller, folder, names, has_budget=True):
    """Ends the trial at a strange jump or call of one of these files, at any level."""
    for name in names:
        for way in WAYS:
            found, allowed = strange(controller, way, folder, name, joins=not has_budget)
            if found:
                raise Fault(f"{controller.name} {way} {name}.c has {found}")
            if has_budget and not allowed:
                raise Fault(f"{controller.name} {way} {name}.c: no jump of the budget is found")
