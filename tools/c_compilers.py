"""The C compilers and emulators with which tools/emitted.py and .ci/emitted try emitted files."""

import os
import shutil
import subprocess
from typing import NamedTuple

SILENT = ["-std=c99", "-Wall", "-Wextra", "-Wpedantic", "-Wconversion", "-Werror"]
LEVELS = ["-O0", "-O1", "-O2", "-O3", "-Os"]
SANITIZED = ["-fsanitize=undefined", "-fno-sanitize-recover=all"]
# A trial has the functions of many images in one file. Without this, GCC has one of two functions with the same code call
# the other, and then warns if their arrays differ in length.
APART = "-fno-ipa-icf"


class Target(NamedTuple):
    """A compiler with the arguments that its programs need, and the emulator that runs them, if one does."""

    name: str
    compiler: list
    emulator: list
    levels: list

    def is_here(self):
        return all(shutil.which(words[0]) for words in (self.compiler, self.emulator) if words)

    def compile(self, arguments, folder):
        """Compiles silently, or ends the trial."""
        done = subprocess.run([*self.compiler, *arguments], cwd=folder, capture_output=True, text=True)
        if done.returncode or done.stderr:
            raise Fault(f"{self.name} {' '.join(arguments)} ends with status {done.returncode}\n{done.stderr}")

    def run(self, program, folder, text):
        """What a program of this target writes."""
        done = subprocess.run([*self.emulator, os.path.join(folder, program)], cwd=folder, input=text,
                              capture_output=True, text=True)
        if done.returncode or done.stderr:
            raise Fault(f"{self.name}: the program ends with status {done.returncode}\n{done.stderr}")
        return done.stdout


class Fault(Exception):
    """What is wrong."""


HOSTS = [Target("gcc", ["gcc", APART, *SANITIZED], [], LEVELS), Target("clang", ["clang", *SANITIZED], [], LEVELS)]
# These compile the headers alone.
HEADERS = [Target(name, [name], [], []) for name in ("g++", "clang++")]
# Another order of bytes, other sizes of words and other code: two levels of each show the compiler's ways.
OTHERS = [
    Target(f"{processor} gcc", [f"{processor}-linux-{system}-gcc", "-static", APART], [emulator], ["-O0", "-O2", "-Os"])
    for processor, system, emulator in [
        ("arm", "gnueabihf", "qemu-arm"), ("aarch64", "gnu", "qemu-aarch64"), ("riscv64", "gnu", "qemu-riscv64"),
        ("s390x", "gnu", "qemu-s390x")]]


class Controller(NamedTuple):
    """A compiler for a processor, whose files are looked at and not run."""

    name: str
    compiler: list
    disassembler: list

    def is_here(self):
        return all(shutil.which(words[0]) for words in (self.compiler, self.disassembler))


CONTROLLERS = [
    *(Controller(f"gcc Cortex-{core}", ["arm-none-eabi-gcc", f"-mcpu=cortex-{core.lower()}", "-mthumb"],
                 ["arm-none-eabi-objdump"])
      for core in ("M0", "M3", "M4", "M7", "M33")),
    Controller("gcc RV32", ["riscv64-unknown-elf-gcc", "-ffreestanding", "-march=rv32imc", "-mabi=ilp32"],
               ["riscv64-unknown-elf-objdump"]),
    Controller("gcc AArch64", ["aarch64-linux-gnu-gcc"], ["aarch64-linux-gnu-objdump"]),
    Controller("gcc x86-64", ["x86_64-linux-gnu-gcc"], ["x86_64-linux-gnu-objdump"]),
    *(Controller(f"clang Cortex-{core}", ["clang", f"--target={target}-none-eabi", f"-mcpu=cortex-{core.lower()}",
                                          "-ffreestanding"], ["arm-none-eabi-objdump"])
      for core, target in (("M0", "armv6m"), ("M4", "armv7em"), ("M33", "thumbv8m.main"))),
    Controller("clang RV32", ["clang", "--target=riscv32-unknown-elf", "-march=rv32imc", "-ffreestanding"],
               ["riscv64-unknown-elf-objdump"]),
    Controller("clang AArch64", ["clang", "--target=aarch64-none-elf", "-ffreestanding"],
               ["aarch64-linux-gnu-objdump"]),
    Controller("clang x86-64", ["clang", "--target=x86_64-none-elf", "-ffreestanding"], ["x86_64-linux-gnu-objdump"]),
]


def installed(targets):
    """Those that are here; the others are named in one line."""
    missing = [target.name for target in targets if not target.is_here()]
    if missing:
        print(f"skipped, since it isn't installed: {', '.join(missing)}")
    return [target for target in targets if target.is_here()]
