"""Debian's packages that the scripts of the gate need, installed where this machine allows it."""

import os
import shutil
import subprocess

# A server that doesn't answer is left after some seconds. A package that is only half on the disk after a crash does no
# harm here, so dpkg needn't wait for the disk.
OPTIONS = ["-o", "Acquire::http::Timeout=20", "-o", "Acquire::Retries=0", "-o", "Dpkg::Options::=--force-unsafe-io"]
# How many seconds the lists of packages may take, and the packages.
LISTS, ALL = 120, 900
# The programs that the scripts call, with the packages that have them.
PACKAGES = {
    "aarch64-linux-gnu-gcc": ["gcc-aarch64-linux-gnu", "libc6-dev-arm64-cross"],
    "arm-linux-gnueabihf-gcc": ["gcc-arm-linux-gnueabihf", "libc6-dev-armhf-cross"],
    "arm-none-eabi-gcc": ["gcc-arm-none-eabi", "libnewlib-arm-none-eabi"],
    "chromedriver": ["chromium-driver", "python3-selenium"],
    "chromium": ["chromium", "python3-selenium"],
    "clang": ["clang"],
    "fish": ["fish"],
    "g++": ["g++"],
    "gcc": ["gcc", "libc6-dev"],
    "make": ["make"],
    "man": ["man-db"],
    "nvim": ["neovim"],
    "pandoc": ["pandoc"],
    "qemu-arm": ["qemu-user"],
    "qemu-system-arm": ["qemu-system-arm"],
    "riscv64-linux-gnu-gcc": ["gcc-riscv64-linux-gnu", "libc6-dev-riscv64-cross"],
    "riscv64-unknown-elf-gcc": ["gcc-riscv64-unknown-elf"],
    "s390x-linux-gnu-gcc": ["gcc-s390x-linux-gnu", "libc6-dev-s390x-cross"],
    "valgrind": ["valgrind"],
    "zsh": ["zsh"],
}


def install(programs):
    """Installs the programs that are missing, if apt-get may do so; the caller looks which are there then."""
    packages = [package for program in programs if not shutil.which(program) for package in PACKAGES[program]]
    if not packages or not shutil.which("apt-get") or os.geteuid() != 0:
        return
    environment = {**os.environ, "DEBIAN_FRONTEND": "noninteractive"}
    for seconds, words in ((LISTS, ["update"]), (ALL, ["install", "-y", "--no-install-recommends", *packages])):
        try:
            done = subprocess.run(["apt-get", *OPTIONS, *words], stdin=subprocess.DEVNULL, stdout=subprocess.DEVNULL,
                                  stderr=subprocess.DEVNULL, timeout=seconds, env=environment)
        except subprocess.TimeoutExpired:
            return
        if done.returncode:
            return
