"""One run of the program for a request: its folder, its limits, and the image of a text, refused or not."""

from __future__ import annotations

import math
import os
import re
import signal
import subprocess
import tempfile
import time
from typing import Any, Callable, NamedTuple, Optional

MOST_OUTPUT = 2_097_152
# How often a run looks whether its client is still there.
SECONDS_TO_LOOK = 0.5
# The shell sets the limits in the child, since a server with threads may not run Python between fork and exec.
LIMITED = 'ulimit -c 0; ulimit -t "$1"; ulimit -f 4096; [ "$2" -eq 0 ] || ulimit -v "$2"; shift 2; exec "$@"'


class Limits(NamedTuple):
    """What one request may use."""

    program: str
    seconds: float
    megabytes: int


class Ran(NamedTuple):
    """One run of the program: its status, both streams, and whether a limit has ended it."""

    status: int
    output: bytes
    errors: bytes
    stopped: Optional[str]

    def answer(self, **more: Any) -> dict[str, Any]:
        """The run as JSON."""
        return {"status": self.status, "output": self.output.decode("utf-8", "replace"),
                "errors": self.errors.decode("utf-8", "replace"), "stopped": self.stopped, **more}


class Room:
    """The folder of one request, with its time: all its runs together have as long as one, while somebody waits."""

    def __init__(self, folder: str, limits: Limits, niceness: int, is_gone: "Callable[[], bool]") -> None:
        self.folder, self.limits, self.niceness, self.is_gone = folder, limits, niceness, is_gone
        self.deadline = time.monotonic() + limits.seconds

    def put(self, name: str, data: "str | bytes") -> None:
        """Writes a file. The name is always one of this server's own."""
        with open(os.path.join(self.folder, name), "wb") as file:
            file.write(data.encode() if isinstance(data, str) else data)

    def get(self, name: str) -> bytes:
        """The bytes of a file that the program has written."""
        with open(os.path.join(self.folder, name), "rb") as file:
            return file.read(MOST_OUTPUT)

    def run(self, *arguments: str, given: Optional[str] = None) -> Ran:
        """Runs the program in the folder; `given` is the name of the file that is its standard input."""
        left = self.deadline - time.monotonic()
        if left <= 0:
            return Ran(-1, b"", b"", "time")
        limits = [str(math.ceil(self.limits.seconds)), str(self.limits.megabytes * 1024)]
        source = os.path.join(self.folder, given) if given else os.devnull
        with tempfile.TemporaryFile() as output, tempfile.TemporaryFile() as errors, open(source, "rb") as stdin:
            child = subprocess.Popen(
                ["/bin/sh", "-c", LIMITED, "sh", *limits, self.limits.program, *arguments], cwd=self.folder,
                stdin=stdin, stdout=output, stderr=errors, start_new_session=True,
                env={"PATH": "/usr/bin:/bin", "LC_ALL": "C", "NO_COLOR": "1"})
            self.make_nice(child.pid)
            stopped = self.wait(child, left)
            texts = []
            for file in (output, errors):
                file.seek(0)
                texts.append(file.read(MOST_OUTPUT))
        return Ran(child.returncode, texts[0], texts[1], stopped)

    def make_nice(self, child: int) -> None:
        """Lowers the priority of a run, if it is a long one."""
        try:
            if self.niceness:
                os.setpriority(os.PRIO_PROCESS, child, self.niceness)
        except OSError:  # It may have ended.
            pass

    def wait(self, child: "subprocess.Popen[bytes]", seconds: float) -> Optional[str]:
        """Waits for the end of a run, or ends it; answers which limit has ended it."""
        end = time.monotonic() + seconds
        while True:
            try:
                status = child.wait(max(0, min(SECONDS_TO_LOOK, end - time.monotonic())))
                break
            except subprocess.TimeoutExpired:
                if time.monotonic() < end and not self.is_gone():
                    continue
                os.killpg(child.pid, signal.SIGKILL)
                child.wait()
                return "time"
        if status == -signal.SIGXFSZ:
            return "output"
        if status in (-signal.SIGXCPU, -signal.SIGKILL):
            return "time"
        return "memory" if status == 5 or status < 0 else None


# ---- The images of refused texts --------------------------------------------------------------------------------

def one_class(text: str) -> "tuple[str, list[str]]":
    """A canonical text with the class `Any` in place of each declared one, and the classes of its globals."""
    classes: list[str] = []
    lines = text.split("\n")
    for number, line in enumerate(lines):
        found = re.fullmatch(r"var (\w+) : (\w+);", line, re.ASCII)
        if not found:
            break
        classes.append(found[2])
        lines[number] = f"var {found[1]} : Any;"
    return re.sub(r"\bletvar (\w+) : \w+ :=", r"letvar \1 :=", "\n".join(lines)), classes


def with_classes(image: bytes, classes: "list[str]") -> bytes:
    """An image with other class names in its header; the code and all other fields are unchanged."""
    at, header = 14, bytearray(image[:14])
    for name in classes:
        variable = image[at:at + 1 + image[at]]
        at += len(variable)
        at += 1 + image[at]
        header += variable + bytes([len(name)]) + name.encode()
    return bytes(header) + image[at:]


def make_image(room: Room, lattice: str = "lattice.toml", text: str = "text.vsi") -> Ran:
    """Writes `image`, that of the text, refused or not.

    The program builds what it accepts. A text that it refuses for its flows alone is built under a policy of one class,
    from which nothing but the names of the classes depends, and then gets its own classes back.
    """
    built = room.run("build", lattice, text, "image")
    if built.status != 1 or not built.errors.startswith(b"refused: 25 "):
        return built
    canonical = room.run("fmt", text)
    if canonical.status != 0:
        return canonical
    source, classes = one_class(canonical.output.decode())
    room.put("any.vsi", source)
    room.put("any.toml", 'classes = ["Any"]\nbelow = []\n')
    built = room.run("build", "any.toml", "any.vsi", "any.image")
    if built.status == 0:
        room.put("image", with_classes(room.get("any.image"), classes))
    return built
