#!/usr/bin/env python3
"""Runs the built program on the inputs of a generator, each twice, and reports what isn't as documented.

usage: tools/soak.py [PROGRAM] [--count N] [--minutes M] [--seed S] [--jobs J] [--first N] [--keep FOLDER]

PROGRAM is crates/vsi_program/out/vsi_program unless another is named. An input is a command line with its files:
source texts, lattices, stores and images, made from worked ones by changes of bytes, words and lines, by repeated
pieces, deep nesting and great length, or drawn from the grammar. Input number K is the same for the same seed,
whatever the other options are, so --first K --count 1 gives it again. Reported are a status outside 0 to 5, a signal,
two runs with different answers (status, both streams, written image), a stream or a written image that isn't of the
documented form, a run of more than half a second of processor time, and one that is stopped after twenty seconds. Each
input whose words are right is run a third time with an option that adds output, --explain, --count or --json: its status
is to be the same, and so are standard output, the first lines of standard error and the written image; the text
after those lines has no byte but printable ASCII and line feeds, and the JSON says what the lines did. The
files of reported inputs are copied to FOLDER/K. The last line has the figures, of which the most memory
is at least a worker's own; the status is 1 where anything was reported. It needs /dev/shm, and leaves nothing there.
"""

import collections
import json
import os
import random
import re
import shutil
import signal
import sys
import time

sys.dont_write_bytecode = True

from soak_inputs import ALL, Input  # noqa: E402
from workers import gathered, option_parser, read_options  # noqa: E402

SLOW_SECONDS = 0.5
STOP_SECONDS = 20.0
SHOWN_REPORTS = 20

COMPILER_REFUSALS = {*range(11, 23), 25}
LATTICE_REFUSALS = set(range(1, 11))
IMAGE_REFUSALS = set(range(27, 39))
STORE_REFUSALS = {40, 41, 42}
TEXT_REFUSALS = set(range(11, 23))
REFUSALS = {"": COMPILER_REFUSALS, "fmt": set(range(11, 17)), "list": IMAGE_REFUSALS,
            "check": LATTICE_REFUSALS | COMPILER_REFUSALS, "classes": LATTICE_REFUSALS | COMPILER_REFUSALS,
            "build": LATTICE_REFUSALS | COMPILER_REFUSALS, "run": IMAGE_REFUSALS | STORE_REFUSALS,
            "view": LATTICE_REFUSALS | IMAGE_REFUSALS | STORE_REFUSALS | {43},
            "compare": LATTICE_REFUSALS | IMAGE_REFUSALS | STORE_REFUSALS | {43},
            "drive": LATTICE_REFUSALS | IMAGE_REFUSALS | STORE_REFUSALS | {43},
            "audit": LATTICE_REFUSALS | IMAGE_REFUSALS | {25, 43, 49, 50}, "source": IMAGE_REFUSALS | {49, 51},
            "mend": LATTICE_REFUSALS | COMPILER_REFUSALS,
            "flows": LATTICE_REFUSALS | TEXT_REFUSALS, "leak": LATTICE_REFUSALS | TEXT_REFUSALS,
            "draw": LATTICE_REFUSALS | TEXT_REFUSALS, "report": LATTICE_REFUSALS, "conform": LATTICE_REFUSALS}

PLACES = rb"1[234] Bad(?:Byte|Word|Number)|15 Unexpected|16 TooDeep|17 Duplicate|18 UnknownClass|19 Unbound" \
    rb"|2[01] TooMany(?:Globals|Declarations)"
NUMBERS = rb"5 BadName|6 DuplicateName|7 UnknownName|29 BadField|30 BadOpcode|31 Truncated|32 Trailing|33 BadSlot" \
    rb"|34 BadTarget|35 Underflow|36 Overflow|37 NotEmpty|43 ClassNotInLattice|49 NoCommands"
ALONE = rb"1 NotToml|2 BadShape|3 NoClass|4 TooManyClasses|11 TooLong|22 TooLarge|27 BadMagic|28 BadVersion" \
    rb"|38 RunsOff|40 NotToml|50 WrongFields|51 NoText"
STEP = rb"\d+:\d+ \w+ flows to (?:\w+|\(loop\)) by (?:ASSIGN|LETVAR|IF|WHILE|LOOP) at \d+:\d+\n"
WALK = rb"(?:" + STEP + rb")+\w+ : \w+ may not flow to (?:\w+|\(loop\)) : \w+\n"
CODE_WALK = rb"(?:\d+ (?:slot )?\w+ flows to (?:(?:slot )?\w+|\(loop\)|\(jump\)) by [A-Z]+ at \d+\n)+" \
    rb"\w+ : \w+ may not flow to (?:\w+|\(loop\)|\(jump\)) : \w+\n"
REFUSAL = re.compile(
    rb"refused: (?:(?:" + ALONE + rb")\n|(?:" + NUMBERS + rb") \d+\n|(?:8 Cycle|9 NoJoin|10 NoMeet) \d+ \d+\n|(?:"
    + PLACES + rb") \d+:\d+\n|(?s:(?:41 NotANumber|42 UnknownGlobal) .*\n)|25 Refused\n(?:" + WALK
    + rb"|" + CODE_WALK + rb"))(?:in the text with the raised classes\n)?")

STORE_TEXT = rb"(?:\w+ = -?\d+\n)*"
ROWS = rb"(?:(?:  |\* ).*\n)*"
LEAK = re.compile(rb"leak at \w+\n" + ROWS + rb"\w+ sees\n" + ROWS)
COMPARED = rb"\w+ sees before\n" + ROWS + rb"\w+ sees after\n" + ROWS
INTERFACE_REFUSAL = re.compile(rb"refused interface: (?s:.*)\n")
# The output at status 1 of a subcommand that answers on standard output.
NO_BOUND = rb"no bound: .*\n"
TOLD = {"compare": re.compile(COMPARED), "bound": re.compile(NO_BOUND), "fmt": re.compile(rb"(?:\d+:\d+ differs\n)+"),
        "conform": re.compile(rb'\{"conforms":false,"points":\[.*\]\}\n|(?:[^{\n].*\n)+')}
MESSAGES = rb"(?:Content-Length: \d+\r\n\r\n\{.*\})*"
# The notes of an answer on standard error at status 0, or 1 for `lsp`, and refusals that no number has.
BUDGET = re.compile(rb"(?:" + NO_BOUND + rb"|budget below the bound: \d+ of \d+ instructions\n)?")
NOTES = {"drive": BUDGET, "compare": BUDGET,
         "policy": re.compile(rb"(?:warning: .*\n)*"), "lsp": re.compile(rb"(?:[ -~]+\n){0,3}")}
UNNUMBERED = {"drive": BUDGET, "compare": BUDGET, "emit-c": re.compile(NO_BOUND), "lsp": NOTES["lsp"]}
TRACE = rb"(?:\d+: [A-Z]+(?: -?\d+)? \|(?: -?\d+)*\n)*"
DONE = {command: re.compile(form) for command, form in {
    "": STORE_TEXT, "view": STORE_TEXT, "run": TRACE + STORE_TEXT, "check": rb"accepted\n", "build": rb"",
    "classes": rb"(?:\d+:\d+ \w+ : \w+\n)+", "fmt": rb"[ -~\n]+\n", "?": rb"(?s:.*)",
    "flows": rb"(?:\w+ : \w+ flows to (?:\w+|\(loop\)) : \w+ (?:allowed|refused) \d+\n(?:" + STEP + rb")*)*",
    "mend": rb"(?:\d+:\d+ \w+ : \w+ -> \w+, since \w+ reaches it\n)*",
    "leak": rb"no leak in \d+ pairs of runs\n", "source": rb"[ -~\n]+\n", "compare": COMPARED,
    "drive": rb"(?:(?:\w+ = -?\d+(?: \w+ = -?\d+)*)?\n|refused: 4[4-8] \w+(?: \d+)?\n|out of budget\n)*",
    "conform": rb'conforms\n|\{"conforms":true,"points":\[\]\}\n', "audit": rb"accepted\n",
    "report": rb"<!DOCTYPE html>(?s:.*)</html>\n", "explain": rb"\d+ \w+(?s:.*)\n",
    "draw": rb"digraph (?:lattice|flows) \{\n(?:  .*\n)*\}\n"
            rb"|digraph policy \{\n(?:  .*\n)*(?:subgraph cluster_(?:lattice|flows) \{\n(?:  .*\n)*\}\n){2}\}\n",
    "bound": rb"halts within \d+ instructions\n", "emit-c": rb"(?:[ -~]*\n)+", "lsp": MESSAGES,
    "policy": rb"(?:\w+ (?:sees|now sees|no longer sees) .+\n)*(?:no class sees more or less than before\n)?",
    "list": rb"globals \d+\nslots \d+\nstack \d+\n(?:\w+ : \w+\n)*(?:\d+: [A-Z]+(?: -?\d+)?\n)+"}.items()}
UNFINISHED = re.compile(TRACE)
NOTHING = re.compile(b"")
# The line of JSON of a refused file, which has a text on standard error too.
REFUSED_FILE = re.compile(rb'\{"accepted":false,[^\n]*\}\n')

# The options that add output, for each subcommand that takes them.
FURTHER = {command: ("--explain",) for command in DONE if command not in ("", "?", "explain", "lsp")}
FURTHER["run"] += ("--count",)
FURTHER["check"] += ("--json",)
TOLD_FURTHER = re.compile(rb"[ -~\n]*")
COUNTED = re.compile(rb"instructions: \d+\n")

Answer = collections.namedtuple("Answer", "status output error written")


class Runner:
    """Runs the program in a folder of its own, on files that stand there."""

    def __init__(self, program, folder):
        os.chdir(folder)
        self.program = program
        self.child = None
        self.longest, self.most_memory, self.is_stopped = 0.0, 0, False
        self.files = {name: os.open(name, os.O_RDWR | os.O_CREAT)
                      for name in ("source", "lattice", "image", "store", "other")}
        self.streams = [os.open(name, os.O_RDWR | os.O_CREAT) for name in ("output", "error")]
        self.kept = set(os.listdir("."))
        signal.signal(signal.SIGALRM, self.stop)

    def stop(self, _number, _frame):
        self.is_stopped = True
        os.kill(self.child, signal.SIGKILL)

    def put(self, files):
        for name, data in files.items():
            os.ftruncate(self.files[name], 0)
            if os.pwrite(self.files[name], data, 0) != len(data):
                raise OSError("no room for the files")

    def written(self):
        """The image that a run wrote, or None; what else it made is removed too."""
        image = None
        for name in set(os.listdir(".")) - self.kept:
            if name == "written":
                with open(name, "rb") as file:
                    image = file.read()
            os.unlink(name)
        return image

    def run(self, words):
        """The answer of one run, and how many seconds of processor time it took."""
        for stream in self.streams:
            os.ftruncate(stream, 0)
        for file in (self.files["source"], *self.streams):
            os.lseek(file, 0, os.SEEK_SET)
        actions = [(os.POSIX_SPAWN_DUP2, file, number)
                   for number, file in enumerate((self.files["source"], *self.streams))]
        self.child = os.posix_spawn(self.program, ["vsi", *words], {}, file_actions=actions)
        signal.setitimer(signal.ITIMER_REAL, STOP_SECONDS)
        os.waitid(os.P_PID, self.child, os.WEXITED | os.WNOWAIT)
        signal.setitimer(signal.ITIMER_REAL, 0)
        _, state, usage = os.wait4(self.child, 0)
        output, error = (os.pread(stream, os.fstat(stream).st_size, 0) for stream in self.streams)
        seconds = usage.ru_utime + usage.ru_stime
        self.longest = max(self.longest, seconds)
        self.most_memory = max(self.most_memory, usage.ru_maxrss)
        return Answer(os.waitstatus_to_exitcode(state), output, error, self.written()), seconds


def has_form(forms, given, error):
    """Whether the text on standard error has the form for the command, or for some command if that isn't known."""
    return any(form.fullmatch(error) for command, form in forms.items() if given.command in (command, "?"))


def error_fault(given, answer):
    """What is wrong with the text on standard error, or None."""
    status, error = answer.status, answer.error
    if status == 1:
        if not error and (given.command in (*TOLD, "?") or "--json" in given.words):
            return None
        if has_form(UNNUMBERED, given, error):
            return None
        if given.command in ("leak", "?") and LEAK.fullmatch(error):
            return None
        if given.command in ("conform", "?") and INTERFACE_REFUSAL.fullmatch(error):
            return None
        if not REFUSAL.fullmatch(error):
            return "a refusal of another form"
        number = int(error.split(b" ")[1])
        return None if number in REFUSALS.get(given.command, {number}) else "a refusal of another command"
    if status == 2:
        return None if error else "no text on the words"
    if status == 4:
        paths = {b"file fault: " + word.encode() + b"\n" for word in given.words}
        names_another = given.command == "conform" and error.startswith(b"file fault: ")
        return None if error in paths or names_another else "a file fault of another form"
    if status == 0 and has_form(NOTES, given, error):
        return None
    wanted = {0: b"", 3: b"out of budget\n", 5: b"out of memory\n"}[status]
    return None if error == wanted else "another text on standard error"


def faults_of(given, answer):
    """What isn't as documented in an answer."""
    if answer.status not in range(6):
        return [f"status {answer.status}"]
    faults = [error_fault(given, answer)]
    form = DONE[given.command] if answer.status == 0 else None
    is_noted = given.command == "compare" and "--unbounded" in given.words
    if answer.status == 1 and (is_noted and answer.output or not answer.error):
        form = DONE["?"] if given.command == "mend" and "--json" in given.words else TOLD.get(given.command)
    if given.command == "?":
        form = DONE["?"]
    if form and {"--apply", "--json", "--keep-comments"} & {*given.words} and given.command != "conform":
        form = DONE["?"]
    if answer.status == 1 and answer.error and "--json" in given.words and answer.output:
        form = REFUSED_FILE
    if "--check" in given.words and answer.status == 0 and given.command != "?":
        form = NOTHING
    if given.command == "lsp" and answer.status in (1, 4):
        form = DONE["lsp"]
    if answer.status == 3 and "--trace" in given.words:
        form = UNFINISHED
    if not form.fullmatch(answer.output) if form else answer.output:
        faults.append("another text on standard output")
    if given.command != "?":
        front = b"VSI\x02" if given.command == "build" and answer.status == 0 else None
        if front != (answer.written and answer.written[:4]):
            faults.append("another image was written")
    return [fault for fault in faults if fault]


def json_fault(plain, answer):
    """What is wrong with an answer in JSON beside the one without it, or None."""
    if not answer.output:
        return None if answer == plain else "another answer without JSON"
    try:
        line = json.loads(answer.output)
    except ValueError:
        return "no JSON"
    if answer.error not in (b"", plain.error) or answer.output.count(b"\n") != 1:
        return "JSON of another form"
    if line["accepted"] != (plain.status == 0):
        return "JSON of another answer"
    is_told = line["accepted"] or line["text"].encode() + b"\n" == plain.error
    return None if is_told else "JSON of another refusal"


def further_fault(option, plain, answer):
    """What is wrong with the answer to an input with an option that tells more, or None."""
    if answer.status != plain.status:
        return f"status {answer.status} in place of {plain.status}"
    if answer.written != plain.written:
        return "another image was written"
    if option == "--json" and plain.status in (0, 1):
        return json_fault(plain, answer)
    if answer.output != plain.output or not answer.error.startswith(plain.error):
        return "another answer"
    more = answer.error[len(plain.error):]
    if option == "--count" and plain.status == 0:
        return None if COUNTED.fullmatch(more) else "no count"
    if option != "--explain" or plain.status == 0:
        return "more was told" if more else None
    return None if TOLD_FURTHER.fullmatch(more) else "an explanation with other bytes"


class Worker:
    """Goes through every so many inputs and counts what becomes of them."""

    def __init__(self, options, job, folder):
        self.options = options
        self.job = job
        self.runner = Runner(options.program, folder)
        self.figures = collections.Counter()

    def report(self, number, given, faults):
        self.figures["reports"] += 1
        if self.figures["reports"] <= SHOWN_REPORTS:
            print(f"input {number}: {'; '.join(faults)}: {given.words}", flush=True)
        if self.options.keep:
            folder = os.path.join(self.options.keep, str(number))
            os.makedirs(folder, exist_ok=True)
            for name in self.runner.kept:
                shutil.copy(name, folder)

    def try_further(self, number, given, plain):
        """What isn't as documented where an option tells more of an input that was answered so."""
        options = [option for option in FURTHER.get(given.command, ()) if option not in given.words]
        if plain.status not in (0, 1, 3, 4) or not options:
            return []
        option = options[number % len(options)]
        answer, seconds = self.runner.run([*given.words, option])
        self.figures["further"] += 1
        faults = [further_fault(option, plain, answer)]
        if seconds > 2 * SLOW_SECONDS:
            faults.append(f"{seconds:.1f} seconds")
        return [f"with {option} {fault}" for fault in faults if fault]

    def try_input(self, number):
        """Runs an input twice, and with an option that tells more, and reports what isn't as documented."""
        given = Input(random.Random(f"{self.options.seed}/{number}"), ALL)
        self.runner.put(given.files)
        faults, answers = [], []
        for _ in range(2):
            self.runner.is_stopped = False
            answer, seconds = self.runner.run(given.words)
            answers.append(answer)
            self.figures[f"status {answer.status}"] += 1
            if self.runner.is_stopped:
                faults.append("stopped")
            if seconds > SLOW_SECONDS:
                faults.append(f"{seconds:.1f} seconds")
        faults += faults_of(given, answers[0])
        if answers[0] != answers[1]:
            faults.append("two answers")
        if not self.runner.is_stopped:
            faults += self.try_further(number, given, answers[0])
        if faults:
            self.report(number, given, faults)

    def work(self):
        first, end = self.options.first, time.monotonic() + 60 * self.options.minutes
        for number in range(first + self.job, first + self.options.count, self.options.jobs):
            if time.monotonic() > end:
                break
            self.try_input(number)
            self.figures["inputs"] += 1
        return self.figures, self.runner.longest, self.runner.most_memory


def tool_options():
    parser = option_parser(__doc__, 60, len(os.sched_getaffinity(0)))
    parser.add_argument("--count", type=int, default=1_000_000)
    parser.add_argument("--keep", type=os.path.abspath)
    return read_options(parser)


def main():
    options = tool_options()
    answers, lost = gathered(Worker, options, "soak")
    figures, longest, most_memory = collections.Counter(), 0.0, 0
    for counted, seconds, memory in answers:
        figures += counted
        longest, most_memory = max(longest, seconds), max(most_memory, memory)
    runs = {key: figures[key] for key in sorted(figures) if key.startswith("status")}
    print(f"seed {options.seed}, inputs {figures['inputs']}, runs {sum(runs.values())},",
          *(f"{key}: {count}," for key, count in runs.items()), f"told further {figures['further']},",
          f"longest run {longest:.3f} s, most memory {most_memory // 1024} MiB,",
          f"lost workers {lost}, reports {figures['reports']}")
    return 1 if lost or figures["reports"] else 0


if __name__ == "__main__":
    sys.exit(main())
