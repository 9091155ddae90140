"""What the tools have in common that run the built program many times: their options, and workers side by side."""

import argparse
import multiprocessing
import os
import shutil
import tempfile

PROGRAM = os.path.join(os.path.dirname(os.path.dirname(os.path.abspath(__file__))), "crates/vsi_program/out/vsi_program")


def option_parser(text, minutes, jobs):
    """A parser with the options of all, whose usage is in the tool's own text."""
    parser = argparse.ArgumentParser(usage=text.split("usage: ")[1].split("\n\n")[0])
    parser.add_argument("program", nargs="?", default=PROGRAM)
    parser.add_argument("--minutes", type=float, default=minutes)
    parser.add_argument("--seed", type=int, default=1)
    parser.add_argument("--jobs", type=int, default=jobs)
    parser.add_argument("--first", type=int, default=0)
    return parser


def read_options(parser):
    """The options, once the program is seen to be one."""
    options = parser.parse_args()
    options.program = os.path.abspath(options.program)
    if not os.access(options.program, os.X_OK):
        parser.error(f"{options.program} is no program")
    return options


def start_worker(worker, options, job, folder, connection):
    os.mkdir(folder)
    connection.send(worker(options, job, folder).work())


def gathered(worker, options, name):
    """What the workers' `work` answers, each in a folder of its own, and how many workers were lost."""
    context = multiprocessing.get_context("fork")
    folder = tempfile.mkdtemp(prefix=f"{name}-", dir="/dev/shm")
    answers, lost, ends = [], 0, []
    try:
        for job in range(options.jobs):
            end, far_end = context.Pipe(duplex=False)
            place = os.path.join(folder, str(job))
            context.Process(target=start_worker, args=(worker, options, job, place, far_end)).start()
            far_end.close()
            ends.append(end)
        for end in ends:
            try:
                answers.append(end.recv())
            except EOFError:
                lost += 1
    finally:
        shutil.rmtree(folder, ignore_errors=True)
    return answers, lost
