#!/usr/bin/env python3
"""Compares `vsi flows` with `vsi check` and with runs, on random programs.

    tools/flows_agree.py PROGRAM [COUNT [SEED]]

PROGRAM is the built program. Each text is judged under three orders and both profiles: its table has to have a refused
line exactly where `check` refuses it. Then the text runs, with all classes made one, from stores that differ in one
global alone: a global whose word differs at the end must be listed as reached from it. Nothing is written if all is
well; else the status is 1.
"""
import random
import subprocess
import sys
import tempfile
from pathlib import Path

NAMES = ["a", "b", "c", "d"]
CLASSES = ["L", "M", "N", "H"]
ORDERS = {
    "chain": [["L", "M"], ["M", "N"], ["N", "H"]],
    "diamond": [["L", "M"], ["L", "N"], ["M", "H"], ["N", "H"]],
    "turned": [["H", "N"], ["N", "M"], ["M", "L"]],
}
BUDGET = 3000


def expression(lot, names, depth=2):
    kind = lot.randrange(4 if depth else 2)
    if kind == 0:
        return str(lot.randrange(4))
    if kind == 1:
        return lot.choice(names)
    left, right = (expression(lot, names, depth - 1) for _ in range(2))
    return f"({left}) {lot.choice('+-*=<')} ({right})"


def command(lot, names, depth):
    kind = lot.randrange(6 if depth else 2)
    if kind <= 1:
        return f"{lot.choice(names)} := {expression(lot, names)}"
    inner = [command(lot, names, depth - 1) for _ in range(2)]
    if kind == 2:
        return f"if {expression(lot, names)} then {{ {inner[0]} }} else {{ {inner[1]} }}"
    if kind == 3:
        return f"while {expression(lot, names)} do {{ {inner[0]}; {inner[1]} }}"
    name = f"t{lot.randrange(1000)}"
    typed = f" : {lot.choice(CLASSES)}" if kind == 4 else ""
    body = "; ".join(command(lot, names + [name], depth - 1) for _ in range(2))
    return f"letvar {name}{typed} := {expression(lot, names)} in {{ {body} }}"


def text(lot):
    head = "".join(f"var {name} : {lot.choice(CLASSES)}; " for name in NAMES)
    return head + "; ".join(command(lot, NAMES, 2) for _ in range(2))


def call(program, folder, *words):
    return subprocess.run([program, *words], cwd=folder, capture_output=True, text=True)


def lines_of(table):
    return [line.split(" ") for line in table.splitlines()]


def judged(program, folder, source):
    """The tables' refusals under each order and profile, and what the base table joins."""
    (folder / "p.vsi").write_text(source)
    joined = set()
    for order in ORDERS:
        for options in ([], ["--strict"]):
            check = call(program, folder, "check", *options, order + ".toml", "p.vsi")
            flows = call(program, folder, "flows", *options, order + ".toml", "p.vsi")
            rows = lines_of(flows.stdout)
            if flows.returncode != 0 or check.returncode not in (0, 1):
                return None, f"statuses {check.returncode} and {flows.returncode}"
            if any(row[8] == "refused" for row in rows) != (check.returncode == 1):
                return None, f"{order} {options}: table and verdict differ"
            if not options:
                joined = {(row[0], row[5]) for row in rows}
    return joined, None


def ended(program, folder, store):
    (folder / "s.toml").write_text("".join(f"{name} = {word}\n" for name, word in store.items()))
    run = call(program, folder, "run", "p.image", "--budget", str(BUDGET), "--store", "s.toml")
    return dict(line.split(" = ") for line in run.stdout.splitlines()) if run.returncode == 0 else None


def dependences(program, folder, lot, source):
    """The pairs of globals where the runs show that one depends on the other."""
    for name in CLASSES[1:]:
        source = source.replace(f": {name}", ": L")
    (folder / "low.vsi").write_text(source)
    call(program, folder, "build", "chain.toml", "low.vsi", "p.image")
    found = set()
    for _ in range(3):
        store = {name: lot.randrange(-2, 5) for name in NAMES}
        first = ended(program, folder, store)
        for changed in NAMES:
            other = ended(program, folder, {**store, changed: store[changed] + lot.choice([1, 2, -1])})
            if first and other:
                found |= {(changed, name) for name in NAMES if name != changed and first[name] != other[name]}
    return found


def main():
    program = str(Path(sys.argv[1]).resolve())
    count = int(sys.argv[2]) if len(sys.argv) > 2 else 200
    lot = random.Random(int(sys.argv[3]) if len(sys.argv) > 3 else 1)
    seen = set()
    wrong = 0
    with tempfile.TemporaryDirectory() as name:
        folder = Path(name)
        for order, pairs in ORDERS.items():
            below = str([list(pair) for pair in pairs]).replace("'", '"')
            (folder / f"{order}.toml").write_text(f'classes = ["L", "M", "N", "H"]\nbelow = {below}\n')
        for number in range(count):
            source = text(lot)
            joined, fault = judged(program, folder, source)
            if fault is None:
                found = dependences(program, folder, lot, source)
                seen |= {(number, pair) for pair in found}
                missing = found - joined
                fault = f"not listed: {sorted(missing)}" if missing else None
            if fault is not None:
                wrong += 1
                print(f"{number}: {fault}\n{source}", file=sys.stderr)
    if len(seen) < count // 4:
        wrong += 1
        print(f"only {len(seen)} dependences were seen", file=sys.stderr)
    return 1 if wrong else 0


if __name__ == "__main__":
    sys.exit(main())
