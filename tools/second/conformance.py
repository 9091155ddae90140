"""The points in which a text differs from an interface without faults, and the longest way through an image."""

import flows
from faults import Refusal, place
from instructions import compile_image
from machine import run


def set_points(text, resolved, lattice, interface):
    """Those of the interface in its order, then the unexpected ones."""
    names, wanted = lattice.names, [tuple(part.encode() for part in pair) for pair in interface[b"globals"]]
    found = {each.name: each for each in resolved.globals}
    for name, label in wanted:
        if name not in found:
            yield b"missing %s : %s\n" % (name, label)
        elif names[found[name].label] != label:
            at = place(text, found[name].label_at).encode()
            yield b"%s class %s : %s, expected %s\n" % (at, name, names[found[name].label], label)
    for each in resolved.globals:
        if each.name not in dict(wanted):
            at = place(text, each.at).encode()
            yield b"%s unexpected %s : %s\n" % (at, each.name, names[each.label])


def global_points(text, resolved, lattice, interface):
    """The points apart from the order, or if there are none the first place where the order differs."""
    points = list(set_points(text, resolved, lattice, interface))
    if points or interface.get(b"order", "exact") == "set":
        return points
    for each, (name, _) in zip(resolved.globals, interface[b"globals"]):
        if each.name != name.encode():
            return [b"%s order %s, expected %s\n" % (place(text, each.at).encode(), each.name, name.encode())]
    return []


def run_points(image, number, asked):
    """A run that is out of its budget, or the words at its end that differ, in the order of the names' bytes."""
    store = [asked[b"store"].get(name, 0) for name, _ in image.globals]
    has_halted, words = run(image, store, asked[b"budget"])
    if not has_halted:
        yield b"run %d out of budget %d\n" % (number, asked[b"budget"])
        return
    found = dict(zip((name for name, _ in image.globals), words))
    for name, word in sorted(asked.get(b"expect", {}).items()):
        if name not in found:
            yield b"run %d no %s, expected %d\n" % (number, name, word)
        elif found[name] != word:
            yield b"run %d %s = %d, expected %d\n" % (number, name, found[name], word)


def conform(text, resolved, lattice, interface):
    """The status and the lines for a text that has a program."""
    lines = []
    try:
        flows.judge(resolved, text, lattice, interface[b"profile"] == "strict")
    except Refusal as refusal:
        lines.append(refusal.text())
    lines += global_points(text, resolved, lattice, interface)
    image = compile_image(resolved, lattice)
    for number, asked in enumerate(interface.get(b"runs", []), 1):
        lines += run_points(image, number, asked)
    return (1, b"".join(lines)) if lines else (0, b"conforms\n")


def longest_run(image):
    """The instructions of the longest way through the code, or None where a jump leads back."""
    most = [0] * len(image.code)
    for pc in reversed(range(len(image.code))):
        name, operand = image.code[pc]
        nexts = {"HALT": [], "JMP": [operand], "JZ": [operand, pc + 1]}.get(name, [pc + 1])
        if any(following <= pc for following in nexts):
            return None
        most[pc] = 1 + max((most[following] for following in nexts), default=0)
    return most[0]
