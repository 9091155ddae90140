"""The flow lines of a text, and the raise lines with which it is accepted."""

from flows import Steps, distances, explanation
from faults import Refusal, place
from scopes import Variable


class Flows:
    """The declared variables of a program, the ending of loops last under the strict profile, and its steps."""

    def __init__(self, resolved, text, lattice, is_strict):
        self.text, self.lattice = text, lattice
        self.ending = Variable(b"(loop)", None, lattice.bottom(), False)
        self.declared = [each for each in resolved.declared if each.label is not None]
        self.steps = Steps(resolved, is_strict, self.ending).list
        self.targets = [*self.declared, self.ending] if is_strict else self.declared
        self.to = {target: distances([target], self.steps) for target in self.targets}

    def pairs(self):
        """Each source and target that a walk joins, with the number of steps of a shortest one."""
        for source in self.declared:
            for target in self.targets:
                if source is not target and source in self.to[target]:
                    yield source, target, self.to[target][source]

    def is_allowed(self, source, target):
        return self.lattice.is_below[source.label][target.label]

    def walk(self, source, target):
        """The first in dictionary order of the shortest walks."""
        walk, at, remaining = [], source, self.to[target]
        while at is not target:
            walk.append(next(step for step in self.steps
                             if step.source is at and remaining.get(step.target) == remaining[at] - 1))
            at = walk[-1].target
        return walk

    def explained(self, source, target):
        """The lines of the explanation of a walk, one for each step and the last one."""
        return explanation(self.walk(source, target), self.text, self.lattice)

    def lines(self, has_walks):
        """The flow lines, with `--walks` each followed by the steps of its walk."""
        names, found = self.lattice.names, []
        for source, target, steps in self.pairs():
            verdict = b"allowed" if self.is_allowed(source, target) else b"refused"
            found.append(b"%s : %s flows to %s : %s %s %d\n" % (
                source.name, names[source.label], target.name, names[target.label], verdict, steps))
            if has_walks:
                found += self.explained(source, target).splitlines(True)[:-1]
        return b"".join(found)

    def objects(self):
        """The document of `flows --json`."""
        names = self.lattice.names
        flows = [{"allowed": self.is_allowed(source, target), "from": source.name.decode(),
                  "from_class": names[source.label].decode(), "steps": steps, "to": target.name.decode(),
                  "to_class": names[target.label].decode()} for source, target, steps in self.pairs()]
        return {"accepted": all(flow["allowed"] for flow in flows), "flows": flows}

    def check_endings(self):
        """No raise serves where a variable above the bottom class reaches the ending of loops."""
        above = [(steps, number, source) for number, source in enumerate(self.declared)
                 for steps in [self.to.get(self.ending, {}).get(source)]
                 if steps and not self.is_allowed(source, self.ending)]
        if above:
            raise Refusal("Refused", explanation=self.explained(min(above)[2], self.ending))

    def raises(self):
        """Each declaration whose class has to rise, with its new class and the cause."""
        self.check_endings()
        for target in self.declared:
            causes = [(self.to[target][source], number, source) for number, source in enumerate(self.declared)
                      if source is not target and source in self.to[target]]
            label = target.label
            for _, _, source in causes:
                label = self.lattice.join(label, source.label)
            if label != target.label:
                _, _, cause = min(cause for cause in causes if not self.is_allowed(cause[2], target))
                yield target, label, cause

    def raise_lines(self):
        names = self.lattice.names
        return b"".join(b"%s %s : %s -> %s, since %s reaches it\n" % (
            place(self.text, each.at).encode(), each.name, names[each.label], names[label], cause.name)
            for each, label, cause in self.raises())

    def raised_text(self):
        """The text with the new classes in place of the written ones."""
        text = self.text
        for each, label, _ in sorted(self.raises(), key=lambda found: -found[0].label_at):
            end = each.label_at + len(self.lattice.names[each.label])
            text = text[:each.label_at] + self.lattice.names[label] + text[end:]
        return text

    def raise_objects(self):
        """The document of `mend --json`."""
        names, raises = self.lattice.names, []
        for each, label, cause in self.raises():
            line, column = place(self.text, each.at).split(":")
            raises.append({"because": cause.name.decode(), "column": int(column), "from": names[each.label].decode(),
                           "line": int(line), "name": each.name.decode(), "to": names[label].decode()})
        return {"accepted": all(self.is_allowed(source, target) for source, target, _ in self.pairs()),
                "raises": raises}
