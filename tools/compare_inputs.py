"""The programs of tools/compare_second.py: lattices, source texts and stores, drawn from a generator of numbers."""

import itertools

KEYWORDS = ["var", "letvar", "in", "if", "then", "else", "while", "do"]
SYMBOLS = [":=", ":", ";", "+", "-", "*", "=", "<", "(", ")", "{", "}"]
NUMBERS = ["0", "1", "2", "3", "7", "10", "007", "000", "255", "9223372036854775807", "4611686018427387904",
           "3037000500", "9223372036854775806"]
STRAY = ["7up", "_x", "x_", "9223372036854775808", "99999999999999999999999", "a" * 32, "a" * 33, "$", ">", ":", "=",
         "&", "\u00e9", "\x00", "V", "If", "0x1"]


def quoted(names):
    return "[" + ", ".join(f'"{name}"' for name in names) + "]"


class Order:
    """A lattice by its classes and declared pairs, with its order by sets of what is below a class."""

    def __init__(self, names, pairs):
        self.names = names
        self.text = f"classes = {quoted(names)}\nbelow = [{', '.join(quoted(pair) for pair in pairs)}]\n".encode()
        self.lower = {name: {name} for name in names}
        for _ in names:
            for low, high in pairs:
                self.lower[high] |= self.lower[low]

    def is_below(self, low, high):
        return low in self.lower[high]


def chain(names):
    return Order(names, list(zip(names, names[1:])))


def powerset(count):
    names = [f"c{number}" for number in range(2 ** count)]
    return Order(names, [(names[low], names[low | 1 << bit]) for low in range(2 ** count) for bit in range(count)
                         if not low & 1 << bit])


ORDERS = [
    chain(["L", "H"]), chain(["L", "H"]), chain(["L", "H"]), chain(["L"]), chain(["Low", "Mid", "High"]),
    Order(["H", "L"], [("L", "H"), ("L", "L")]),
    Order(["L", "A", "B", "H"], [("L", "A"), ("L", "B"), ("A", "H"), ("B", "H")]),
    Order(["H", "B", "A", "L"], [("L", "A"), ("L", "B"), ("A", "H"), ("B", "H"), ("L", "H")]),
    Order(["T", "a", "b", "c", "F"], [*itertools.product("F", "abc"), *itertools.product("abc", "T")]),
    Order(["n", "a", "b", "c", "z"], [("n", "a"), ("a", "b"), ("b", "z"), ("n", "c"), ("c", "z")]),
    powerset(3), chain([f"k{number}" for number in range(8)]), chain([f"k{number}" for number in range(64)])]


class Maker:
    """Makes the tokens of a program of the grammar; `care` is how often a flow is chosen that goes up."""

    def __init__(self, rng, order):
        self.rng = rng
        self.order = order
        self.care = rng.choice((1, 1, 1, 0.98, 0.9, 0.5, 0))
        self.unlabelled = rng.choice((0.2, 0.6, 0.6, 1))
        self.folding = rng.choice((0.05, 0.2, 0.5))
        self.locals = rng.choice((["t"], ["t", "u", "v", "x"], [f"t{number}" for number in range(20)]))
        self.left = rng.choice((4, 10, 20, 40, 80))

    def readable(self, scope, label):
        names = dict(scope)
        return [name for name in names
                if self.rng.random() > self.care or label is None or self.order.is_below(names[name], label)]

    def expression(self, scope, label, depth):
        rng = self.rng
        if depth <= 0 or rng.random() < 0.35:
            names = self.readable(scope, label)
            if names and rng.random() > self.folding:
                return [rng.choice(names)]
            return [rng.choice(NUMBERS)]
        symbol = rng.choice("++-*<=")
        left, right = self.expression(scope, label, depth - 1), self.expression(scope, label, depth - 1)
        tokens = self.associated(left, symbol, right)
        return ["(", *tokens, ")"] if rng.random() < 0.7 else tokens

    def associated(self, left, symbol, right):
        """The operator with brackets round a comparison within it."""
        left, right = (["(", *side, ")"] if {"<", "="} & set(side) else side for side in (left, right))
        return [*left, symbol, *right]

    def guard(self, scope, label):
        return [self.rng.choice(("0", "1", "2"))] if self.rng.random() < self.folding / 2 else self.expression(
            scope, label, self.rng.randrange(3))

    def sequence(self, scope, above, depth):
        tokens = self.command(scope, above, depth)
        while self.rng.random() < 0.6 and self.left > 0:
            tokens += [";", *self.command(scope, above, depth)]
        return tokens

    def block(self, scope, above, depth):
        if self.rng.random() < 0.4 or depth <= 0:
            return self.command(scope, above, depth)
        return ["{", *self.sequence(scope, above, depth - 1), "}"]

    def counted(self, scope, above, depth):
        """A loop that ends."""
        name, rng = self.rng.choice(self.locals), self.rng
        label = rng.choice(above)
        inner = [*scope, (name, label)]
        body = self.block(inner, [each for each in above if self.order.is_below(label, each)], depth - 2)
        return ["letvar", name, ":=", rng.choice(("1", "2", "3", "5")), "in", "while", "0", "<", name, "do", "{",
                *body, ";", name, ":=", name, "-", "1", "}"]

    def command(self, scope, above, depth):
        """A command that writes variables whose classes are among `above`, mostly."""
        rng = self.rng
        self.left -= 1
        choice = rng.random() if depth > 0 and self.left > 0 else 0
        if choice < 0.4:
            return self.assignment(scope, above)
        label = rng.choice(above)
        narrower = [each for each in above if self.order.is_below(label, each)]
        if choice < 0.58:
            return ["if", *self.guard(scope, label), "then", *self.block(scope, narrower, depth - 1), "else",
                    *self.block(scope, narrower, depth - 1)]
        if choice < 0.68:
            return ["while", *self.guard(scope, label), "do", *self.block(scope, narrower, depth - 1)]
        if choice < 0.74:
            return self.counted(scope, above, depth)
        if choice < 0.94:
            name, local = rng.choice(self.locals), rng.choice(self.order.names)
            written = [] if rng.random() < self.unlabelled else [":", local]
            return ["letvar", name, *written, ":=", *self.expression(scope, local, rng.randrange(3)), "in",
                    *self.block([*scope, (name, local)], above, depth - 1)]
        return ["{", *self.sequence(scope, above, depth - 1), "}"]

    def assignment(self, scope, above):
        names = dict(scope)
        targets = [name for name in names if self.rng.random() > self.care or names[name] in above] or list(names)
        if not targets:
            return ["letvar", "z", ":=", "1", "in", "z", ":=", "2"]
        target = self.rng.choice(targets)
        return [target, ":=", *self.expression(scope, names[target], self.rng.randrange(4))]

    def program(self):
        rng = self.rng
        names = rng.sample(["x", "y", "h", "l", "n", "m", "t", "k0", "k1", "q_1"], rng.randrange(0, 7))
        scope = [(name, rng.choice(self.order.names)) for name in names]
        front = [token for name, label in scope for token in ("var", name, ":", label, ";")]
        return front + self.sequence(scope, self.order.names, rng.choice((1, 2, 4, 6, 9)))


def a_web(rng, order):
    """Many variables without classes and many flows between them, so that many walks are as short."""
    few = rng.random() < 0.7
    globals_ = [f"g{number}" for number in range(rng.choice((2, 3, 5)))]
    inner = [f"t{number}" for number in range(rng.choice((2, 4, 8, 20)))]
    front = [token for name in globals_ for token in ("var", name, ":", rng.choice(order.names), ";")]
    for place, name in enumerate(inner):
        label = [":", rng.choice(order.names)] if rng.random() < 0.1 else []
        front += ["letvar", name, *label, ":=", rng.choice(["0", *globals_, *inner[:place]] if few else ["0"]), "in"]
    names, body = globals_ + inner, []
    for _ in range(rng.choice((3, 6, 12, 40))):
        reads = [rng.choice(names) for _ in range(rng.randrange(1, 4))]
        expression = [token for name in reads for token in (name, "+")][:-1]
        opening = rng.choice(([], [], [], ["while", *expression, "do"], ["if", *expression, "then"]))
        body += [";"] + opening + [rng.choice(names), ":=", *expression]
        if opening[:1] == ["if"]:
            body += ["else", *rng.choice((["while", rng.choice(names), "do"], [])), rng.choice(names), ":=", "1"]
    return front + ["{", *body[1:], "}"]


def a_deep_program(rng, order):
    """Nests of all kinds, to about the limit on depth."""
    depth = rng.choice((rng.randrange(196, 205), rng.randrange(1, 60)))
    label = rng.choice(order.names)
    front, back = ["var", "x", ":", label, ";"], []
    outer = rng.choice((depth, rng.randrange(depth + 1), 0))
    kinds = rng.choice(("iewlb", "iewlb", "l", "b", "lw", "ie"))
    for _ in range(outer):
        kind = rng.choice(kinds)
        front += {"i": ["if", "x", "then"], "e": ["if", "x", "then", "x", ":=", "1", "else"], "b": ["{"],
                  "w": ["while", "x", "do"], "l": ["letvar", rng.choice("xy"), ":=", "x", "in"]}[kind]
        back += {"i": ["2", ":=", "x", "else"], "b": ["}"]}.get(kind, [])
    front += rng.choice((["x", ":="], ["if", "x", "+"], ["letvar", "z", ":="], ["while", "0", "*"]))
    head = front[-1] if front[-1] in "+*" else front[-3] if front[-3] == "letvar" else ""
    inner, closing = [], []
    for _ in range(depth - outer):
        kind = rng.choice(("(", "(", "1+(", "2*(", "+", "*"))
        inner += {"(": ["("], "1+(": ["x", "+", "("], "2*(": ["2", "*", "("]}.get(kind, [])
        closing += [")"] if "(" in kind else [kind, rng.choice("x12")]
    tail = {"+": ["then", "x", ":=", "1", "else", "x", ":=", "2"], "*": ["do", "x", ":=", "1"],
            "letvar": ["in", "x", ":=", "z"]}.get(head, [])
    return front + inner + [rng.choice("x1")] + closing + tail + back[::-1]


def a_large_program(rng, order):
    """About the limits on globals, on declarations and on size."""
    label = rng.choice(order.names)
    chance = rng.random()
    globals_ = [f"g{number}" for number in range(rng.choice((255, 256, 257)) if chance < 0.4 else 3)]
    front = [token for name in globals_ for token in ("var", name, ":", label, ";")]
    if rng.random() < 0.1:
        front += ["var", rng.choice(globals_), ":", label, ";"]
    if chance < 0.7:
        count = rng.choice((1023, 1024, 1025)) - len(globals_)
        body = [token for number in range(count)
                for token in (";", "letvar", f"t{number}", ":=", "g0", "in",
                              rng.choice(("g1", f"t{number}")), ":=", "g2")]
        return front + body[1:]
    size, body = rng.choice((65_533, 65_534, 65_535)), []
    while size >= 12:
        piece, cost = rng.choice(((["g1", ":=", "g2", "+", "g0"], 4), (["g0", ":=", "7"], 2),
                                  (["if", "g0", "then", "g1", ":=", "1", "else", "{", "g2", ":=", "g1", "}"], 7)))
        body += [";", *piece]
        size -= cost
    if size % 2:
        body += [";", "while", "g0", "do", "g0", ":=", "g1"]
        size -= 5
    body += [";", "g0", ":=", "g1"] * (size // 2)
    return front + body[1:]


def spoiled(rng, tokens):
    """Tokens left out, doubled, changed for others, or cut off."""
    tokens = list(tokens)
    for _ in range(rng.choice((1, 1, 2, 4))):
        at = rng.randrange(len(tokens) + 1)
        other = rng.choice([*KEYWORDS, *SYMBOLS, *NUMBERS[:5], *STRAY, "x", "y", "t", "L", "H", *tokens[:30]])
        tokens = rng.choice((tokens[:at] + tokens[at + 1:], tokens[:at] + [other] + tokens[at:],
                             tokens[:at] + [other] + tokens[at + 1:],
                             tokens[:at] + tokens[at:at + 9] * 2 + tokens[at + 9:], tokens[:at],
                             tokens[:at] + tokens[at:at + 2][::-1] + tokens[at + 2:]))
    return tokens


def written(rng, tokens):
    """A text of these tokens, dense or with all sorts of blanks and comments between them."""
    style = rng.randrange(4)
    blanks = ([" "], ["", " "], [" ", "\n", "\t", "\r\n", "  "],
              ["", " ", "\n", " # x := $ \u00e9\n", "#\n", "\r"])[style]
    pieces = []
    for before, token in zip(["", *tokens], tokens):
        blank = rng.choice(blanks)
        if not blank and before[-1:].isalnum() and token[:1].isalnum() or before == ":" and token == "=":
            blank = " "
        pieces.append(blank + token)
    return ("".join(pieces) + rng.choice(("", "", "\n", " # end", "\n\n"))).encode()


def a_number(rng):
    value = rng.choice((0, 1, 2, 3, 5, 100, -1, -2, 2 ** 63 - 1, -2 ** 63, rng.randrange(-2 ** 63, 2 ** 63)))
    forms = [str(value)] + ([hex(value), oct(value), bin(value), f"+{value}", f"{value:_}"] if value >= 0 else [])
    return rng.choice(forms)


def a_store(rng, names):
    """A store file for some of the globals, sometimes with a fault."""
    lines = [rng.choice((name, f'"{name}"', f"'{name}'")) + rng.choice((" = ", "=", "\t=  ")) + a_number(rng)
             for name in names if rng.random() < 0.8]
    if rng.random() < 0.1:
        lines.insert(rng.randrange(len(lines) + 1), rng.choice((
            "zz = 1", "x = 1.0", "a.b = 1", "[x]", '"" = 0', "x = {}", "x = 9223372036854775808", "y = true", "x = '1'",
            '"a\\nb" = 1', "[[h]]", "l = 1979-05-27", "x = 0", "k0.k1 = 2", "\ufeff", "n =", "# \x7f", "m = 07")))
    return rng.choice(("\n", "\r\n")).join(lines).encode()


class Case:
    """One lattice, one source text and what is asked of both; `names` are words that may be globals."""

    def __init__(self, rng):
        self.rng = rng
        self.order = order = rng.choice(ORDERS)
        chance = rng.random()
        if chance < 0.72:
            tokens = Maker(rng, order).program()
        elif chance < 0.88:
            tokens = a_web(rng, order)
        elif chance < 0.995:
            tokens = a_deep_program(rng, order)
        else:
            tokens = a_large_program(rng, order)
        self.names = [name for var, name in zip(tokens, tokens[1:]) if var == "var"]
        self.lattice = order.text
        self.source = written(rng, spoiled(rng, tokens) if rng.random() < 0.2 else tokens)

    def compilations(self):
        """The command lines for the text."""
        rng = self.rng
        yield ["fmt", "source"]
        yield ["check", "lattice", "source"]
        yield ["check", "--strict", "lattice", "source"]
        yield ["classes", "lattice", "source"]
        if rng.random() < 0.2:
            yield ["classes", "lattice", "source", "--strict"]
        for words in (["flows"], ["mend"]):
            yield [*words, "lattice", "source", *rng.choice(([], ["--strict"]))]
        yield ["flows", "lattice", "source", *rng.choice((["--walks"], ["--json"], ["--walks", "--strict"]))]
        yield ["mend", "lattice", "source", *rng.choice((["--apply"], ["--apply", "--strict"]))]
        if rng.random() < 0.05:
            yield []
        yield ["build", "lattice", "source", "written"]

    def runs(self):
        """The command lines for the image of an accepted text, each with its store file."""
        rng = self.rng
        yield ["list", "image"], b""
        for _ in range(2):
            budget = str(rng.choice((0, 1, 2, 5, 20, 100, 400, 3000, 3000, 3000)))
            words = ["run", "image", "--budget", budget, "--store", "store"]
            yield words + (["--trace"] if rng.random() < 0.3 else []), a_store(rng, self.names)
        words = ["view", "lattice", "image", "--budget=3000", "--class", rng.choice(self.order.names)]
        yield words + ["--store=store"], a_store(rng, self.names)

    def interface(self, declared):
        """An interface for a text with these globals and their classes, sometimes with differences."""
        rng, wanted = self.rng, list(declared)
        if wanted and rng.random() < 0.2:
            wanted.pop(rng.randrange(len(wanted)))
        if rng.random() < 0.2 and len(wanted) < 256:
            wanted.insert(rng.randrange(len(wanted) + 1), ("zz9", rng.choice(self.order.names)))
        if rng.random() < 0.2:
            wanted = [(name, rng.choice((label, rng.choice(self.order.names)))) for name, label in wanted]
        if rng.random() < 0.2:
            rng.shuffle(wanted)
        names = [name for name, _ in wanted]
        lines = ['lattice = "lattice"', f'profile = "{rng.choice(("base", "strict"))}"']
        lines += [f'order = "{rng.choice(("exact", "set"))}"'] if rng.random() < 0.5 else []
        lines.append("globals = [" + ", ".join(f'["{name}", "{label}"]' for name, label in wanted) + "]")
        for _ in range(rng.randrange(3)):
            some, budget = rng.sample(names, min(len(names), rng.randrange(4))), rng.choice((0, 3, 20, 400, 3000))
            store = ", ".join(f"{name} = {rng.choice((-1, 0, 1, 7))}" for name in some)
            expect = ", ".join(f"{name} = {rng.choice((-1, 0, 0, 1, 7))}" for name in some)
            ends = rng.choice(("halts = true", f"expect = {{ {expect} }}"))
            lines += ["[[runs]]", f"store = {{ {store} }}", f"budget = {budget}", ends]
        return ("\n".join(lines) + "\n").encode()
