"""The inputs of tools/soak.py and tools/compare_second.py: command lines with files, drawn from a generator of numbers."""

import json
import random
import re
import struct

from hostile_texts import some_hostile_text

TEXT_LIMIT = 1_048_576

SOURCES = [text.encode() for text in (
    "var x : L; x := 1 + 2",
    "var h : H; var l : L; l := h",
    "var h : H; var l : L; if h then l := 1 else l := 0",
    "var h : H; var l : L; letvar t := 0 in { if h then t := 1 else t := 0; l := t }",
    "var h : H; var l : L; if 0 then l := h else l := 1",
    "var a : A; var b : B; var h : H; letvar t := a + b in h := t",
    "var a : A; var b : B; var x : A; letvar t := a + b in x := t",
    "var h : H; var l : L; letvar a := 0 in letvar b := 0 in while l < 3 do { b := a; a := h; l := l + 1 }",
    "var x : L; x := 9223372036854775807 + 1",
    "var x : L; x := 0 - 9223372036854775807 - 1 < 1",
    "var x : L; var y : L; x := 1; letvar x := x + 1 in { x := x + 1; y := x }; x := x + 10",
    "var h : H; while h do h := h",
    "var l : L; letvar t := 5 in while l < 2 do { l := l + t; t := 1 }",
    "var x:L;x:=01+(2);if x<3 then{x:=1;x:=2}else x:=0",
    "var h : H; if h then h := 1 else h := 2",
    "var h : H; var l : L; l := l + 1; h := l",
    "var l : L; while l < 2 do letvar t := 0 in { t := t + 1; l := l + t }",
    "letvar t := 1 in t := 2",
    "var x : L; while 0 do x := 1",
    "var x : L; letvar t := 0 in { if x then t := 1 else t := 2; t := 3; x := t }",
    "var x : L; x := 10 - 2 * 3 * 1 + 1 # a comment",
    "var x : L; x := 3037000500; x := x * x",
    "var h : H; var k : H; if h then while 0 do k := 1 else k := 2",
)]

LATTICES = [text.encode() for text in (
    'classes = ["L", "H"]\nbelow = [["L", "H"]]\n',
    'classes = ["L", "A", "B", "H"]\nbelow = [["L", "A"], ["L", "B"], ["A", "H"], ["B", "H"]]\n',
    'classes = ["L"]\nbelow = []\n',
    'classes = ["A","B","C","D"]\nbelow = [["A","C"],["A","D"],["B","C"],["B","D"]]',
    'classes = ["A","B","T"]\nbelow = [["A","T"],["B","T"]]',
    'classes = ["L","H"]\nbelow = [["L","H"],["H","L"]]',
)]

STORES = [b"", b"x = 5\n", b"h = 7\nl = 1\n", b"x = -9223372036854775808\ny = 9223372036854775807\n",
          b'x = "a"\n', b"z = 1\n", b"x =\n", b'"x" = 0x10\n', b"x.y = 1\n", b"l = 1_000 # one\r\n"]

PIECES = rb"""var letvar in if then else while do := : ; + - * = < ( ) { } x y h l t a b A B L H # 0 1 2 007 $ _ @ x1
xx_9 9223372036854775807 9223372036854775808 18446744073709551616 abcdefghijklmnopqrstuvwxyzabcdef
abcdefghijklmnopqrstuvwxyzabcdefg""".split() + [b" ", b"\n", b"\r", b"\t", b"\xff", b"\x00"]

TOML_PIECES = rb"""classes below = [ ] [[ ]] " ' , . { } x h l "L" "H" "if" "" [] ["L","H"] # + - 0x 0o7 0b1 1e9 1.5
nan inf true 1979-05-27 07:32:00 _ \u0041 \U0010ffff \n x.y 9223372036854775808 -9223372036854775809""".split() + [
    b"'''", b'"""', b" ", b"\n", b"\r\n", b"\xff", b"\xc3\xa9", b"\xef\xbb\xbf", b"\x00"]

SOURCE_NESTS = [(b"(", b")"), (b"{ ", b" }"), (b"if x then ", b" else x := 1"), (b"if 0 then x := 2 else ", b""),
                (b"while x do ", b""), (b"while 0 do ", b""), (b"letvar t := x in ", b""), (b"1 + (", b")"),
                (b"x := 1 ; ", b""), (b"1 * ", b""), (b"var x : L; ", b"")]

DEEP_PROGRAMS = [(b"x := ", b"(", b"x", b")"), (b"", b"{ ", b"x := 1", b" }"), (b"x := 1", b" + 1", b"", b""),
                 (b"", b"if x then ", b"x := 1", b" else x := 2"), (b"", b"if x then x := 2 else ", b"x := 1", b""),
                 (b"", b"while x do ", b"x := 0", b""), (b"", b"letvar x := x in ", b"x := 1", b""),
                 (b"x := 1 < 2", b" * x", b"", b""), (b"x := 1", b"; x := x + x", b"", b""),
                 (b"", b"{ x := 2; ", b"x := 1", b" }")]

TOML_NESTS = [(b"[", b"]"), (b"{ a = ", b" }"), (b"x.", b""), (b'["L","H"],', b""), (b"[[x]]\n", b""), (b"# ", b"\n"),
              (b'"', b'"'), (b"[x.", b"]")]


class Kind:
    """What a text is changed with: pieces to insert, nests of a front and a back, and what fills up long texts."""

    def __init__(self, pieces, nests, fillings):
        self.pieces = pieces
        self.nests = nests
        self.fillings = fillings


SOURCE = Kind(PIECES, SOURCE_NESTS, [b" ", b"\n", b"# x\n", b"; x := 1", b" + 1", b";x:=x", b"(", b"{"])
TOML = Kind(TOML_PIECES, TOML_NESTS, [b" ", b"\n", b"# x\n", b"[", b"x."])

WORD = re.compile(rb"\w+|[^\w\s]")
EDGE = re.compile(rb"\b")


def count_of(rng):
    """How often a piece is repeated: mostly a few times, often near the limit on depth, rarely many times."""
    chance = rng.random()
    if chance < 0.6:
        return rng.randrange(1, 9)
    if chance < 0.85:
        return rng.randrange(190, 212)
    if chance < 0.99:
        return rng.randrange(9, 1200)
    return rng.randrange(1200, 60000)


def two_places(rng, text):
    first, second = rng.randrange(len(text) + 1), rng.randrange(len(text) + 1)
    return min(first, second), max(first, second)


def change_byte(rng, text, kind):
    at = rng.randrange(len(text) + 1)
    return text[:at] + bytes([rng.randrange(256)]) + text[at + 1:]


def flip_bit(rng, text, kind):
    at = rng.randrange(len(text) + 1)
    return text[:at] + bytes(byte ^ 1 << rng.randrange(8) for byte in text[at:at + 1]) + text[at + 1:]


def cut_end(rng, text, kind):
    return text[:rng.randrange(len(text) + 1)]


def leave_out(rng, text, kind):
    start, stop = two_places(rng, text)
    return text[:start] + text[min(stop, start + 12):]


def repeat_part(rng, text, kind):
    start, stop = two_places(rng, text[:4000])
    return text[:stop] + text[start:stop][:80] * min(count_of(rng), 1200) + text[stop:]


def insert_piece(rng, text, kind):
    at = rng.randrange(len(text) + 1)
    blank = rng.choice((b" ", b""))
    return text[:at] + blank + rng.choice(kind.pieces) + blank + text[at:]


def change_word(rng, text, kind):
    word, other = (WORD.search(text, rng.randrange(len(text) + 1)) for _ in range(2))
    start, stop = word.span() if word else (len(text), len(text))
    instead = other.group() if other and rng.random() < 0.5 else rng.choice(kind.pieces)
    return text[:start] + instead + text[stop:]


def change_lines(rng, text, kind):
    separator = rng.choice((b";", b"\n", b","))
    lines = text.split(separator)
    at = rng.randrange(len(lines))
    line = lines.pop(at)
    place = rng.randrange(len(lines) + 1)
    most = min(count_of(rng), 1200, TEXT_LIMIT // (len(line) + 1))
    lines[place:place] = [line] * rng.choice((0, 1, 1, 2, most))
    return separator.join(lines)


def nest(rng, text, kind):
    front, back = rng.choice(kind.nests)
    count = count_of(rng)
    start, stop = two_places(rng, text)
    if rng.random() < 0.8:
        start, stop = (edge.start() if edge else len(text) for edge in (EDGE.search(text, at) for at in (start, stop)))
    closing = count if rng.random() < 0.8 else rng.randrange(count + 1)
    return text[:start] + front * count + text[start:stop] + back * closing + text[stop:]


CHANGES = [change_byte, flip_bit, cut_end, leave_out, repeat_part, change_lines,
           insert_piece, insert_piece, change_word, change_word, nest, nest]


def changed(rng, text, kind):
    """The text after some changes; one in a thousand is filled up to about the limit on texts."""
    for _ in range(rng.choice((0, 1, 1, 1, 2, 2, 3, 5))):
        text = rng.choice(CHANGES)(rng, text, kind)
    if rng.random() < 0.001:
        filling = rng.choice(kind.fillings)
        room = TEXT_LIMIT + rng.randrange(-3, 4) - len(text)
        text += (filling * (max(room, 0) // len(filling) + 1))[:max(room, 0)]
    return text[:TEXT_LIMIT + 3]


def an_expression(rng, names, depth):
    if depth <= 0 or rng.random() < 0.4:
        return rng.choice((rng.choice(names), str(rng.choice((0, 1, 2, 3, 7, 255, 2 ** 63 - 1)))))
    left, right = an_expression(rng, names, depth - 1), an_expression(rng, names, depth - 2)
    text = left + " " + rng.choice("+-*<=") + " " + right
    return "(" + text + ")"


def a_command(rng, names, depth):
    choice = rng.randrange(8) if depth > 0 else 0
    value = an_expression(rng, names, 3)
    if choice == 4:
        return f"if {value} then {a_command(rng, names, depth - 1)} else {a_command(rng, names, depth - 1)}"
    if choice == 5:
        return f"while {value} do {a_command(rng, names, depth - 1)}"
    if choice == 6:
        name, label = rng.choice("tuvwx"), rng.choice(("", "", " : L", " : H"))
        return f"letvar {name}{label} := {value} in {a_command(rng, names + [name], depth - 1)}"
    if choice == 7:
        return "{ " + "; ".join(a_command(rng, names, depth - 1) for _ in range(rng.randrange(1, 5))) + " }"
    return f"{rng.choice(names)} := {value}"


def a_program(rng):
    """A text of the grammar, most of whose flows are allowed where all its classes are alike."""
    names = ["x", "h", "l", "y"][:rng.randrange(1, 5)]
    classes = rng.choice((["L"], ["H"], ["L", "H"], ["L", "A", "B", "H"]))
    front = "".join(f"var {name} : {rng.choice(classes)}; " for name in names)
    body = "; ".join(a_command(rng, names, rng.randrange(1, 6)) for _ in range(rng.randrange(1, 7)))
    return (front + body).encode()


def a_large_program(rng):
    """Many variables, guards and assignments, up to about the limits."""
    names = [f"g{number}" for number in range(rng.choice((2, 40, 256)))]
    classes = rng.choice(("L", "H", "LH", "LLLLLH"))
    front = "".join(f"var {name} : {rng.choice(classes)}; " for name in names)
    inner = [f"t{number}" for number in range(rng.choice((1, 30, 90)))]
    front += "".join(f"letvar {name} := {rng.choice(names)} in " for name in inner)
    front += "".join(f"while {rng.choice(names)} do " for _ in range(rng.randrange(90)))
    names += inner
    count = rng.choice((10, 1000, 15000))
    return f"{front}{{ {'; '.join(f'{rng.choice(names)} := {rng.choice(names)}' for _ in range(count))} }}".encode()


def a_deep_program(rng):
    front, opening, middle, closing = rng.choice(DEEP_PROGRAMS)
    count = count_of(rng)
    return b"var x : L; " + front + opening * count + middle + closing * count


def a_source(rng):
    chance = rng.random()
    if chance < 0.0005:
        return a_large_program(rng)
    if chance < 0.03:
        return a_deep_program(rng)
    text = a_program(rng) if chance < 0.4 else rng.choice(SOURCES)
    return changed(rng, text, SOURCE) if rng.random() < 0.7 else text


def a_lattice(rng):
    chance = rng.random()
    if chance < 0.75:
        return rng.choice(LATTICES[:2])
    if chance < 0.78:
        count = rng.choice((3, 63, 64, 65, 300))
        names = ",".join(f'"c{number}"' for number in range(count))
        pairs = ",".join(f'["c{number}","c{number + 1}"]' for number in range(count - 1))
        return f"classes = [{names}]\nbelow = [{pairs}]\n".encode()
    return changed(rng, rng.choice(LATTICES), TOML)


def a_store(rng):
    if rng.random() < 0.001:
        return b"".join(b"k%d = %d\n" % (number, number) for number in range(rng.choice((257, 3000, 80000))))
    text = rng.choice(STORES)
    return changed(rng, text, TOML) if rng.random() < 0.5 else text


PUSH, LOAD, STORE, JZ, JMP, HALT = 1, 2, 3, 8, 9, 10
OPERANDS = {PUSH: ">q", LOAD: ">H", STORE: ">H", JZ: ">I", JMP: ">I"}
WORDS = (0, 1, -1, 2, 3, 2 ** 63 - 1, -2 ** 63)


def some_blocks(rng, operators, slots, count):
    """Blocks of instructions that leave no operand; a jump's operand is the number of a block."""
    blocks = []
    for _ in range(count):
        depth = rng.randrange(1, 4)
        code = [(PUSH, rng.choice(WORDS)) if slots == 0 or rng.random() < 0.5 else (LOAD, rng.randrange(slots))
                for _ in range(depth)]
        code += [(rng.choice(operators), 0) for _ in range(depth - 1)]
        block = rng.randrange(count)
        code.append((STORE, rng.randrange(slots)) if slots and rng.random() < 0.6 else (JZ, block))
        if rng.random() < 0.1:
            code.append((JMP, block))
        blocks.append(code)
    blocks[-1].append((HALT, 0) if rng.random() < 0.9 else (JMP, 0))
    return blocks


def some_code(rng, version, slots):
    operators = (4, 5, 6, 7) if version == 1 else (4, 5, 6, 7, 11)
    blocks = some_blocks(rng, operators, slots, rng.choice((1, 2, 2, 3, 3, 5, 5, 9, 9, 40)))
    starts, place = [], 0
    for code in blocks:
        starts.append(place)
        place += len(code)
    return [(opcode, starts[operand] if opcode in (JZ, JMP) else operand)
            for code in blocks for opcode, operand in code]


def an_image(rng):
    """An image of which most are valid, with one field or one instruction changed in every third."""
    names = [b"x", b"h", b"l", b"y", b"aLongerNameOf32LettersAndDigits9"][:rng.randrange(6)]
    slots = len(names) + rng.randrange(4)
    version = rng.choice((1, 2, 2))
    code = some_code(rng, version, slots)
    fields = [version, len(names), slots, rng.choice((3, 3, 4, 256)), len(code)]
    if rng.random() < 0.15:
        at = rng.randrange(5)
        fields[at] = max(0, rng.choice((fields[at] - 1, fields[at] + 1, 0, 255, 256, 257, 512, 513, 65535))) & 0xffff
    if rng.random() < 0.2:
        code[rng.randrange(len(code))] = (rng.randrange(13), rng.choice((0, 1, 2, 255, 512, 65535)))
    image = b"VSI" + struct.pack(">BHHHI", fields[0] & 0xff, *fields[1:])
    for name in names:
        label = rng.choice((b"L", b"L", b"H", b"A"))
        image += bytes([len(name)]) + name + bytes([len(label)]) + label
    return image + b"".join(bytes([opcode]) + (struct.pack(OPERANDS[opcode], operand) if opcode in OPERANDS else b"")
                            for opcode, operand in code)


IMAGE = Kind([struct.pack(">H", 1), b"\0\0\0\0", b"\x01x\x01L", b"\x0a", b"\x0b", b"VSI\x02", b"\xff\xff\xff\xff"],
             [(b"\x01\0\0\0\0\0\0\0\x05", b"\x03\0\0"), (b"\x09\0\0\0\0", b""), (b"\x04", b"")],
             [b"\x00", b"\x0a", b"\x01\0\0\0\0\0\0\0\x05"])


def some_image(rng):
    image = an_image(rng)
    return changed(rng, image, IMAGE) if rng.random() < 0.4 else image


LINES = [b"x = 1\n", b"h = 7 l=1\n", b"\n", b"l = -9223372036854775808\r\n", b"x=1 x=2 y = 3", b"z = 1\n", b"x 1\n",
         b"x = one\n", b"l = 9223372036854775808\n", b"x = 1 h\n"]

INTERFACES = [text.encode() for text in (
    'lattice = "lattice"\nprofile = "base"\nglobals = [["x", "L"]]\n'
    '[[runs]]\nbudget = 100\nexpect = { x = 3 }\n[[runs]]\nstore = { x = 5 }\nbudget = 3\nhalts = true\n',
    'lattice = "lattice"\nprofile = "strict"\norder = "set"\nglobals = [["l", "L"], ["h", "H"]]\n'
    '[[runs]]\nstore = { h = 7, l = 1 }\nbudget = 100\nexpect = { l = 2, h = 2 }\n',
    'classes = ["L", "H"]\nbelow = [["L", "H"]]\nprofile = "steady"\nglobals = []\n',
    'lattice = "lattice"\nprofile = "base"\nbounded = true\norder = "set"\nglobals = [["l", "L"], ["h", "H"]]\n',
    'classes = ["L"]\nbelow = []\nprofile = "base"\nglobals = [["x", "L"], ["y", "L"]]\n',
)]

# The subcommands of the second implementation; and all of them, with those more often.
COMPILING = ("", "", "check", "check", "classes", "fmt", "build", "list", "run", "run", "view")
ALL = COMPILING * 2 + ("flows", "flows", "mend", "leak", "audit", "audit", "source", "compare", "drive", "conform",
                       "conform", "report", "draw", "explain", "bound", "policy", "emit-c", "lsp")

# How the arguments after a subcommand are made, if not by its own name.
FORMS = {"": "source_alone", "fmt": "source_alone", "list": "image_alone", "source": "image_alone",
         "check": "compilation", "classes": "compilation", "build": "compilation", "flows": "compilation",
         "mend": "compilation", "report": "compilation", "emit-c": "emission"}


def a_class(rng):
    return rng.choice(("L", "L", "L", "H", "H", "H", "A", "c1", "Q"))


def a_budget(rng):
    return str(rng.choice((1000, 1000, 1000, 1000, 1000, 0, 1, 3, 50)))


class Input:
    """A command line and the files that it names, or what it reads from standard input, of these subcommands."""

    def __init__(self, rng, subcommands):
        self.command = rng.choice(subcommands)
        self.options = {"check": ["--steady"], "flows": ["--walks"], "mend": ["--apply", "--json"],
                        "draw": ["--flows"],
                        "fmt": ["--keep-comments", "--check"]} if subcommands is ALL else {}
        self.files = {"source": b"", "lattice": b"", "image": b"", "store": b"", "other": b""}
        self.words = [self.command] if self.command else []
        getattr(self, "with_" + FORMS.get(self.command, self.command))(rng)
        if self.words and rng.random() < 0.02:
            self.spoil_words(rng)

    def with_leak(self, rng):
        self.files["source"], self.files["lattice"] = a_source(rng), a_lattice(rng)
        self.words += ["lattice", "source", "--budget", a_budget(rng), "--tries", str(rng.choice((0, 1, 20, 50)))]
        self.words += ["--class", a_class(rng)] if rng.random() < 0.3 else []
        self.words += ["--seed", str(rng.randrange(9))] if rng.random() < 0.3 else []
        self.words += [word for word in ("--endings", "--steps") if rng.random() < 0.3]

    def with_audit(self, rng):
        self.files["image"], self.files["lattice"] = some_image(rng), a_lattice(rng)
        self.words += ["lattice", "image"] + [word for word in ("--strict", "--steady") if rng.random() < 0.3]

    def with_compare(self, rng):
        self.files["image"], self.files["lattice"] = some_image(rng), a_lattice(rng)
        self.files["store"], self.files["other"] = a_store(rng), a_store(rng)
        self.words += ["lattice", "image", "--class", a_class(rng), "--store", "store", "--store", "other"]
        self.words += ["--budget", rng.choice((a_budget(rng), "auto"))]
        self.words += ["--unbounded"] if rng.random() < 0.7 else []

    def with_drive(self, rng):
        """Its lines are standard input, which is the file `source`."""
        self.files["image"], self.files["lattice"] = some_image(rng), a_lattice(rng)
        lines = b"".join(rng.choice(LINES) for _ in range(rng.choice((0, 1, 3, 10))))
        self.files["source"] = changed(rng, lines, SOURCE) if lines and rng.random() < 0.4 else lines
        self.words += ["lattice", "image", "--class", a_class(rng)]
        self.words += ["--budget", rng.choice((a_budget(rng), "auto"))] if rng.random() < 0.7 else []
        self.words += ["--unbounded"] if rng.random() < 0.5 else []
        if rng.random() < 0.35:
            self.files["store"] = a_store(rng)
            self.words += ["--store", "store"]

    def with_conform(self, rng):
        self.files["source"], self.files["lattice"] = a_source(rng), a_lattice(rng)
        text = rng.choice(INTERFACES)
        self.files["other"] = changed(rng, text, TOML) if rng.random() < 0.4 else text
        self.words += ["other", "source"] + (["--json"] if rng.random() < 0.4 else [])

    def with_draw(self, rng):
        self.files["source"], self.files["lattice"] = a_source(rng), a_lattice(rng)
        self.words += ["lattice"] + (["source"] if rng.random() < 0.7 else [])
        self.words += ["--strict"] if rng.random() < 0.3 else []

    def with_bound(self, rng):
        if rng.random() < 0.5:
            self.with_image_alone(rng)
        else:
            self.with_compilation(rng)

    def with_policy(self, rng):
        self.files["lattice"], self.files["other"] = a_lattice(rng), a_lattice(rng)
        self.words += ["lattice"] + (["other"] if rng.random() < 0.6 else [])

    def with_emission(self, rng):
        self.with_image_alone(rng)
        self.words += [word for word in ("--header", "--bounded") if rng.random() < 0.4]

    def with_lsp(self, rng):
        """Its messages are standard input, which is the file `source`: some of a conversation, perhaps changed."""
        text = a_source(rng).decode("latin-1")
        document, place = {"uri": "file:///source"}, {"line": rng.randrange(4), "character": rng.randrange(30)}
        at = {"textDocument": document, "position": place}
        messages = [("initialize", {"capabilities": {}}), ("initialized", {}),
                    ("textDocument/didOpen", {"textDocument": {**document, "version": 1, "text": text}})]
        for _ in range(rng.choice((0, 1, 3, 10))):
            messages.append(rng.choice((
                ("textDocument/didChange", {"textDocument": {**document, "version": 2}, "contentChanges": [
                    {"range": {"start": place, "end": place}, "text": rng.choice(("x", "h", ";", "\n", "{", ""))}]}),
                ("textDocument/hover", at), ("textDocument/completion", at), ("textDocument/definition", at),
                ("textDocument/rename", {**at, "newName": rng.choice(("x", "y", "if", "2"))}),
                ("textDocument/formatting", {"textDocument": document}),
                ("textDocument/foldingRange", {"textDocument": document}))))
        messages += [("shutdown", None), ("exit", None)] if rng.random() < 0.8 else []
        bodies = [json.dumps({"jsonrpc": "2.0", "id": number, "method": method, "params": params}).encode()
                  for number, (method, params) in enumerate(messages)]
        stream = b"".join(b"Content-Length: %d\r\n\r\n%b" % (len(body), body) for body in bodies)
        self.files["source"] = changed(rng, stream, SOURCE) if rng.random() < 0.4 else stream
        self.files["lattice"] = a_lattice(rng)
        self.words += ["--lattice", "lattice"] if rng.random() < 0.5 else []
        self.words += ["--strict"] if rng.random() < 0.3 else []

    def with_explain(self, rng):
        self.words.append(str(rng.choice((rng.randrange(60), rng.randrange(2 ** 65)))))

    def with_source_alone(self, rng):
        self.files["source"] = a_source(rng)
        if self.command:
            self.words += ["source"] + [word for word in self.options.get(self.command, []) if rng.random() < 0.4]

    def with_image_alone(self, rng):
        self.files["image"] = some_image(rng)
        self.words.append("image")

    def with_compilation(self, rng):
        if rng.random() < 0.001:
            self.files["source"], self.files["lattice"] = some_hostile_text(rng)
        else:
            self.files["source"], self.files["lattice"] = a_source(rng), a_lattice(rng)
        self.words += ["lattice", "source"] + (["written"] if self.command == "build" else [])
        for option in ["--strict"] + self.options.get(self.command, []):
            if rng.random() < 0.3:
                self.words.insert(rng.randrange(1, len(self.words) + 1), option)

    def with_run(self, rng):
        self.files["image"] = some_image(rng)
        self.words += ["image", "--budget", a_budget(rng)]
        self.words += ["--trace"] if rng.random() < 0.5 else []
        if rng.random() < 0.35:
            self.files["store"] = a_store(rng)
            self.words += ["--store", "store"]

    def with_view(self, rng):
        self.files["lattice"] = a_lattice(rng)
        self.words.append("lattice")
        self.with_run(rng)
        self.words = [word for word in self.words if word != "--trace"]
        self.words += ["--class", a_class(rng)]

    def spoil_words(self, rng):
        at = rng.randrange(len(self.words))
        self.words[at:at + rng.randrange(2)] = [rng.choice((
            "", "-", "--", "--strict", "--budget", "--help", "missing", ".", "none/written", "x" * 300, "é", "-1",
            "+5", "18446744073709551616", "--trace=1", "--class=H", "help", "run", "build"))]
        self.command = "?"
