"""Images: their bytes, their fields read one after another, and their listing."""

from faults import Refusal
from instructions import OPCODES, OPERAND_BYTES, Image
from words import NAME_LIMIT, is_name

MAGIC = b"VSI"
NAME_OF_OPCODE = {opcode: name for name, opcode in OPCODES.items()}


def encode(image):
    """The fields in their order, numbers big endian."""
    data = [MAGIC, bytes([image.version])]
    for number, width in ((len(image.globals), 2), (image.slots, 2), (image.stack, 2), (len(image.code), 4)):
        data.append(number.to_bytes(width, "big"))
    for names in image.globals:
        data += [bytes([len(name)]) + name for name in names]
    for name, operand in image.code:
        data.append(bytes([OPCODES[name]]))
        if name in OPERAND_BYTES:
            data.append(operand.to_bytes(OPERAND_BYTES[name], "big", signed=name == "PUSH"))
    return b"".join(data)


class Fields:
    """Fields are read one after another, each judged before the next is read."""

    def __init__(self, data):
        self.data = data
        self.at = 0

    def field(self, width):
        """Where fewer bytes are left than a field is wide, the answer is Truncated at the start of the field."""
        if len(self.data) - self.at < width:
            raise Refusal("Truncated", self.at)
        self.at += width
        return self.data[self.at - width:self.at]

    def number(self, width, low, high):
        """A number that isn't allowed is BadField at the start of its field."""
        value = int.from_bytes(self.field(width), "big")
        if not low <= value <= high:
            raise Refusal("BadField", self.at - width)
        return value

    def name(self, taken=()):
        """A length, and a name of so many bytes, unlike all that are taken."""
        name = self.field(self.number(1, 1, NAME_LIMIT))
        if not is_name(name) or name in taken:
            raise Refusal("BadField", self.at - len(name))
        return name

    def instruction(self, version):
        """An opcode, and its operand; in version 01 the byte 0B is no opcode."""
        opcode = self.field(1)[0]
        if opcode not in NAME_OF_OPCODE or (version == 1 and NAME_OF_OPCODE[opcode] == "MUL"):
            raise Refusal("BadOpcode", self.at - 1)
        name = NAME_OF_OPCODE[opcode]
        if name not in OPERAND_BYTES:
            return name, None
        return name, int.from_bytes(self.field(OPERAND_BYTES[name]), "big", signed=name == "PUSH")

    def image(self):
        if self.field(3) != MAGIC:
            raise Refusal("BadMagic")
        version = self.field(1)[0]
        if version not in (1, 2):
            raise Refusal("BadVersion")
        globals_ = self.number(2, 0, 256)
        slots, stack = self.number(2, globals_, 512), self.number(2, 0, 256)
        count = self.number(4, 0, 65_535)
        names = {}
        for _ in range(globals_):
            name = self.name(names)
            names[name] = self.name()
        code = [self.instruction(version) for _ in range(count)]
        if self.at < len(self.data):
            raise Refusal("Trailing", self.at)
        return Image(version, slots, stack, list(names.items()), code)


def decode(data):
    """The image of these bytes, or the first fault of its fields."""
    return Fields(data).image()


def instruction_text(pc, instruction):
    """`PC: TEXT`, with its operand in decimal, signed for PUSH."""
    name, operand = instruction
    return b"%d: %s" % (pc, name.encode()) + (b"" if operand is None else b" %d" % operand)


def listing(image):
    """The lines `globals N`, `slots N`, `stack N`; for each global `NAME : CLASS`; for each instruction its line."""
    lines = [b"globals %d" % len(image.globals), b"slots %d" % image.slots, b"stack %d" % image.stack]
    lines += [b"%s : %s" % names for names in image.globals]
    lines += [instruction_text(pc, instruction) for pc, instruction in enumerate(image.code)]
    return b"".join(line + b"\n" for line in lines)
