"""Documents of TOML 1.1, as far as lattice and store files need: integers, strings, arrays and tables by their values,
all other values as OTHER."""

import math
import re

NEST_LIMIT = 80
KEY_LIMIT = 80
OTHER = object()

BLANKS = re.compile(r"[ \t]*")
COMMENT = re.compile(r"#[^\x00-\x08\x0a-\x1f\x7f]*")
LINE_END = re.compile(r"\r?\n")
BARE_KEY = re.compile(r"[A-Za-z0-9_-]+")
BASIC_RUN = re.compile(r'[^"\\\x00-\x08\x0a-\x1f\x7f]+')
LITERAL = re.compile(r"'([^'\x00-\x08\x0a-\x1f\x7f]*)'")
LITERAL_RUN = re.compile(r"[^'\x00-\x08\x0a-\x1f\x7f]+")
LINE_CONTINUATION = re.compile(r"\\[ \t]*\r?\n(?:[ \t]|\r?\n)*")
HEX_ESCAPE = re.compile(r"\\(?:x([0-9A-Fa-f]{2})|u([0-9A-Fa-f]{4})|U([0-9A-Fa-f]{8}))")
PLAIN_ESCAPES = {"b": "\b", "t": "\t", "n": "\n", "f": "\f", "r": "\r", "e": "\x1b", '"': '"', "\\": "\\"}

TIME = r"([0-9]{2}):([0-9]{2})(?::([0-9]{2})(?:\.[0-9]+)?)?"
DATE = r"([0-9]{4})-([0-9]{2})-([0-9]{2})"
DATE_TIME = re.compile(DATE + "(?:[Tt ]" + TIME + r"(?:[Zz]|[+-]([0-9]{2}):([0-9]{2}))?)?")
LOCAL_TIME = re.compile(TIME)
SPECIAL_FLOAT = re.compile(r"[+-]?(?:inf|nan)")
WHOLE = r"[+-]?(?:0|[1-9](?:_?[0-9])*)"
DIGITS = r"[0-9](?:_?[0-9])*"
FLOAT = re.compile(rf"{WHOLE}(?:\.{DIGITS}(?:[eE][+-]?{DIGITS})?|[eE][+-]?{DIGITS})")
PREFIXED = re.compile(r"0x[0-9A-Fa-f](?:_?[0-9A-Fa-f])*|0o[0-7](?:_?[0-7])*|0b[01](?:_?[01])*")
INTEGER = re.compile(WHOLE)


class NotToml(Exception):
    """The text is no document."""


class Table(dict):
    """A table and how it was made: `implicit`, `header`, `dotted` or `inline`."""

    def __init__(self, made):
        super().__init__()
        self.made = made


class TableArray(list):
    """An array of tables, which headers in double brackets make."""


def require(condition):
    if not condition:
        raise NotToml


def integer(text):
    """An integer is from -9223372036854775808 to 9223372036854775807, also behind `0x`, `0o` and `0b`."""
    digits = text.replace("_", "")
    require(len(digits.lstrip("+-0xob")) <= 64)
    value = int(digits, 0) if digits[:2] in ("0x", "0o", "0b") else int(digits)
    require(-2 ** 63 <= value < 2 ** 63)
    return value


def check_date(year, month, day):
    """A date has a day that its month has."""
    is_leap = year % 4 == 0 and (year % 100 != 0 or year % 400 == 0)
    days = [31, 29 if is_leap else 28, 31, 30, 31, 30, 31, 31, 30, 31, 30, 31]
    require(1 <= month <= 12 and 1 <= day <= days[month - 1])


def check_time(hour, minute, second, offset_hour, offset_minute):
    """Hours up to 23, minutes up to 59 and seconds up to 60, an offset hours up to 23 and minutes up to 59."""
    require(hour <= 23 and minute <= 59 and second <= 60 and offset_hour <= 23 and offset_minute <= 59)


class Reader:
    """Reads a document from its beginning."""

    def __init__(self, text):
        self.text = text
        self.at = 0

    def match(self, pattern):
        """Goes behind what the pattern matches here; the match or None."""
        found = pattern.match(self.text, self.at)
        if found:
            self.at = found.end()
        return found

    def sees(self, symbol):
        return self.text.startswith(symbol, self.at)

    def skip(self, symbol):
        """Goes behind the symbol where it stands here, and says whether it does."""
        found = self.sees(symbol)
        self.at += len(symbol) if found else 0
        return found

    def blanks(self):
        self.match(BLANKS)

    def blank_lines(self):
        """Blanks, comments and line ends, as they may stand between the parts of arrays and inline tables."""
        while True:
            self.blanks()
            self.match(COMMENT)
            if not self.match(LINE_END):
                return

    def document(self):
        root = current = Table("header")
        while self.at < len(self.text):
            self.blanks()
            if self.skip("[["):
                current = self.array_header(root)
            elif self.skip("["):
                current = self.header(root)
            elif not self.sees("#") and not self.at_end_of_line():
                self.key_and_value(current, 0)
            self.blanks()
            self.match(COMMENT)
            require(self.match(LINE_END) or self.at == len(self.text))
        return root

    def at_end_of_line(self):
        return self.at == len(self.text) or bool(LINE_END.match(self.text, self.at))

    # Keys and tables.

    def key(self):
        """A key has at most 80 parts with dots between them."""
        parts = [self.key_part()]
        self.blanks()
        while self.skip("."):
            self.blanks()
            parts.append(self.key_part())
            self.blanks()
        require(len(parts) <= KEY_LIMIT)
        return parts

    def key_part(self):
        """A part is bare or quoted; keys are compared as the bytes that they stand for."""
        bare = self.match(BARE_KEY)
        if bare:
            return bare.group().encode()
        if self.skip('"'):
            return self.basic_string().encode()
        return self.literal_string().encode()

    def bracketed_key(self, closing):
        self.blanks()
        parts = self.key()
        require(self.skip(closing))
        return parts

    def enter(self, table, parts):
        """The table in which a header's last part stands; tables on the way that aren't there are made."""
        for part in parts:
            table = table.setdefault(part, Table("implicit"))
            table = table[-1] if isinstance(table, TableArray) else table
            require(isinstance(table, Table) and table.made != "inline")
        return table

    def header(self, root):
        """A header makes a table, or opens one that only longer headers have made before."""
        *way, last = self.bracketed_key("]")
        table = self.enter(root, way)
        opened = table.setdefault(last, Table("implicit"))
        require(isinstance(opened, Table) and opened.made == "implicit")
        opened.made = "header"
        return opened

    def array_header(self, root):
        """A header in double brackets makes an array of tables, or one more table in it."""
        *way, last = self.bracketed_key("]]")
        table = self.enter(root, way)
        tables = table.setdefault(last, TableArray())
        require(isinstance(tables, TableArray))
        tables.append(Table("header"))
        return tables[-1]

    def key_and_value(self, table, depth):
        """A key stands once in its table; a dotted key makes tables, and goes into those that dotted keys made."""
        *way, last = self.key()
        for part in way:
            table = table.setdefault(part, Table("dotted"))
            require(isinstance(table, Table) and table.made in ("implicit", "dotted"))
            table.made = "dotted"
        require(last not in table)
        require(self.skip("="))
        self.blanks()
        table[last] = self.value(depth)

    # Values.

    def value(self, depth):
        """A value in `depth` arrays and inline tables."""
        if self.skip('"""'):
            return self.long_string(self.basic_piece, '"')
        if self.skip('"'):
            return self.basic_string()
        if self.skip("'''"):
            return self.long_string(self.literal_piece, "'")
        if self.sees("'"):
            return self.literal_string()
        if self.skip("["):
            return self.array(depth + 1)
        if self.skip("{"):
            return self.inline_table(depth + 1)
        if self.skip("true") or self.skip("false"):
            return OTHER
        return self.number_or_time()

    def number_or_time(self):
        """A date, a time, a float or an integer, whichever can stand here."""
        date = self.match(DATE_TIME)
        if date:
            numbers = [int(group or 0) for group in date.groups()]
            check_date(*numbers[:3])
            check_time(*numbers[3:])
            return OTHER
        time = self.match(LOCAL_TIME)
        if time:
            check_time(*(int(group or 0) for group in time.groups()), 0, 0)
            return OTHER
        if self.match(SPECIAL_FLOAT):
            return OTHER
        number = self.match(FLOAT)
        if number:
            require(math.isfinite(float(number.group().replace("_", ""))))
            return OTHER
        number = self.match(PREFIXED) or self.match(INTEGER)
        require(number)
        return integer(number.group())

    def array(self, depth):
        """At most 80 arrays and inline tables stand in one another; the last value may have a comma behind it."""
        require(depth <= NEST_LIMIT)
        values = []
        self.blank_lines()
        while not self.skip("]"):
            values.append(self.value(depth))
            self.blank_lines()
            if not self.skip(","):
                require(self.skip("]"))
                break
            self.blank_lines()
        return values

    def inline_table(self, depth):
        """An inline table may go over several lines and end with a comma; nothing opens it again."""
        require(depth <= NEST_LIMIT)
        table = Table("header")
        self.blank_lines()
        while not self.skip("}"):
            self.key_and_value(table, depth)
            self.blank_lines()
            if not self.skip(","):
                require(self.skip("}"))
                break
            self.blank_lines()
        table.made = "inline"
        return table

    def basic_string(self):
        """A string on one line behind its first quote, with escapes."""
        pieces = []
        while not self.skip('"'):
            run = self.match(BASIC_RUN)
            pieces.append(run.group() if run else self.escape())
        return "".join(pieces)

    def escape(self):
        """One escape, which is a character that has a code."""
        coded = self.match(HEX_ESCAPE)
        if coded:
            code = int("".join(group or "" for group in coded.groups()), 16)
            require(code <= 0x10ffff and not 0xd800 <= code <= 0xdfff)
            return chr(code)
        require(self.skip("\\") and self.at < len(self.text) and self.text[self.at] in PLAIN_ESCAPES)
        self.at += 1
        return PLAIN_ESCAPES[self.text[self.at - 1]]

    def literal_string(self):
        found = self.match(LITERAL)
        require(found)
        return found.group(1)

    def long_string(self, piece, quote):
        """A string over several lines: up to two quotes stand in it together, also before the last three."""
        pieces = []
        self.match(LINE_END)
        while not self.sees(quote * 3):
            if self.sees(quote):
                self.at += 1
                pieces.append(quote)
            elif self.match(LINE_END):
                pieces.append("\n")
            else:
                pieces.append(piece())
        self.at += 3
        for _ in range(2):
            if self.skip(quote):
                pieces.append(quote)
        return "".join(pieces)

    def basic_piece(self):
        if self.match(LINE_CONTINUATION):
            return ""
        run = self.match(BASIC_RUN)
        return run.group() if run else self.escape()

    def literal_piece(self):
        run = self.match(LITERAL_RUN)
        require(run)
        return run.group()


def document(text):
    """The outermost table of a text, or NotToml: UTF-8, with one byte order mark passed over at its front."""
    try:
        decoded = text.decode("utf-8")
    except UnicodeDecodeError:
        raise NotToml from None
    return Reader(decoded.removeprefix("\ufeff")).document()
