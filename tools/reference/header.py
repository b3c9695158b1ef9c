"""The header of a body file: the layout of its rows, or the first fault that it has (docs/FORMATS.md)."""

import re
from dataclasses import dataclass

MAX_HEADER = 65536
MAX_COLUMNS = 64
MAX_WIDTH = 1024
MAX_LENGTH = 1024
MAX_TEXT = 4096
MAX_ROWS = 1048576
MAX_MASS = 2**32 - 1  # of one body

# name: bytes, whole, signed
TYPES = {
    "char": (1, False, False),
    "int8_t": (1, True, True),
    "uint8_t": (1, True, False),
    "unsigned char": (1, True, False),
    "short": (2, True, True),
    "int16_t": (2, True, True),
    "unsigned short": (2, True, False),
    "uint16_t": (2, True, False),
    "int": (4, True, True),
    "int32_t": (4, True, True),
    "unsigned int": (4, True, False),
    "uint32_t": (4, True, False),
    "int64_t": (8, True, True),
    "uint64_t": (8, True, False),
    "float": (4, False, False),
    "double": (8, False, False),
}


class Refused(Exception):
    """A file or a list of words that is refused, by this text."""


class Fault(Exception):
    """A fault of tokens or grammar at a place."""

    def __init__(self, text, place):
        super().__init__(f"{text} at {place}")


@dataclass
class Token:
    kind: str  # word, number, text, sign, or end
    place: int
    text: str = ""
    value: int | None = None  # of a whole number


@dataclass
class Column:
    size: int
    whole: bool
    signed: bool
    array: bool
    offset: int


@dataclass
class Layout:
    length: int
    width: int
    count: int | None
    most_first: bool
    bits: int
    corner: tuple
    mass: int
    columns: dict

    def cube(self):
        return self.bits, self.corner


def extent(data):
    """The end place and the length of the header."""
    if data[:5] != b"# SDF":
        raise Refused("H1 not an SDF file")
    begin = 0
    while True:
        newline = data.find(b"\n", begin, MAX_HEADER)
        if newline < 0:
            break
        line = data[begin:newline]
        if line.startswith(b"#") and b"SDF-EOH" in line:
            return begin, newline + 1
        begin = newline + 1
    if len(data) >= MAX_HEADER:
        raise Refused(f"H2 header longer than {MAX_HEADER} bytes")
    raise Refused("H3 header has no end")


NUMBER = re.compile(
    rb"[+-]?(0[xX][0-9a-fA-F]+|(?:[0-9]+\.?[0-9]*|\.[0-9]+)(?:[eE][+-]?[0-9]+)?)(?![A-Za-z0-9_.])"
)
WORD = re.compile(rb"[A-Za-z_][A-Za-z0-9_]*")
BLANK = re.compile(rb"(?:[ \t\r\n\f]|#[^\n]*|/\*.*?\*/)*", re.S)


def whole_value(spelling):
    """The value of a number that has neither a dot nor a decimal exponent, and None of others."""
    sign = -1 if spelling[0] == "-" else 1
    digits = spelling.lstrip("+-")
    if digits[:2] in ("0x", "0X"):
        return sign * int(digits[2:], 16)
    return sign * int(digits) if digits.isdigit() else None


class Tokens:
    """The tokens of a text, one ahead."""

    def __init__(self, text):
        self.text = text
        self.place = 0

    def peek(self):
        """The next token; a fault where there is no token."""
        text = self.text
        at = BLANK.match(text, self.place).end()
        if at == len(text):
            return Token("end", at)
        first = text[at : at + 1]
        if first in b"{}[];=,":
            return Token("sign", at, first.decode())
        if found := WORD.match(text, at):
            return Token("word", at, found[0].decode())
        if first in b"+-.0123456789":
            return self.number(at)
        if first == b'"':
            close = text.find(b'"', at + 1)
            if close < 0 or close - at - 1 > MAX_TEXT:
                raise Fault("H4 syntax", at)
            return Token("text", at, text[at : close + 1].decode("latin-1"))
        raise Fault("H4 syntax", at)

    def number(self, at):
        found = NUMBER.match(self.text, at)
        if not found:
            raise Fault("H4 syntax", at)
        spelling = found[0].decode()
        value = whole_value(spelling)
        if value is not None and not -(2**63) <= value < 2**64:
            raise Fault("H4 syntax", at)
        return Token("number", at, spelling, value)

    def next(self):
        token = self.peek()
        self.place = token.place + len(token.text)
        return token

    def is_sign(self, sign):
        token = self.peek()
        return token.kind == "sign" and token.text == sign

    def skip(self, signs):
        """The next token, which is one of these signs."""
        return self.wanted("sign", lambda token: token.text in signs)

    def wanted(self, kind, good=lambda token: True):
        token = self.next()
        if token.kind != kind or not good(token):
            raise Fault("H4 syntax", token.place)
        return token

    def whole(self, least, most):
        return self.wanted("number", lambda token: token.value is not None and least <= token.value <= most).value


class Parser:
    """The statements of a header, up to the first fault."""

    def __init__(self, text):
        self.tokens = Tokens(text)
        self.values = {}  # name of a statement: whole value, or None
        self.columns = None
        self.width = 0
        self.count = None

    def parse(self):
        while (token := self.tokens.next()).kind != "end":
            if token.kind != "word":
                raise Fault("H4 syntax", token.place)
            if token.text == "parameter":
                self.parameter()
            elif token.text == "struct":
                self.struct(token.place)
            else:
                self.value(self.type_of(token))

    def type_of(self, token):
        if token.text == "unsigned":
            try:
                second = self.tokens.next()
            except Fault:
                second = None
            if second is None or second.kind != "word" or second.text not in ("char", "short", "int"):
                raise Fault("H5 unknown type", token.place)
            return f"unsigned {second.text}"
        if token.text not in TYPES:
            raise Fault("H5 unknown type", token.place)
        return token.text

    def name(self):
        token = self.tokens.wanted("word")
        if token.text in self.values:
            raise Fault("H6 name twice", token.place)
        self.values[token.text] = None
        return token.text

    def parameter(self):
        name = self.name()
        self.tokens.skip("=")
        token = self.tokens.next()
        if token.kind not in ("number", "text", "word"):
            raise Fault("H4 syntax", token.place)
        self.values[name] = token.value
        self.tokens.skip(";")

    def value(self, type_name):
        name = self.name()
        if self.tokens.skip("=[" if type_name == "char" else "=").text == "[":
            self.size()
            self.tokens.skip("=")
            self.tokens.wanted("text")
        else:
            whole = TYPES[type_name][1]
            token = self.tokens.wanted("number", lambda token: not whole or token.value is not None)
            self.values[name] = token.value
        self.tokens.skip(";")

    def size(self):
        """What stands behind `[`: nothing or a size, and `]`."""
        count = None if self.tokens.is_sign("]") else self.tokens.whole(0, 2**64 - 1)
        self.tokens.skip("]")
        return count

    def struct(self, place):
        if self.columns is not None:
            raise Fault("H7 second struct", place)
        self.columns = {}
        self.tokens.skip("{")
        while not self.tokens.is_sign("}"):
            token = self.tokens.wanted("word")
            type_name = self.type_of(token)
            self.item(type_name)
            while self.tokens.skip(",;").text == ",":
                self.item(type_name)
        self.tokens.skip("}")
        self.tokens.skip("[")
        self.count = self.size()
        self.tokens.skip(";")

    def item(self, type_name):
        token = self.tokens.wanted("word")
        if token.text in self.columns:
            raise Fault("H6 name twice", token.place)
        too_wide = Fault("H9 row too wide", token.place)
        if len(self.columns) == MAX_COLUMNS:
            raise too_wide
        size, whole, signed = TYPES[type_name]
        try:
            array = self.tokens.is_sign("[")
        except Fault:
            array = False
        if array:
            self.tokens.skip("[")
        length = self.tokens.whole(1, MAX_LENGTH) if array else 1
        self.columns[token.text] = Column(size, whole, signed, array, self.width)
        self.width += size * length
        if self.width > MAX_WIDTH:
            raise too_wide
        if array:
            self.tokens.skip("]")


def parameters(parser, has_mass):
    """The numbers of the parameters by name; the first bad one is a fault."""
    good = {
        "byteorder": (0x78563412, lambda n: n in (0x78563412, 0x12345678)),
        "cube_bits": (21, lambda n: 1 <= n <= 29),
        "cube_x0": (0, lambda n: True),
        "cube_y0": (0, lambda n: True),
        "cube_z0": (0, lambda n: True),
        "mass": (1, lambda n: 1 <= n <= MAX_MASS),
    }
    found = {}
    for name, (default, test) in good.items():
        found[name] = default
        if name not in parser.values or (name == "mass" and has_mass):
            continue
        value = parser.values[name]
        if value is None or not test(value):
            raise Refused(f"H12 bad parameter {name}")
        found[name] = value
    return found


def layout(data):
    """The layout of the rows of a body file."""
    end, length = extent(data)
    parser = Parser(data[:end])
    try:
        parser.parse()
    except Fault as fault:
        raise Refused(str(fault)) from None
    if parser.columns is None:
        raise Refused("H8 no struct")
    used = {name: column for name, column in parser.columns.items() if not column.array}
    for name in ("x", "y", "z"):
        if name not in used:
            raise Refused(f"H10 column {name} is missing")
    for name in ("x", "y", "z", "mass", "ident", "work"):
        if name in used and not used[name].whole:
            raise Refused(f"H11 column {name} is not whole")
    numbers = parameters(parser, "mass" in used)
    if parser.count is not None and parser.count > MAX_ROWS:
        raise Refused(f"H13 too many rows {parser.count}")
    corner = tuple(numbers[f"cube_{axis}0"] for axis in "xyz")
    most_first = numbers["byteorder"] == 0x12345678
    return Layout(
        length, parser.width, parser.count, most_first, numbers["cube_bits"], corner, numbers["mass"], used
    )
