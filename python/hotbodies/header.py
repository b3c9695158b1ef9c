"""Headers of SDF files: their statements, and the layout of the rows behind them (docs/FORMATS.md).

SDF, the self-describing binary files of the N-body codes after Warren and Salmon, is meant in the profile of `hot`. The
reader takes every file of that profile. It is more lenient than the program, which is the judge of a body file: it keeps
no limit on columns, widths and numbers of rows.
"""

import re
from dataclasses import dataclass

import numpy as np

from .limits import MAX_HEADER_BYTES, MAX_TEXT_BYTES

LEAST_FIRST, MOST_FIRST = 0x78563412, 0x12345678  # the values of `byteorder`
PAGE = 8192  # bytes to a multiple of which a written header is filled up

# The types of columns and what NumPy calls them
TYPES = {
    "char": "S1",
    "int8_t": "i1",
    "uint8_t": "u1",
    "unsigned char": "u1",
    "short": "i2",
    "int16_t": "i2",
    "unsigned short": "u2",
    "uint16_t": "u2",
    "int": "i4",
    "int32_t": "i4",
    "unsigned int": "u4",
    "uint32_t": "u4",
    "int64_t": "i8",
    "uint64_t": "u8",
    "float": "f4",
    "double": "f8",
}

BLANK = re.compile(rb"(?:[ \t\r\n\f]|#[^\n]*|/\*.*?\*/)*", re.S)
TOKEN = re.compile(
    rb"(?P<word>[A-Za-z_][A-Za-z0-9_]*)|(?P<sign>[][{};=,])|(?P<text>\"[^\"]{0,%d}\")"
    rb"|(?P<number>[+-]?(?:0[xX][0-9a-fA-F]+|(?:[0-9]+\.?[0-9]*|\.[0-9]+)(?:[eE][+-]?[0-9]+)?)(?![A-Za-z0-9_.]))"
    % MAX_TEXT_BYTES
)
END = "end"


class FormatError(ValueError):
    """A file that is not of the format; the text says where and why."""


@dataclass(frozen=True)
class Header:
    """What a header says.

    Attributes:
        values: what parameter, value and text statements give, by name: int where the number is written whole, float
            for other numbers, str for texts and words.
        dtype: of a row, packed, with the byte order of the file. Arrays are subarrays; `char` is one byte.
        rows: the stated number of rows, or None.
        length: the bytes of the header; the rows stand behind it.
    """

    values: dict
    dtype: np.dtype
    rows: "int | None"
    length: int


class _Tokens:
    """The tokens of a text from left to right, one ahead: its kind, its text and its place."""

    def __init__(self, text):
        self.text, self.behind = text, 0
        self.advance()

    def advance(self):
        self.place = BLANK.match(self.text, self.behind).end()
        found = TOKEN.match(self.text, self.place)
        if found:
            self.kind, self.word, self.behind = found.lastgroup, found[0].decode("latin-1"), found.end()
        elif self.place == len(self.text):
            self.kind, self.word = END, "its end"
        else:
            raise self.fault()

    def fault(self):
        return FormatError(f"header: syntax at byte {self.place}")

    def take(self, kind, *words):
        """The text of the next token, which is of this kind and one of these words where there are any."""
        if self.kind != kind or (words and self.word not in words):
            raise self.fault()
        word = self.word
        self.advance()
        return word

    def at(self, sign):
        return self.kind == "sign" and self.word == sign


def _number(text):
    """The value of a number token: int where it is written whole, else float."""
    sign, digits = (-1 if text[0] == "-" else 1), text.lstrip("+-")
    if digits[:2] in ("0x", "0X"):
        return sign * int(digits, 16)
    return sign * int(digits) if digits.isdigit() else float(text)


def _value(tokens):
    if tokens.kind == "number":
        return _number(tokens.take("number"))
    return tokens.take("text")[1:-1] if tokens.kind == "text" else tokens.take("word")


def _size(tokens):
    """What stands behind `[`: a whole number or, where it is missing, None; and `]`."""
    size = None if tokens.at("]") else _number(tokens.take("number"))
    if isinstance(size, float) or (size is not None and size < 0):
        raise tokens.fault()
    tokens.take("sign", "]")
    return size


def _type(tokens):
    place, name = tokens.place, tokens.take("word")
    if name == "unsigned" and tokens.kind == "word":
        name += " " + tokens.take("word")
    if name not in TYPES:
        raise FormatError(f"header: unknown type at byte {place}")
    return name


def _columns(tokens):
    """The columns within the braces of a struct, as NumPy describes them."""
    columns = []
    tokens.take("sign", "{")
    while not tokens.at("}"):
        code, comma = TYPES[_type(tokens)], ","
        while comma == ",":
            name = tokens.take("word")
            if name in [column[0] for column in columns]:
                raise FormatError(f"header: column {name} is there twice")
            if tokens.at("["):
                tokens.advance()
                columns.append((name, code, (_size(tokens) or 1,)))
            else:
                columns.append((name, code))
            comma = tokens.take("sign", ",", ";")
    tokens.take("sign", "}")
    return columns


def _statements(text):
    """The named values, the columns and the stated number of rows of a header's text."""
    tokens, values, columns, rows = _Tokens(text), {}, None, None
    while tokens.kind != END:
        if tokens.kind == "word" and tokens.word == "struct":
            if columns is not None:
                raise FormatError(f"header: second struct at byte {tokens.place}")
            tokens.advance()
            columns = _columns(tokens)
            tokens.take("sign", "[")
            rows = _size(tokens)
        else:
            is_parameter = tokens.kind == "word" and tokens.word == "parameter"
            if is_parameter:
                tokens.advance()
            else:
                _type(tokens)
            name = tokens.take("word")
            if name in values:
                raise FormatError(f"header: {name} is there twice")
            if not is_parameter and tokens.at("["):
                tokens.advance()
                _size(tokens)
            tokens.take("sign", "=")
            values[name] = _value(tokens)
        tokens.take("sign", ";")
    if columns is None:
        raise FormatError("header: no struct")
    return values, columns, rows


def _extent(data):
    """The place where the line begins that ends the header, and the place behind it."""
    if data[:5] != b"# SDF":
        raise FormatError("not an SDF file")
    begin = 0
    while (newline := data.find(b"\n", begin, MAX_HEADER_BYTES)) >= 0:
        if data[begin : begin + 1] == b"#" and data.find(b"SDF-EOH", begin, newline) >= 0:
            return begin, newline + 1
        begin = newline + 1
    raise FormatError("header has no end")


def read_header(data):
    """The header that a file begins with.

    Args:
        data: the bytes of the file, or at least its first 65,536.

    Returns:
        Header: its named values, the layout of its rows, and its length.

    Raises:
        FormatError: the file is no SDF file, or its header breaks the grammar.
    """
    end, length = _extent(data)
    values, columns, rows = _statements(data[:end])
    order = values.get("byteorder", LEAST_FIRST)
    if order not in (LEAST_FIRST, MOST_FIRST):
        raise FormatError(f"header: byteorder is {order}")
    dtype = np.dtype(columns).newbyteorder("<" if order == LEAST_FIRST else ">")
    return Header(values, dtype, rows, length)


def bytes_of(source):
    """The bytes of a file: of bytes themselves, of an object with `read`, or of the file with this name."""
    if isinstance(source, (bytes, bytearray, memoryview)):
        return bytes(source)
    if hasattr(source, "read"):
        return source.read()
    with open(source, "rb") as file:
        return file.read()


def read_rows(source):
    """The header and all rows of an SDF file.

    Args:
        source: a path, bytes, or an object with `read`.

    Returns:
        (Header, ndarray): the header, and a structured array of shape (N,) with its dtype; it cannot be written to.

    Raises:
        FormatError: as `read_header`, or the rows are cut short or too many.
        OSError: the file cannot be read.
    """
    data = bytes_of(source)
    header = read_header(data)
    width, left = header.dtype.itemsize, len(data) - header.length
    stated = header.rows if header.rows is not None else left // max(1, width)
    if left < stated * width or (header.rows is None and left > stated * width):
        raise FormatError(f"row {left // width} is cut short" if width else "rows without columns")
    if left > stated * width:
        raise FormatError("bytes after the last row")
    if not width:
        return header, np.zeros(stated, dtype=header.dtype)
    return header, np.frombuffer(data, dtype=header.dtype, count=stated, offset=header.length)


def _spelled(value):
    """A value as a header spells it, and the kind of its statement."""
    if isinstance(value, str):
        is_word = re.fullmatch(r"[A-Za-z_][A-Za-z0-9_]*", value)
        if '"' in value or len(value.encode()) > MAX_TEXT_BYTES:
            raise ValueError(f"a text in a header has no quote and at most {MAX_TEXT_BYTES} bytes: {value[:40]}")
        return "parameter", value if is_word else f'"{value}"'
    if isinstance(value, (int, np.integer)):
        return ("int64_t" if -(2**63) <= value < 2**63 else "uint64_t"), str(int(value))
    if not np.isfinite(value):
        raise ValueError(f"a number in a header is finite: {value}")
    return "double", repr(float(value))


def header_text(values, columns, rows):
    """The bytes of a header, least significant byte first.

    The struct is closed over two lines, and blanks in a comment fill the header up to whole pages, so that readers which
    open the file as text and go line by line (yt's) get through it.

    Args:
        values: names and the values that they get: whole numbers, floats, texts.
        columns: pairs of a type of `TYPES` and the names of its columns.
        rows: the number of rows.

    Raises:
        ValueError: a name is no word or a value has no spelling.
    """
    lines = ["# SDF 1.0", f"parameter byteorder = 0x{LEAST_FIRST:x};"]
    for name, value in values.items():
        if not re.fullmatch(r"[A-Za-z_][A-Za-z0-9_]*", name) or name == "byteorder":
            raise ValueError(f"a name in a header is a word of letters, digits and _: {name}")
        kind, spelling = _spelled(value)
        lines.append(f"{kind} {name} = {spelling};")
    lines += ["struct {", *(f"  {kind} {', '.join(names)};" for kind, names in columns)]
    lines += ["}" + f"[{rows}", "]; # the rows stand behind the page of this header", ""]
    text, end = "\n".join(lines).encode(), b"# SDF-EOH\n"
    blanks = -(len(text) + len(end) + 2) % PAGE
    text += b"#" + b" " * blanks + b"\n" + end
    if len(text) > MAX_HEADER_BYTES:
        raise ValueError(f"a header has at most {MAX_HEADER_BYTES} bytes")
    return text
