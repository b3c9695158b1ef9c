"""Random body files: headers in many spellings, rows of every type, both orders, cubes anywhere."""

from dataclasses import dataclass, replace

from cases.spelling import joined, spelled, word
from reference.header import MAX_MASS

WHOLE = {
    "int8_t": (1, True),
    "uint8_t": (1, False),
    "unsigned char": (1, False),
    "short": (2, True),
    "int16_t": (2, True),
    "unsigned short": (2, False),
    "uint16_t": (2, False),
    "int": (4, True),
    "int32_t": (4, True),
    "unsigned int": (4, False),
    "uint32_t": (4, False),
    "int64_t": (8, True),
    "uint64_t": (8, False),
}
OTHER = {"char": 1, "float": 4, "double": 8}
COUNTS = [0, 1, 2, 3, 5, 9, 10, 17, 25, 40]


def bytes_of(kind):
    return WHOLE[kind][0] if kind in WHOLE else OTHER[kind]


@dataclass
class File:
    """A body file in parts: the tokens of its header, and its rows."""

    tokens: list
    front: bytes
    end: bytes
    rows: list
    columns: list  # of each field: name, type, length (0 where it is no array)
    most_first: bool

    def text(self, rng):
        return self.front + joined(rng, self.tokens) + b"\n" + self.end

    def data(self, rng):
        return self.text(rng) + b"".join(self.rows)

    def of_rows(self, rng, rows):
        """A file of the same columns and values that has these rows."""
        begin = next(at for at in range(len(self.tokens)) if self.tokens[at : at + 2] == ["struct", "{"])
        front = self.tokens.index("[", self.tokens.index("}", begin)) + 1
        back = self.tokens.index("]", front)
        size = [spelled(rng, len(rows))] if rng.random() < 0.6 else []
        return replace(self, tokens=[*self.tokens[:front], *size, *self.tokens[back:]], rows=rows)

    def offset(self, name):
        """Where a column stands in a row, and its bytes and sign."""
        at = 0
        for own, kind, length in self.columns:
            size = bytes_of(kind)
            if own == name:
                return at, size, WHOLE[kind][1]
            at += size * max(1, length)
        return None

    def put(self, k, name, value):
        """Writes a number into a row."""
        at, size, signed = self.offset(name)
        number = packed(value, size, signed, self.most_first)
        self.rows[k] = self.rows[k][:at] + number + self.rows[k][at + size :]


def bounds(size, signed):
    return (-(2 ** (8 * size - 1)), 2 ** (8 * size - 1) - 1) if signed else (0, 2 ** (8 * size) - 1)


def packed(value, size, signed, most_first):
    return value.to_bytes(size, "big" if most_first else "little", signed=signed)


def pick_number(rng, least, most):
    """A number of a range: an end, near an end, small, or any."""
    near = [least, most, min(most, max(least, 0)), min(most, max(least, rng.randint(-300, 300)))]
    return rng.choice([*near, rng.randint(least, most)])


def gaps(kind, bits, corner):
    """The least and greatest gap from a corner that the type can spell; the first is the greater one where there is none."""
    low, high = bounds(*WHOLE[kind])
    return max(0, low - corner), min(2**bits - 1, high - corner)


def pick_corner(rng, kind, bits):
    """The corner of a cube on an axis, some of which the type can spell."""
    low, high = bounds(*WHOLE[kind])
    side = 2**bits
    if rng.random() < 0.3:
        corner = 0
    else:
        corner = rng.choice([low, high - side + 1, rng.randint(low - side + 1, high), pick_number(rng, low, high)])
        corner = min(2**64 - 1, max(-(2**63), corner))
    least, most = gaps(kind, bits, corner)
    return corner if least <= most else pick_corner(rng, kind, bits)


@dataclass
class Cube:
    bits: int
    corner: list

    def gaps(self, axis, kind):
        return gaps(kind, self.bits, self.corner[axis])

    def types(self, axis):
        """The types that can spell a coordinate inside."""
        pairs = {kind: self.gaps(axis, kind) for kind in WHOLE}
        return [kind for kind, (least, most) in pairs.items() if least <= most]


def pick_cube(rng):
    bits = rng.choice([21, rng.randint(1, 29), rng.randint(1, 29)])
    kinds = [pick_type(rng) for _ in "xyz"]
    if rng.random() < 0.2:
        kinds = kinds[:1] * 3
    return Cube(bits, [pick_corner(rng, kind, bits) for kind in kinds])


def pick_type(rng):
    return rng.choice([*WHOLE])


def pick_places(rng, count, axes):
    """Bodies in a few clusters of some width, or each in some cell around an earlier one, as coordinates."""
    width = rng.choice([0, 1, 2, 4, 16, 64, 1024, 65536, 1 << 29])
    centres = [[rng.randint(least, most) for _, least, most in axes] for _ in range(rng.randint(1, 3))]
    bits = max(most for _, _, most in axes).bit_length()
    is_tree = rng.random() < 0.4
    places = []
    for _ in range(count):
        if is_tree and places:
            low = rng.randint(0, bits)
            place = [gap >> low << low | rng.getrandbits(low) for gap in rng.choice(places)]
        else:
            place = [gap + rng.randint(-width, width) for gap in rng.choice(centres)]
        places.append([min(most, max(least, gap)) for gap, (_, least, most) in zip(place, axes)])
    return [[gap + corner for gap, (corner, _, _) in zip(place, axes)] for place in places]


def pick_axis_types(rng, cube):
    """A type for each coordinate, often the same for all."""
    able = [cube.types(axis) for axis in range(3)]
    common = [kind for kind in able[0] if kind in able[1] and kind in able[2]]
    return [rng.choice(common)] * 3 if common and rng.random() < 0.2 else [rng.choice(kinds) for kinds in able]


def pick_columns(rng, work, cube):
    """The columns of a file: those that count, and others between them; `work` is the chance of that column."""
    columns = [(axis, kind, 0) for axis, kind in zip("xyz", pick_axis_types(rng, cube))]
    for name, chance in (("mass", 0.6), ("ident", 0.5), ("work", work)):
        if rng.random() < chance:
            length = rng.randint(1, 4) if rng.random() < 0.1 else 0
            columns.append((name, pick_type(rng) if not length else rng.choice([*WHOLE, *OTHER]), length))
    for name in ("vx", "vy", "vz", "phi", word(rng), "X", "int", "struct"):
        if rng.random() < 0.25:
            length = rng.choice([1, 2, 3, 40]) if rng.random() < 0.4 else 0
            if name not in [own for own, _, _ in columns]:
                columns.append((name, rng.choice([*WHOLE, *OTHER]), length))
    if rng.random() < 0.6:
        rng.shuffle(columns)
    return columns


def struct_tokens(rng, columns, count):
    """The struct, columns of one type often on one line."""
    tokens = ["struct", "{"]
    before = None
    for name, kind, length in columns:
        if kind == before and rng.random() < 0.7:
            tokens[-1] = ","
        else:
            tokens += kind.split()
        tokens.append(name)
        if length:
            tokens += ["[", spelled(rng, length), "]"]
        tokens.append(";")
        before = kind
    size = [spelled(rng, count)] if rng.random() < 0.6 else []
    return [*tokens, "}", "[", *size, "]", ";"]


def pick_statement(rng, name):
    """A statement that is passed over."""
    number = rng.choice(["1", "-0", "0x7F", "1.5", ".5", "2.", "1e9", "-3.25E-2", "18446744073709551615"])
    return rng.choice(
        [
            ["parameter", name, "=", rng.choice([number, '"a # text"', "word"]), ";"],
            [rng.choice([*OTHER]), name, "=", number, ";"],
            [*rng.choice([*WHOLE]).split(), name, "=", spelled(rng, rng.randint(-5, 1 << 40)), ";"],
            ["char", name, "[", *rng.choice([[], ["0"], ["16"]]), "]", "=", rng.choice(['""', '"box\n/*"']), ";"],
        ]
    )


def given(rng, name, value):
    """A statement that gives a number."""
    front = ["parameter"] if rng.random() < 0.4 else rng.choice([*WHOLE, *OTHER]).split()
    return [*front, name, "=", spelled(rng, value), ";"]


def header_tokens(rng, columns, count, numbers):
    """The statements of a header in any order."""
    statements = [given(rng, name, value) for name, value in numbers.items()]
    for name in dict.fromkeys([word(rng), word(rng), "parameter", "x", "redshift"]):
        if rng.random() < 0.3 and name not in numbers:
            statements.append(pick_statement(rng, name))
    statements.append(struct_tokens(rng, columns, count))
    rng.shuffle(statements)
    return [token for statement in statements for token in statement]


def pick_cell(rng, name, kind, length):
    """The value of a column that is no coordinate, as a number or as bytes."""
    size = bytes_of(kind)
    if kind not in WHOLE or length or name not in ("mass", "ident", "work"):
        return rng.randbytes(size * max(1, length))
    low, high = bounds(*WHOLE[kind])
    if name == "mass":
        most = min(high, MAX_MASS)
        return rng.randint(max(1, most // 2), most) if rng.random() < 0.8 else rng.randint(1, most)
    if name == "work":
        return pick_number(rng, 0, min(high, 2**32 - 1))
    return pick_number(rng, low, high)


def pick_rows(rng, columns, axes, count, most_first):
    rows = []
    for place in pick_places(rng, count, axes):
        row = b""
        for name, kind, length in columns:
            value = place["xyz".index(name)] if name in ("x", "y", "z") else pick_cell(rng, name, kind, length)
            row += value if isinstance(value, bytes) else packed(value, *WHOLE[kind], most_first)
        rows.append(row)
    return rows


def cube_numbers(rng, cube):
    """What a header says of its cube."""
    numbers = {}
    if cube.bits != 21 or rng.random() < 0.5:
        numbers["cube_bits"] = cube.bits
    for axis, corner in zip("xyz", cube.corner):
        if corner or rng.random() < 0.3:
            numbers[f"cube_{axis}0"] = corner
    return numbers


def pick_file(rng, most_rows=40, counts=COUNTS, work=0.4, cube=None):
    """A good body file, in a cube that may be given."""
    cube = cube or pick_cube(rng)
    columns = pick_columns(rng, work, cube)
    kinds = {name: kind for name, kind, _ in columns}
    numbers = cube_numbers(rng, cube)
    axes = [(corner, *gaps(kinds[axis], cube.bits, corner)) for axis, corner in zip("xyz", cube.corner)]
    most_first = rng.random() < 0.4
    if most_first or rng.random() < 0.5:
        numbers["byteorder"] = 0x12345678 if most_first else 0x78563412
    if rng.random() < 0.5:
        has_mass = any(name == "mass" and not length for name, _, length in columns)
        numbers["mass"] = rng.choice([0, -5, 1 << 40]) if has_mass else rng.randint(1, MAX_MASS)
    count = min(most_rows, rng.choice(counts))
    front = rng.choice([b"# SDF\n", b"# SDF 1.0\n", b"# SDF\r\n", b"# SDFx\xff\n", b"# SDF\n#\f\n#\n"])
    end = rng.choice([b"# SDF-EOH\n", b"# SDF-EOH\n", b"#SDF-EOH\n", b"# \f SDF-EOHs\r\n", b"#\xfeSDF-EOH SDF-EOH\n"])
    tokens = header_tokens(rng, columns, count, numbers)
    rows = pick_rows(rng, columns, axes, count, most_first)
    return File(tokens, front, end, rows, columns, most_first)
