"""Body files with something wrong: bytes or tokens of the header changed, limits passed, rows spoilt."""

from cases.layouts import bounds, packed, pick_file
from reference.header import MAX_MASS
from reference.rows import MAX_WORK

BYTES = b"# \n\t\f\r/*\"{}[];=,+-.0123456789exX_aZ\x00\x7f\xff"
TOKENS = """unsigned long struct parameter char int float uint8_t int8_t x y z mass ident work byteorder cube_bits cube_x0
{ } [ ] ; = , 0 1 -1 +1 1024 1025 1048576 1048577 18446744073709551615 18446744073709551616 -9223372036854775808
-9223372036854775809 0x 0xfg 0x1e+2 1e 1e5 1.5 1. . .5 1..2 12a - + -- "text" "open /*open / @ $ 21.0 0x78563412 0x12345678
2018915346 -0 29 30 4294967295 4294967296 /*/ //""".split()


def changed_bytes(rng, text):
    """The text with a few bytes changed, deleted, inserted or doubled, or cut."""
    for _ in range(rng.choice([1, 1, 1, 2, 4])):
        at = rng.randrange(len(text) + 1)
        upto = min(len(text), at + rng.choice([1, 1, 1, 2, 5, 30]))
        new = bytes(rng.choice(BYTES) for _ in range(upto - at))
        text = rng.choice(
            [
                text[:at] + new + text[upto:],
                text[:at] + text[upto:],
                text[:at] + new + text[at:],
                text[:upto] + text[at:upto] + text[upto:],
                text[:at] + rng.choice(TOKENS).encode() + text[at:],
            ]
        )
    return text[: rng.randrange(len(text) + 1)] if rng.random() < 0.1 else text


def changed_tokens(rng, tokens):
    """The tokens with a few changed, deleted, inserted, doubled or swapped."""
    tokens = list(tokens)
    for _ in range(rng.choice([1, 1, 1, 2, 3])):
        at, other = rng.randrange(len(tokens)), rng.randrange(len(tokens))
        kind = rng.randrange(6)
        if kind == 0:
            tokens[at] = rng.choice(TOKENS)
        elif kind == 1 and len(tokens) > 1:
            del tokens[at]
        elif kind == 2:
            tokens.insert(at, rng.choice(TOKENS))
        elif kind == 3:
            tokens.insert(at, tokens[other])
        elif kind == 4:
            tokens[at], tokens[other] = tokens[other], tokens[at]
        else:
            del tokens[at:]
            break
    return tokens or [";"]


PARAMETERS = ["byteorder", "cube_bits", "cube_x0", "cube_y0", "cube_z0", "mass"]
VALUES = ["0", "30", "-1", "21.0", "1e1", "word", '"21"', "0x78563412", "0X12345678", "2018915346", "4294967295", "4294967296"]


def bad_parameter(rng, tokens):
    """The tokens with a statement that gives a parameter, or with the number of one changed."""
    name, value = rng.choice(PARAMETERS), rng.choice(VALUES)
    if name in tokens[:-1] and tokens[tokens.index(name) + 1] == "=":
        at = tokens.index(name) + 2
        return [*tokens[:at], value, *tokens[at + 1 :]]
    front = rng.choice(["parameter", "int", "float", "char"])
    if front == "char" and rng.random() < 0.5:
        return [*tokens, "char", name, "[", "]", "=", '"21"', ";"]
    return [*tokens, front, name, "=", value, ";"]


def changed_meaning(rng, tokens):
    """The tokens with a column, a parameter or the number of rows changed, or with a second struct."""
    begin = next(at for at in range(len(tokens)) if tokens[at : at + 2] == ["struct", "{"])
    close = tokens.index("}", begin)
    end = tokens.index(";", close)
    inside = range(begin + 2, close)
    names = [at for at in inside if tokens[at + 1] in (",", ";", "[")]
    kind = rng.randrange(7)
    if kind == 0:
        at = rng.choice([0, begin, end + 1, len(tokens)])
        return [*tokens[:at], *tokens[begin : end + 1], *tokens[at:]]
    if kind == 1:
        return [*tokens[: close + 2], rng.choice(["1048576", "1048577", "0x100001", "18446744073709551615"]), *tokens[end - 1 :]]
    if kind <= 3:
        return bad_parameter(rng, tokens)
    at = rng.choice(names)
    if kind == 4:
        return [*tokens[: at + 1], "[", rng.choice(["1", "2", "0", "1024"]), "]", *tokens[at + 1 :]]
    if kind == 5:
        return [*tokens[:at], rng.choice(["x", "y", "z", "mass", "work", "ident", "X"]), *tokens[at + 1 :]]
    at = rng.choice([at for at in names if tokens[at] in ("x", "y", "z", "mass", "work", "ident")] or names)
    before = max(k for k in range(begin, at) if tokens[k] in ("{", ";"))
    upto = before + (3 if tokens[before + 1] == "unsigned" else 2)
    return [*tokens[: before + 1], rng.choice(["float", "double", "char", "long", "unsigned"]), *tokens[upto:]]


def mutated_header(rng, file=None):
    """A file whose header is changed; the rows stay."""
    file = file or pick_file(rng, 9)
    kind = rng.random()
    if kind < 0.4:
        for _ in range(rng.choice([1, 1, 1, 2])):
            file.tokens = changed_meaning(rng, file.tokens)
        return file.data(rng)
    if kind < 0.7:
        file.tokens = changed_tokens(rng, file.tokens)
        return file.data(rng)
    return changed_bytes(rng, file.text(rng)) + b"".join(file.rows)


def columns_text(rng, names):
    fields = "".join(f"{kind} {name};\n" for kind, name in names)
    return f"# SDF\nstruct {{\n{fields}}}[{rng.choice(['', '1'])}];\n# SDF-EOH\n".encode()


def wide_header(rng):
    """A header near the limits of columns and of bytes in a row, sometimes with a fault near by."""
    names = [("int8_t", "x"), ("int8_t", "y"), ("int8_t", "z")]
    if rng.random() < 0.5:
        more = rng.choice([60, 61, 62])
        names += [(rng.choice(["char", "int"]), f"c{k}") for k in range(more)]
        if rng.random() < 0.3:
            names[-1] = ("char", rng.choice(["x", "c3", "last[", "last[0]", "last[1", "last@", "last 5"]))
    else:
        names.append(("char", f"wide[{rng.choice([1013, 1017, 1020])}]"))
        names.append(rng.choice([("int", "a"), ("double", "b"), ("char", "c[4"), ("char", "c[9"), ("double", "d@")]))
        names.append(rng.choice([("int", "x"), ("double", "wide"), ("double", "d[0]"), ("char", "d[1025]"), ("double", "d["), ("char", "e")]))
    if rng.random() < 0.3:
        rng.shuffle(names)
    return columns_text(rng, names) + rng.randbytes(1024)


def long_header(rng):
    """A header of about the greatest length, in a comment, a text or a list of statements; or one without an end."""
    front = b"# SDF\nint8_t mass = 1;\nparameter cube_x0 = -128;\nparameter cube_y0 = -128;\nparameter cube_z0 = -128;\n"
    back = b"struct {int8_t x,y,z;}[];\n# SDF-EOH\n"
    length = rng.choice([65535, 65536, 65537, rng.randint(65000, 66000)])
    gap = length - len(front) - len(back)
    kind = rng.randrange(5)
    if kind == 0:
        middle = b"#" * (gap - 1) + b"\n"
    elif kind == 1:
        middle = b"/*" + b"\n" * (gap - 5) + b"*/\n"
    elif kind == 2:
        size = rng.choice([4096, 4097])
        text = b'char a[] = "' + b"t" * size + b'";'
        middle = text + b" " * (gap - len(text))
    elif kind == 3:
        middle = b"\n" * gap
    else:
        middle, back = b"/" * gap, b"/ SDF-EOH\n"
    return front + middle + back + rng.randbytes(rng.choice([0, 3, 30, 31]))


def spoilt_rows(rng, file=None):
    """A file with a number out of its range, cut short, or too long."""
    file = file or pick_file(rng, 17)
    k = len(file.rows)
    names = [name for name, _, length in file.columns if not length and name in ("x", "y", "z", "mass", "work")]
    names.sort(key=["x", "y", "z", "mass", "work"].index)
    for _ in range(rng.choice([0, 1, 1, 1, 2])):
        if k:
            name = rng.choice(names if rng.random() < 0.3 else names[3:] or names)
            _, size, signed = file.offset(name)
            low, high = bounds(size, signed)
            wanted = [0, -1, 1, MAX_MASS, MAX_MASS + 1, MAX_WORK, MAX_WORK + 1, low, high, rng.randint(low, high)]
            file.put(rng.randrange(k), name, min(high, max(low, rng.choice(wanted))))
    data = file.data(rng)
    kind = rng.random()
    if kind < 0.3:
        width = len(file.rows[0]) if k else 1
        return data[: max(0, len(data) - rng.choice([1, 1, width, width - 1, width + 1, rng.randint(1, 50)]))]
    if kind < 0.6:
        return data + rng.randbytes(rng.choice([1, 1, 2, 7, 200]))
    return data


def plain_file(rng, rows, columns, count):
    """Rows of signed bytes in a cube of 2 bits, and a stated count or none."""
    head = f"# SDF\nint cube_bits = 2;\nstruct {{int8_t {columns};}}[{count}];\n# SDF-EOH\n".encode()
    body = b"".join(packed(rng.randrange(4), 1, True, False) for _ in range(3)) * rows
    return head + body
