"""Cases of lists of files, whose answers are known by hand."""

from cases import Case
from cases.worked import BARE, FLOAT_X, HALVES, MASS, TWO, file_of, forces, rank_lines, split, wide_masses

TWO_WORDS = "forces --eps 1 --theta 0/1"
TWO_FORCES = forces("0 3145725 0 0", "1 -1048575 0 0")
FIRST, SECOND = file_of(MASS, (0, 0, 0, 1)), file_of(MASS, (4, 0, 0, 3))
NONE = file_of(BARE)
CUBE = b"int cube_bits = 21;"
OTHER_BITS, OTHER_CORNER = (
    SECOND.replace(CUBE, it) for it in (b"int cube_bits = 20;", b"int cube_bits = 21; int cube_z0 = -1;")
)
OLD_CUBE = SECOND.replace(CUBE, b"parameter cube_bits = 0x15; double cube_y0 = -0;")  # the same in other words
MOST_FIRST = SECOND[:-16].replace(b"0x78563412", b"0x12345678") + b"".join(
    value.to_bytes(4, "big") for value in (4, 0, 0, 3)
)
IDENT = file_of("int32_t x, y, z, mass, ident;", (4, 0, 0, 3, 900))
HEAVY = wide_masses((128, 4294967295))
LIGHT = wide_masses((1, 256)), wide_masses((1, 257))
BAD = b"# SDF\nint x = ;\n# SDF-EOH\n"
MANY = b"# SDF\nstruct {int8_t x, y, z;}[];\n# SDF-EOH\n" + bytes(3 * 1048576)
ONE_MORE = b"# SDF\nstruct {int8_t x, y, z;}[%s];\n# SDF-EOH\n" + bytes(3)
NO_MORE = b"# SDF\nstruct {int8_t x, y, z;}[%s];\n# SDF-EOH\n"
NOT_THERE = "read fault"
AT_ONE_PLACE = forces(*(f"{k} 0 0 0" for k in range(257)))

# words, files by name, standard input, status, output or text of refusal
LISTS = [
    (f"{TWO_WORDS} a b", {"a": FIRST, "b": SECOND}, b"", 0, TWO_FORCES),
    (f"{TWO_WORDS} a -", {"a": FIRST}, SECOND, 0, TWO_FORCES),
    (f"{TWO_WORDS} - b", {"b": SECOND}, FIRST, 0, TWO_FORCES),
    (f"{TWO_WORDS} --ranks 2 a b", {"a": FIRST, "b": SECOND}, b"", 0, TWO_FORCES),
    (f"{TWO_WORDS} a b", {"a": FIRST, "b": OLD_CUBE}, b"", 0, TWO_FORCES),
    (f"{TWO_WORDS} a b", {"a": FIRST, "b": MOST_FIRST}, b"", 0, TWO_FORCES),
    (f"{TWO_WORDS} a b", {"a": FIRST, "b": IDENT}, b"", 0, forces("0 3145725 0 0", "900 -1048575 0 0")),
    (f"{TWO_WORDS} b a", {"a": FIRST, "b": IDENT}, b"", 0, forces("900 -1048575 0 0", "1 3145725 0 0")),
    (f"{TWO_WORDS} a none b none", {"a": FIRST, "b": SECOND, "none": NONE}, b"", 0, TWO_FORCES),
    (f"{TWO_WORDS} {'none ' * 14} a b", {"a": FIRST, "b": SECOND, "none": NONE}, b"", 0, TWO_FORCES),
    (f"{TWO_WORDS} a a", {"a": FIRST}, b"", 0, forces("0 0 0 0", "1 0 0 0")),
    (
        "split --ranks 2 a b",
        {"a": file_of(MASS, (0, 0, 0, 1)), "b": file_of(MASS, (1048576, 0, 0, 2))},
        b"",
        0,
        split(
            *rank_lines((1, 1, 1), (1, 1, 1)),
            "branch 8 rank 0 count 1 mass 1 sum 0 0 0",
            "branch 12 rank 1 count 1 mass 2 sum 536870912 0 0",
            "top 1 count 2 mass 3 sum 536870912 0 0",
        ),
    ),
    (f"{TWO_WORDS} a b", {"a": FIRST, "b": OTHER_BITS}, b"", 3, "H14 cube differs in file 2"),
    (f"{TWO_WORDS} a b", {"a": FIRST, "b": OTHER_CORNER}, b"", 3, "H14 cube differs in file 2"),
    (f"{TWO_WORDS} a b", {"a": FIRST, "b": OTHER_BITS[:-16]}, b"", 3, "H14 cube differs in file 2"),
    (f"{TWO_WORDS} none a b", {"a": FIRST, "b": OTHER_BITS, "none": NONE}, b"", 3, "H14 cube differs in file 3"),
    (f"{TWO_WORDS} b", {"b": OTHER_BITS}, b"", 0, forces("0 0 0 0")),
    (f"{TWO_WORDS} a b", {"a": FIRST, "b": SECOND[:-1]}, b"", 3, "B1 row 1 is cut short in file 2"),
    (f"{TWO_WORDS} a b", {"a": FIRST, "b": SECOND + b"\0"}, b"", 3, "B2 bytes after the last row in file 2"),
    (f"{TWO_WORDS} a b", {"a": FIRST[:-1], "b": BAD}, b"", 3, "B1 row 0 is cut short in file 1"),
    (f"{TWO_WORDS} a b", {"a": FIRST, "b": BAD}, b"", 3, "H4 syntax at 14 in file 2"),
    (f"{TWO_WORDS} a b", {"a": FIRST, "b": FLOAT_X}, b"", 3, "H11 column x is not whole in file 2"),
    (f"{TWO_WORDS} a b", {"a": FIRST, "b": b""}, b"", 3, "H1 not an SDF file in file 2"),
    (f"{TWO_WORDS} a -", {"a": FIRST}, b"# SDF", 3, "H3 header has no end in file 2"),
    (
        f"{TWO_WORDS} a b",
        {"a": FIRST, "b": file_of(MASS, (4, 0, 0, 0))},
        b"",
        3,
        "B4 row 1 mass out of range in file 2",
    ),
    ("split b a", {"a": HALVES, "b": file_of(BARE, (0, -1, 0))}, b"", 3, "B3 row 0 outside the cube on y in file 1"),
    ("forces a b", {"a": TWO, "b": file_of(BARE, count=1048577)}, b"", 3, "H13 too many rows 1048577 in file 2"),
    ("forces a b", {"a": TWO, "b": OTHER_BITS.replace(b"[1]", b"[1048577]")}, b"", 3, "H13 too many rows 1048577 in file 2"),
    ("forces a a b", {"a": HEAVY, "b": LIGHT[0]}, b"", 0, AT_ONE_PLACE),
    ("forces a a b", {"a": HEAVY, "b": LIGHT[1]}, b"", 3, "B7 row 256 mass sum out of range in file 3"),
    ("forces a b", {"a": MANY, "b": ONE_MORE % b""}, b"", 3, "B6 too many rows in file 2"),
    ("forces a b", {"a": MANY, "b": ONE_MORE % b"1"}, b"", 3, "B6 too many rows in file 2"),
    ("forces a b", {"a": MANY, "b": (ONE_MORE % b"1")[:-1]}, b"", 3, "B1 row 1048576 is cut short in file 2"),
    ("forces a b c", {"a": MANY, "b": NO_MORE % b"0", "c": b"# SDX"}, b"", 3, "H1 not an SDF file in file 3"),
    ("forces a b", {"a": FIRST}, b"", 4, NOT_THERE),
    ("forces b a", {"a": BAD}, b"", 4, NOT_THERE),
    ("forces a b", {"a": BAD}, b"", 3, "H4 syntax at 14 in file 1"),
    ("forces a a b --ranks 2", {"a": FIRST}, b"", 2, "A7 extra word --ranks"),
    ("forces a --ranks 2", {"a": FIRST}, b"", 2, "A7 extra word --ranks"),
    ("forces a --", {}, b"", 2, "A7 extra word --"),
    ("forces --ranks 2 - a -", {}, b"", 2, "A7 extra word -"),
    ("forces - - --", {}, b"", 2, "A7 extra word -"),
    ("split " + "a " * 16 + "b", {}, b"", 2, "A7 extra word b"),
    ("split " + "a " * 16 + "--x", {}, b"", 2, "A7 extra word --x"),
    ("make --seed 1 a b", {}, b"", 2, "A7 extra word a"),
    ("sample - --seed 1", {}, b"", 2, "A7 extra word -"),
    ("forces --theta 2/1 --moments 2 a b", {}, b"", 2, "A8 ratio above 1 with --moments 2"),
    ("forces --theta 2/1 --moments 2 a --b", {}, b"", 2, "A7 extra word --b"),
    ("forces --no a --b", {}, b"", 2, "A3 unknown option --no"),
    ("forces --eps a --b", {}, b"", 2, "A6 bad value a for --eps"),
]


def worked_lists():
    """Each worked case, and its answer."""
    for words, files, data, status, told in LISTS:
        out, err = (told, "") if status == 0 else ("", f"hot: {told}\n")
        yield Case("worked list", words.split(), data, files), (status, out.encode(), err.encode())
    # standard input that fails behind its bytes: what they decide comes first
    cut, other = SECOND[:-1], OTHER_BITS
    for data, told in ((cut, NOT_THERE), (SECOND, NOT_THERE), (other, "H14 cube differs in file 2")):
        answer = 3 if told != NOT_THERE else 4, b"", f"hot: {told}\n".encode()
        yield Case("worked list", ["forces", "a", "-", "b"], data, {"a": FIRST, "b": BAD}, broken=True), answer
