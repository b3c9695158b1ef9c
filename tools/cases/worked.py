"""Cases whose answers are known by hand; they test the program and the second computation alike."""

import struct

from cases import Case

HEAD = "# SDF\nparameter byteorder = 0x78563412;\nint cube_bits = 21;\nstruct {{\n{columns}\n}}[{count}];\n# SDF-EOH\n"
CONVERTER = b"""# SDF 1.0
parameter byteorder = 0x78563412;
/* a small box, written by a converter */
char units[16] = "fixed point";
int64_t npart = 2;
double redshift = 0.5;
int cube_bits = 21;
int64_t cube_x0 = -1048576;
int64_t cube_y0 = -1048576;
int64_t cube_z0 = -1048576;
int32_t mass = 2;
struct {
\tint32_t x, y, z;\t/* position */
\tfloat vx, vy, vz;
\tint64_t ident;
\tfloat phi[2];
}[2];
#\f
# SDF-EOH
"""


def file_of(columns, *rows, count=None):
    head = HEAD.format(columns=columns, count=len(rows) if count is None else count)
    return head.encode() + b"".join(struct.pack(f"<{len(row)}i", *row) for row in rows)


def header_of(line):
    return f"# SDF\n{line}\n# SDF-EOH\n".encode() if line else b"# SDF\n# SDF-EOH\n"


def refused_at(text, line):
    """A header, and the text of its fault at the place that `^` marks in its line."""
    return "forces", header_of(line.replace("^", "")), 3, f"{text} at {6 + line.index('^')}"


def struct_of(fields):
    return f"struct {{int8_t x, y, z; {fields}}}[];"


def forces(*lines):
    return "".join(f"{line}\n" for line in ["# hot forces 1", *lines, f"# end {len(lines)}"])


def split(*lines):
    return "".join(f"{line}\n" for line in ["# hot split 1", *lines, "# end split"])


def rank_lines(*numbers):
    """The lines of ranks with these numbers of bodies, weight and branches."""
    return [f"rank {q} bodies {n} weight {w} branches {b}" for q, (n, w, b) in enumerate(numbers)]


def corner_tops(upto, record):
    """The lines of the top cells at the corner of the cube, from the root to this level, with one record."""
    return [f"top {8**level} {record}" for level in range(upto + 1)]


def converter_rows(floats):
    first = struct.pack("<3i", -1048576, -1048576, -1048576) + floats[:12] + struct.pack("<q", 900) + floats[:8]
    second = struct.pack("<3i", -1048572, -1048576, -1048576) + floats[4:16] + struct.pack("<q", 17) + floats[8:16]
    return first + second


MASS = "int32_t x, y, z, mass;"
BARE = "int32_t x, y, z;"
TWO = file_of(MASS, (0, 0, 0, 1), (4, 0, 0, 3))
TWO_MOST = (
    HEAD.format(columns=MASS, count=2).replace("0x78563412", "0x12345678").encode()
    + struct.pack(">8i", 0, 0, 0, 1, 4, 0, 0, 3)
)
HEAVY = (1048576, 0, 0, 4194304)
THREE = file_of(MASS, (0, 0, 0, 1), HEAVY, (1048577, 0, 0, 4194304))
SAME = file_of(MASS, (0, 0, 0, 1), HEAVY, HEAVY)
FLOAT_X = HEAD.format(columns="float x; int32_t y, z;", count=0).encode()

# A cell of side 512 with two bodies and its centre at 1152 128 128, and a body at a distance of 512 or 513
FINE_HEAD = b"# SDF\nint cube_bits = 29;\nstruct {int32_t x, y, z, mass;}[];\n# SDF-EOH\n"
CELL = struct.pack("<8i", 1024, 0, 0, 4194304, 1280, 256, 256, 4194304)
AT_SIDE = FINE_HEAD + struct.pack("<4i", 640, 128, 128, 1) + CELL
PAST_SIDE = FINE_HEAD + struct.pack("<4i", 639, 128, 128, 1) + CELL

# A cube of 29 bits: the first two bodies share a cell of the last level, the third has one beside it
SHARED = FINE_HEAD + struct.pack("<12i", 0, 0, 0, 1, 255, 255, 255, 2, 256, 0, 0, 4)

# Bodies in the cells 15, 79, 8, 12 and 72: by key they stand in the order 8, 72, 79, 12, 15
TREE_PLACES = [(1 << 20, 1 << 20, 1 << 20), (1 << 19, 1 << 19, 3 << 19), (1, 2, 3), (1 << 20, 0, 0), (0, 0, 1 << 20)]
TREE_RECORDS = {
    8: "count 1 mass 1 sum 256 512 768",
    72: "count 1 mass 2 sum 0 0 536870912",
    79: "count 1 mass 4 sum 536870912 536870912 1610612736",
    9: "count 2 mass 6 sum 536870912 536870912 2147483648",
    12: "count 1 mass 8 sum 2147483648 0 0",
    15: "count 1 mass 16 sum 4294967296 4294967296 4294967296",
    1: "count 5 mass 31 sum 6979322112 4831838720 6442451712",
}


def tree_file(works):
    """The bodies of that tree with the masses 16, 4, 1, 8 and 2, and these works."""
    rows = [(*place, mass, work) for place, mass, work in zip(TREE_PLACES, (16, 4, 1, 8, 2), works)]
    return file_of("int32_t x, y, z, mass; uint32_t work;", *rows)


def tree_text(ranks, branches, tops):
    """The text for that tree: the lines of ranks, the owner of each branch cell, and the top cells."""
    owners = [f"branch {cell} rank {rank} {TREE_RECORDS[cell]}" for cell, rank in branches.items()]
    return split(*ranks, *owners, *(f"top {cell} {TREE_RECORDS[cell]}" for cell in tops))


NO_NUMBERS = "1.5.2 0x1.5 1_ 1e 1e+ . .e5 + - 0x 0xg 00x1 12a --1 +-1 1..2 -9223372036854775809".split()
NUMBERS = "5. .5 5.e3 -.5E-2 0X1f +0x1E 1e99999 -9223372036854775808 18446744073709551615 0000000000000000000000001".split()
BAD_PARAMETERS = [
    "int cube_bits = 0;",
    "int cube_bits = 30;",
    "int mass = 0;",
    "int mass = 4294967296;",
    "parameter byteorder = 0x12345679;",
    "int byteorder = 0;",
    "parameter cube_x0 = word;",
    'parameter cube_y0 = "1";',
    'char cube_z0 [] = "1";',
]
BAD_VALUES = {
    "--theta": "1/0 1025/1 1/1025 1/1/1 1/1/ /1 1/ / 1 -1/1 +1/1 0x1/1".split(),
    "--eps": ["0", "268435457", "-1", "+1", "1.0", "", " 1", "000000000000000000001", "18446744073709551616", "٣", "--leaf"],
    "--leaf": ["0", "65"],
    "--ranks": ["0", "65"],
    "--mail": ["Prompt", "prompts", "", "18446744073709551616", "-1"],
    "--form": ["Text", "binary", "", "0"],
}
GOOD_VALUES = {
    "--theta": ["0/1", "1024/1024", "1/1024", "00000000000000000001/01"],
    "--eps": ["1", "268435456", "00000000000000000001"],
    "--leaf": ["1", "64"],
    "--ranks": ["1", "64", "064"],
    "--mail": ["prompt", "last", "single", "0", "00000000000000000005", "18446744073709551615"],
    "--form": ["text"],
}


def wide_masses(*groups):
    """Bodies at one place, by groups of some number of one mass of 64 bits."""
    head = b"# SDF\nstruct {int8_t x, y, z; uint64_t mass;}[];\n# SDF-EOH\n"
    return head + b"".join((bytes(3) + mass.to_bytes(8, "little")) * number for number, mass in groups)


# 256 of the heaviest bodies, behind which one of any mass is too much if the mass of a row is 4294967295 again
HEAVY_WORK = b"# SDF\nparameter mass = 4294967295; struct {int8_t x, y, z; int64_t work;}[];\n# SDF-EOH\n" + bytes(11 * 256)
WORK = "# SDF\nint mass = 3; struct {int8_t x, y, z; int64_t work;}[1];\n# SDF-EOH\n".encode() + b"\0\0\0"

# words, standard input, status, output or text of refusal
WORKED = [
    ("forces", file_of(BARE), 0, forces()),
    ("forces", file_of(BARE, (7, 8, 9)), 0, forces("0 0 0 0")),
    ("forces --eps 1 --theta 0/1", TWO, 0, forces("0 3145725 0 0", "1 -1048575 0 0")),
    ("forces --eps 1 --theta 0/1", TWO_MOST, 0, forces("0 3145725 0 0", "1 -1048575 0 0")),
    (
        "forces --eps 1 --leaf 1 --theta 1/1",
        THREE,
        0,
        forces("0 127 0 0", "1 70367402021887 0 0", "2 -70367402021887 0 0"),
    ),
    (
        "forces --eps 1 --leaf 1 --theta 0/1",
        THREE,
        0,
        forces("0 126 0 0", "1 70367402021887 0 0", "2 -70367402021887 0 0"),
    ),
    ("forces --eps 1 --leaf 1 --theta 1/1", SAME, 0, forces("0 127 0 0", "1 0 0 0", "2 0 0 0")),
    (
        "forces --ranks 1",
        file_of(BARE, (0, 0, 0), (1, 0, 0), (2, 0, 0)),
        0,
        forces("0 8932854 0 0", "1 0 0 0", "2 -8932854 0 0"),
    ),
    (
        "forces --eps 1 --leaf 1 --theta 1/1",
        AT_SIDE,
        0,
        forces(
            "0 33177081949915 -5708926649317 -5708926649317",
            "1 13542388587101 13542395944902 13542395944902",
            "2 -13542396497133 -13542394583788 -13542394583788",
        ),
    ),
    (
        "forces --eps 1 --leaf 1 --theta 1/1",
        PAST_SIDE,
        0,
        forces(
            "0 35047201568775 0 0",
            "1 13542388607961 13542395933189 13542395933189",
            "2 -13542396490500 -13542394581717 -13542394581717",
        ),
    ),
    (
        "forces --eps 1 --theta 1024/1",
        file_of(MASS, (0, 0, 0, 4194304), (2097151, 0, 0, 4194304)),
        0,
        forces("0 16 0 0", "1 -16 0 0"),
    ),
    ("forces", FLOAT_X, 3, "H11 column x is not whole"),
    ("forces", file_of(BARE, (2097152, 0, 0)), 3, "B3 row 0 outside the cube on x"),
    ("forces", file_of(BARE, (2097151, 0, 0)), 0, forces("0 0 0 0")),
    ("forces", file_of(MASS, (0, 0, 0, 0)), 3, "B4 row 0 mass out of range"),
    ("forces", file_of(MASS, (0, 0, 0, -1)), 3, "B4 row 0 mass out of range"),
    ("forces", file_of(MASS, (0, 0, 0, 4194305)), 0, forces("0 0 0 0")),
    ("forces", wide_masses((1, 4294967295)), 0, forces("0 0 0 0")),
    ("forces", wide_masses((1, 4294967296)), 3, "B4 row 0 mass out of range"),
    ("forces", wide_masses((1, 2**64 - 1)), 3, "B4 row 0 mass out of range"),
    ("forces", wide_masses((256, 4294967295), (1, 256)), 0, forces(*(f"{k} 0 0 0" for k in range(257)))),
    ("forces", wide_masses((256, 4294967295), (1, 257)), 3, "B7 row 256 mass sum out of range"),
    ("forces", wide_masses((300, 4294967295)), 3, "B7 row 256 mass sum out of range"),
    ("forces", HEAVY_WORK + b"\0\0\0" + b"\xff" * 8, 3, "B5 row 256 work out of range"),
    ("forces", HEAVY_WORK + bytes(11), 3, "B7 row 256 mass sum out of range"),
    ("forces", TWO[:-1], 3, "B1 row 1 is cut short"),
    ("forces", TWO + b"\0", 3, "B2 bytes after the last row"),
    ("forces --eps 1", CONVERTER + converter_rows(bytes(16)), 0, forces("900 2097150 0 0", "17 -2097150 0 0")),
    ("forces --eps 1", CONVERTER + converter_rows(b"\xff" * 16), 0, forces("900 2097150 0 0", "17 -2097150 0 0")),
    (
        "forces --eps 1",
        file_of(BARE, (0, 0, 0), (1, 2, 2)),
        0,
        forces("0 621377 1242754 1242754", "1 -621377 -1242754 -1242754"),
    ),
    ("forces", header_of("int x = ;"), 3, "H4 syntax at 14"),
    ("forces", header_of("long n = 1;"), 3, "H5 unknown type at 6"),
    ("forces", header_of(""), 3, "H8 no struct"),
    ("forces", b"", 3, "H1 not an SDF file"),
    ("forces", b"# SDF", 3, "H3 header has no end"),
    ("forces", file_of(BARE, count=1048577), 3, "H13 too many rows 1048577"),
    ("forces", file_of(BARE, count=1048576), 3, "B1 row 0 is cut short"),
    ("forces", header_of(struct_of("char c[1021];")), 0, forces()),
    refused_at("H9 row too wide", struct_of("char ^c[1022];")),
    refused_at("H9 row too wide", struct_of("char ^c[1024 @")),
    refused_at("H4 syntax", struct_of("char c[^1025];")),
    refused_at("H4 syntax", struct_of("char c[^0x];")),
    ("forces", header_of(struct_of("char " + ", ".join(f"c{k}" for k in range(61)) + ";")), 0, forces()),
    refused_at("H9 row too wide", struct_of("char " + ", ".join(f"c{k}" for k in range(61)) + ", ^d[0];")),
    refused_at("H6 name twice", struct_of("char " + ", ".join(f"c{k}" for k in range(61)) + ", ^x;")),
    refused_at("H6 name twice", "int n = 1; parameter ^n = ;"),
    refused_at("H7 second struct", struct_of("") + "^struct"),
    refused_at("H5 unknown type", "^unsigned @;"),
    refused_at("H5 unknown type", "struct {^parameter n = 1;"),
    refused_at("H4 syntax", f'char a[] = ^"{"t" * 4097}";'),
    ("forces", header_of(f'char a[] = "{"t" * 4096}";'), 3, "H8 no struct"),
    refused_at("H4 syntax", "float a = ^18446744073709551616;"),
    refused_at("H4 syntax", "float a = 0x1e^+2;"),
    *[refused_at("H4 syntax", f'{kind} a ^[] = "";') for kind in ("int8_t", "unsigned char", "float", "parameter")],
    *[refused_at("H4 syntax", f"char a[{rest};") for rest in ("] = ^", "] = ^1", "^-1] = 1", "^1.0] = 1", "16^")],
    *[refused_at("H4 syntax", f"struct {{}}[{rest}") for rest in ("^-1];", "^1.0];", "^x];", "1^;", "1] ^x")],
    ("forces", header_of("struct {}[0]"), 3, "H4 syntax at 19"),
    refused_at("H4 syntax", "float a = 1; ^/*/ float b = 2;"),
    refused_at("H4 syntax", "^/ float b = 2;"),
    refused_at("H5 unknown type", "float a = 1; ^unsigned long b = 2;"),
    *[("forces", header_of(struct_of("") + f"int cube_bits = {n};"), 0, forces()) for n in ("1", "29")],
    *[("forces", header_of(struct_of("") + f"int mass = {n};"), 0, forces()) for n in ("1", "4194305", "4294967295")],
    *[("forces", header_of(struct_of("") + text), 3, f"H12 bad parameter {text.split()[1]}") for text in BAD_PARAMETERS],
    *[refused_at("H4 syntax", f"float a = ^{number};") for number in NO_NUMBERS],
    *[("forces", header_of(f"float a = {number};"), 3, "H8 no struct") for number in NUMBERS],
    ("forces", b"# SDF\n" + b"#" * 65529, 3, "H3 header has no end"),
    ("forces", b"# SDF\n" + b"#" * 65530, 3, "H2 header longer than 65536 bytes"),
    ("forces", b"# SDF\n" + b"#" * 65522 + b"SDF-EOH\n", 3, "H8 no struct"),
    ("forces", b"# SDF\n" + b"#" * 65523 + b"SDF-EOH\n", 3, "H2 header longer than 65536 bytes"),
    ("forces", header_of("struct {int8_t x, y; short z[1];}[];"), 3, "H10 column z is missing"),
    ("forces", header_of(struct_of("double work;") + "int cube_bits = 30;"), 3, "H11 column work is not whole"),
    ("forces", header_of(struct_of("float work, ident, mass;")), 3, "H11 column mass is not whole"),
    ("forces", header_of(struct_of("") + "int mass = 0; float cube_bits = 21.0;"), 3, "H12 bad parameter cube_bits"),
    ("forces", header_of(struct_of("short mass;") + "int mass = 0;"), 0, forces()),
    ("", b"", 2, "A1 no command"),
    ("weigh", b"", 2, "A2 unknown command weigh"),
    ("split --theta 1/1", b"", 2, "A3 unknown option --theta"),
    ("forces --theta", b"", 2, "A4 no value for --theta"),
    ("forces --leaf 8 --leaf 8", b"", 2, "A5 option given twice --leaf"),
    ("forces --leaf 8 --leaf", b"", 2, "A5 option given twice --leaf"),
    ("forces --ranks 0 f", b"", 2, "A6 bad value 0 for --ranks"),
    ("forces a b", b"", 4, "read fault"),
    ("forces nowhere", b"", 4, "read fault"),
    *[
        (["forces", option, value], b"", 2, f"A6 bad value {value} for {option}")
        for option, values in BAD_VALUES.items()
        for value in values
    ],
    *[
        (["forces", option, value], file_of(BARE), 0, forces())
        for option, values in GOOD_VALUES.items()
        for value in values
    ],
    ("make --bodies 262145", b"", 2, "A6 bad value 262145 for --bodies"),
    ("make --seed 18446744073709551616", b"", 2, "A6 bad value 18446744073709551616 for --seed"),
    ("make -", b"", 2, "A7 extra word -"),
    ("sample --mail", b"", 2, "A4 no value for --mail"),
    ("sample --form sdf", b"", 2, "A3 unknown option --form"),
    ("forces --report --report", b"", 2, "A5 option given twice --report"),
    ("forces - --eps", b"", 2, "A7 extra word --eps"),
    ("forces -", file_of(BARE), 0, forces()),
    (["forces", ""], file_of(BARE), 4, "read fault"),
    ("forces --help", b"", 2, "A3 unknown option --help"),
    ("--help", b"", 2, "A2 unknown command --help"),
    ("forces", file_of(MASS, (-1, -1, 0, 0)), 3, "B3 row 0 outside the cube on x"),
    ("forces", file_of(MASS, (0, -1, -1, 0)), 3, "B3 row 0 outside the cube on y"),
    ("forces", file_of(MASS, (0, 0, -1, 0)), 3, "B3 row 0 outside the cube on z"),
    ("forces", file_of(MASS, (0, 0, 0, 1), (0, 0, 2097152, 0))[:-1], 3, "B1 row 1 is cut short"),
    ("forces", WORK + (2**32 - 1).to_bytes(8, "little"), 0, forces("0 0 0 0")),
    ("forces", WORK + (2**32).to_bytes(8, "little"), 3, "B5 row 0 work out of range"),
    ("forces", WORK + b"\xff" * 8, 3, "B5 row 0 work out of range"),
]

FOUR = file_of("int32_t x, y, z, work;", *((k, 0, 0, 0) for k in range(4)))
HALVES = file_of(MASS, (0, 0, 0, 1), (1048576, 0, 0, 2))
LAST_LIGHT = file_of("int32_t x, y, z, work;", (0, 0, 0, 1), (1048576, 0, 0, 0))
POINT = file_of("int32_t x, y, z, work;", (5, 6, 7, 0), (5, 6, 7, 0), (5, 6, 7, 5))
ROW_OF_THREE = file_of(BARE, (0, 0, 0), (1, 0, 0), (2, 0, 0))
PAIRS = file_of(
    MASS,
    (1 << 20, 0, 0, 4),
    (1 << 18, 1 << 18, 5 << 18, 2),
    (3 << 19, 1 << 19, 1 << 19, 8),
    (0, 0, 1 << 20, 1),
)
HEAVIEST = -1  # 2^32 - 1 in an unsigned column of 32 bits

# words, standard input, status, output or text of refusal
WORKED_SPLITS = [
    (
        "split --ranks 2",
        FOUR,
        0,
        split(
            *rank_lines((2, 2, 1), (2, 2, 1)),
            "branch 1152921504606846976 rank 0 count 2 mass 2 sum 256 0 0",
            "branch 1152921504606846980 rank 1 count 2 mass 2 sum 1280 0 0",
            *corner_tops(19, "count 4 mass 4 sum 1536 0 0"),
        ),
    ),
    (
        "split --ranks 2",
        HALVES,
        0,
        """# hot split 1
rank 0 bodies 1 weight 1 branches 1
rank 1 bodies 1 weight 1 branches 1
branch 8 rank 0 count 1 mass 1 sum 0 0 0
branch 12 rank 1 count 1 mass 2 sum 536870912 0 0
top 1 count 2 mass 3 sum 536870912 0 0
# end split
""",
    ),
    *[
        (
            "split --ranks 2",
            data,
            0,
            split(
                *rank_lines((1, 1, 1), (1, 1, 1)),
                "branch 144115188075855872 rank 0 count 1 mass 1 sum 0 0 0",
                "branch 144115188075855876 rank 1 count 1 mass 3 sum 3072 0 0",
                *corner_tops(18, "count 2 mass 4 sum 3072 0 0"),
            ),
        )
        for data in (TWO, TWO_MOST)
    ],
    # A body whose lower weight is all of it is on the last rank
    (
        "split --ranks 2",
        LAST_LIGHT,
        0,
        split(
            *rank_lines((1, 1, 1), (1, 0, 1)),
            "branch 8 rank 0 count 1 mass 1 sum 0 0 0",
            "branch 12 rank 1 count 1 mass 1 sum 268435456 0 0",
            "top 1 count 2 mass 2 sum 268435456 0 0",
        ),
    ),
    # Equal keys share a rank
    (
        "split --ranks 2",
        POINT,
        0,
        split(*rank_lines((3, 5, 1), (0, 0, 0)), "branch 1 rank 0 count 3 mass 3 sum 3840 4608 5376"),
    ),
    (
        "split --ranks 3",
        SHARED,
        0,
        split(
            *rank_lines((2, 2, 1), (0, 0, 0), (1, 1, 1)),
            "branch 9223372036854775808 rank 0 count 2 mass 3 sum 510 510 510",
            "branch 9223372036854775812 rank 2 count 1 mass 4 sum 1024 0 0",
            *corner_tops(20, "count 3 mass 7 sum 1534 510 510"),
        ),
    ),
    # The bodies are on ranks 0, 21 and 42
    *[
        (
            f"split --ranks {ranks}",
            ROW_OF_THREE,
            0,
            split(
                *rank_lines(*((1, 1, 1) if rank in (0, 21, 42) else (0, 0, 0) for rank in range(64))),
                "branch 1152921504606846980 rank 42 count 1 mass 1 sum 512 0 0",
                "branch 9223372036854775808 rank 0 count 1 mass 1 sum 0 0 0",
                "branch 9223372036854775812 rank 21 count 1 mass 1 sum 256 0 0",
                *corner_tops(19, "count 3 mass 3 sum 768 0 0"),
                "top 1152921504606846976 count 2 mass 2 sum 256 0 0",
            ),
        )
        for ranks in ("64", "00000000000000000064")
    ],
    ("split", file_of(BARE), 0, split("rank 0 bodies 0 weight 0 branches 0")),
    ("split --ranks 3", file_of(BARE), 0, split(*rank_lines((0, 0, 0), (0, 0, 0), (0, 0, 0)))),
    *[
        (words, HALVES, 0, split(*rank_lines((2, 2, 1)), "branch 1 rank 0 count 2 mass 3 sum 536870912 0 0"))
        for words in ("split", "split -", "split --ranks 1", "split --ranks 01 -")
    ],
    # Branches of three ranks and two levels by ascending key
    *[
        (
            "split --ranks 3",
            tree_file([work] * 5),
            0,
            tree_text(rank_lines((2, 2, 2), (2, 2, 2), (1, 1, 1)), {8: 0, 12: 1, 15: 2, 72: 0, 79: 1}, [1, 9]),
        )
        for work in (0, 1)
    ],
    (
        "split --ranks 3",
        tree_file([HEAVIEST] * 5),
        0,
        tree_text(
            rank_lines((2, 8589934590, 2), (2, 8589934590, 2), (1, 4294967295, 1)),
            {8: 0, 12: 1, 15: 2, 72: 0, 79: 1},
            [1, 9],
        ),
    ),
    # Half of the weight in cell 8, half in cell 15: the others are on rank 1 with the latter
    (
        "split --ranks 3",
        tree_file((3, 0, 3, 0, 0)),
        0,
        tree_text(rank_lines((1, 3, 1), (4, 3, 3), (0, 0, 0)), {8: 0, 9: 1, 12: 1, 15: 1}, [1]),
    ),
    # A heavy body in cell 79: behind it all are on the last rank, before it on the first
    (
        "split --ranks 64",
        tree_file((0, HEAVIEST, 0, 0, 0)),
        0,
        tree_text(
            rank_lines((3, 4294967295, 2), *[(0, 0, 0)] * 62, (2, 0, 2)),
            {8: 0, 9: 0, 12: 63, 15: 63},
            [1],
        ),
    ),
    # Two pairs, in the cells 12 and 72, each parted between two ranks: top cells of several levels by ascending key
    (
        "split --ranks 4",
        PAIRS,
        0,
        split(
            *rank_lines((1, 1, 1), (1, 1, 1), (1, 1, 1), (1, 1, 1)),
            "branch 96 rank 2 count 1 mass 4 sum 1073741824 0 0",
            "branch 103 rank 3 count 1 mass 8 sum 3221225472 1073741824 1073741824",
            "branch 576 rank 0 count 1 mass 1 sum 0 0 268435456",
            "branch 583 rank 1 count 1 mass 2 sum 134217728 134217728 671088640",
            "top 1 count 4 mass 15 sum 4429185024 1207959552 2013265920",
            "top 9 count 2 mass 3 sum 134217728 134217728 939524096",
            "top 12 count 2 mass 12 sum 4294967296 1073741824 1073741824",
            "top 72 count 2 mass 3 sum 134217728 134217728 939524096",
        ),
    ),
    ("split --ranks", b"", 2, "A4 no value for --ranks"),
    ("split --ranks 2 --ranks", b"", 2, "A5 option given twice --ranks"),
    ("split --ranks 2 --ranks 2", b"", 2, "A5 option given twice --ranks"),
    ("split a b", b"", 4, "read fault"),
    ("split a --ranks 2", b"", 2, "A7 extra word --ranks"),
    *[
        (["split", "--ranks", value], b"", 2, f"A6 bad value {value} for --ranks")
        for value in ("0", "65", "-1", "", "2.0", "18446744073709551617", "000000000000000000001", "--ranks")
    ],
    *[
        (f"split {option} 1/1", b"", 2, f"A3 unknown option {option}")
        for option in ("--theta", "--eps", "--leaf", "--mail", "--form", "--report", "--bodies", "--seed")
    ],
    ("split nowhere", b"", 4, "read fault"),
    (["split", ""], HALVES, 4, "read fault"),
    ("split", b"", 3, "H1 not an SDF file"),
    ("split", b"# SDF", 3, "H3 header has no end"),
    ("split --ranks 64", FLOAT_X, 3, "H11 column x is not whole"),
    ("split", file_of(BARE, count=1048577), 3, "H13 too many rows 1048577"),
    ("split --ranks 2", TWO[:-1], 3, "B1 row 1 is cut short"),
    ("split --ranks 2", TWO + b"\0", 3, "B2 bytes after the last row"),
    ("split", file_of(BARE, (2097151, 0, 0), (2097152, 0, 0)), 3, "B3 row 1 outside the cube on x"),
    ("split", file_of(MASS, (0, 0, 0, 0)), 3, "B4 row 0 mass out of range"),
    ("split", WORK + b"\xff" * 8, 3, "B5 row 0 work out of range"),
    (
        "split",
        WORK + (2**32 - 1).to_bytes(8, "little"),
        0,
        split(*rank_lines((1, 4294967295, 1)), "branch 1 rank 0 count 1 mass 3 sum 0 0 0"),
    ),
]


def worked():
    """Each worked case, and its answer."""
    for words, data, status, told in [*WORKED, *WORKED_SPLITS]:
        out, err = (told, "") if status == 0 else ("", f"hot: {told}\n")
        case = Case("worked", words.split() if isinstance(words, str) else words, data)
        yield case, (status, out.encode(), err.encode())
