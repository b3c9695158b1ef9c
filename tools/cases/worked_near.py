"""Cases of the command `near`, whose answers are known by hand."""

import struct

from cases import Case
from cases.worked import BARE, CONVERTER, FINE_HEAD, FLOAT_X, MASS, SHARED, TREE_PLACES, TWO, WORK, converter_rows, file_of
from cases.worked_lists import FIRST, IDENT, OTHER_BITS, SECOND
from cases.worked_runs import CORNERS, FAULT, FIVE


def near(*lines):
    return "".join(f"{line}\n" for line in ["# hot near 1", *lines, f"# end {len(lines)}"])


def together(rows):
    """The lines of rows that are all neighbours of each other."""
    return [" ".join(map(str, (row, len(rows) - 1, *(other for other in rows if other != row)))) for row in rows]


MAILS = ["prompt", "last", "single", "5", "16"]
# The distance is 3 units of the file, which are 768 fine units
STEP = file_of(BARE, (0, 0, 0), (1, 2, 2))
NEIGHBOURS, ALONE = near("0 1 1", "1 1 0"), near("0 0", "1 0")
FIVE_LINES = near("0 4 1 2 3 4", "1 4 0 2 3 4", "2 4 0 1 3 4", "3 4 0 1 2 4", "4 4 0 1 2 3")
# Corners of the cube: the largest distance, of 2^29 - 1 on each axis, is below the largest radius
FINE_CORNERS = FINE_HEAD + struct.pack("<8i", 0, 0, 0, 1, 2**29 - 1, 2**29 - 1, 2**29 - 1, 1)
FARTHEST = 929887695  # the least radius that reaches from one to the other
# On a line of the first axis, in an order that is not that of the places: rows ascend, whatever places do
LINE = file_of(BARE, (9, 0, 0), (0, 0, 0), (5, 0, 0), (4, 0, 0))
# Across the middle of the cube: on each axis they are side by side, and in cells that part at the root
MIDDLE = file_of(BARE, (1048575, 1048575, 1048575), (1048576, 1048576, 1048576))
TREE = file_of(BARE, *TREE_PLACES)
HALF = 268435456  # half of the cube's edge, in fine units

# words, standard input, files by name, status, output or text of refusal
NEAR = [
    *[(f"near --radius 768 --ranks {ranks} --mail {mail}", STEP, {}, 0, NEIGHBOURS) for ranks in (1, 2, 64) for mail in MAILS],
    *[(f"near --radius 767 --ranks {ranks} --mail {mail}", STEP, {}, 0, ALONE) for ranks in (1, 2, 64) for mail in MAILS],
    *[(f"near --radius 768 --ranks 2 --leaf {leaf}", STEP, {}, 0, NEIGHBOURS) for leaf in (1, 2, 64)],
    *[(f"near --radius 0 --ranks 3 --mail {mail}", FIVE, {}, 0, FIVE_LINES) for mail in MAILS],
    *[(f"near --radius {radius} --ranks 3", FIVE, {}, 0, FIVE_LINES) for radius in (256, 1073741824)],
    ("near --radius 0", STEP, {}, 0, ALONE),
    ("near --radius 0 --ranks 2", SHARED, {}, 0, near("0 0", "1 0", "2 0")),
    # The radius is 256 where none is given
    ("near", file_of(BARE, (0, 0, 0), (1, 0, 0), (1, 1, 0)), {}, 0, near("0 1 1", "1 2 0 2", "2 1 1")),
    ("near", FINE_HEAD + struct.pack("<8i", 0, 0, 0, 1, 257, 0, 0, 1), {}, 0, ALONE),
    # Bodies that share a cell of the last level: 0 0 0, 255 255 255 and 256 0 0
    ("near --ranks 3", SHARED, {}, 0, near("0 1 2", "1 0", "2 1 0")),
    ("near --radius 361", SHARED, {}, 0, near("0 1 2", "1 1 2", "2 2 0 1")),
    ("near --radius 360", SHARED, {}, 0, near("0 1 2", "1 0", "2 1 0")),
    ("near --radius 442", SHARED, {}, 0, near("0 2 1 2", "1 2 0 2", "2 2 0 1")),
    ("near --radius 441", SHARED, {}, 0, near("0 1 2", "1 1 2", "2 2 0 1")),
    *[
        (f"near --radius 1073741824 --ranks {ranks} --leaf 1 --mail {mail}", CORNERS, {}, 0, near(*together(range(4))))
        for ranks in (1, 2, 4)
        for mail in MAILS
    ],
    ("near --ranks 2 --leaf 1", CORNERS, {}, 0, near("0 1 1", "1 1 0", "2 1 3", "3 1 2")),
    (f"near --radius {FARTHEST}", FINE_CORNERS, {}, 0, NEIGHBOURS),
    (f"near --radius {FARTHEST - 1}", FINE_CORNERS, {}, 0, ALONE),
    *[
        (f"near --radius 1280 --ranks {ranks} --leaf 1", LINE, {}, 0, near("0 2 2 3", "1 2 2 3", "2 3 0 1 3", "3 3 0 1 2"))
        for ranks in (1, 2, 3, 4)
    ],
    ("near --radius 1279 --ranks 4", LINE, {}, 0, near("0 1 2", "1 1 3", "2 2 0 3", "3 2 1 2")),
    *[(f"near --radius 444 --ranks {ranks} --leaf 1", MIDDLE, {}, 0, NEIGHBOURS) for ranks in (1, 2)],
    *[(f"near --radius 443 --ranks {ranks} --leaf 1", MIDDLE, {}, 0, ALONE) for ranks in (1, 2)],
    # A tree that is parted at two levels: 2 is within half an edge of 3 and 4, and 1 of 0 and 4; all others are beyond
    *[
        (f"near --radius {HALF} --ranks {ranks} --leaf 1", TREE, {}, 0, near("0 1 1", "1 2 0 4", "2 2 3 4", "3 1 2", "4 2 1 2"))
        for ranks in (1, 3, 5)
    ],
    # More than nine rows ascend as numbers
    ("near --radius 0 --ranks 2", file_of(BARE, *[(7, 7, 7)] * 12), {}, 0, near(*together(range(12)))),
    # A line begins with the ident; behind the count are the numbers of rows
    ("near --radius 1024", CONVERTER + converter_rows(bytes(16)), {}, 0, near("900 1 1", "17 1 0")),
    ("near --radius 1023", CONVERTER + converter_rows(bytes(16)), {}, 0, near("900 0", "17 0")),
    ("near", file_of(BARE), {}, 0, near()),
    ("near --ranks 64", file_of(BARE), {}, 0, near()),
    ("near --radius 1073741824 -", file_of(BARE, (7, 8, 9)), {}, 0, near("0 0")),
    ("near", WORK + (2**32 - 1).to_bytes(8, "little"), {}, 0, near("0 0")),
    # Several files are one list, whose rows are counted on
    ("near --radius 1024 a b", b"", {"a": FIRST, "b": SECOND}, 0, NEIGHBOURS),
    ("near --radius 1024 --ranks 2 a b", b"", {"a": FIRST, "b": IDENT}, 0, near("0 1 1", "900 1 0")),
    ("near --radius 1024 - b", FIRST, {"b": SECOND}, 0, NEIGHBOURS),
    ("near --radius 0 a a b", b"", {"a": FIRST, "b": SECOND}, 0, near("0 1 1", "1 1 0", "2 0")),
    ("near --radius 1024 a b", b"", {"a": FIRST, "b": OTHER_BITS}, 3, "H14 cube differs in file 2"),
    ("near a b", b"", {"a": FIRST, "b": SECOND[:-1]}, 3, "B1 row 1 is cut short in file 2"),
    ("near a b", b"", {"a": FIRST}, 4, "read fault"),
    ("near nowhere", b"", {}, 4, "read fault"),
    ("near", b"", {}, 3, "H1 not an SDF file"),
    ("near", FLOAT_X, {}, 3, "H11 column x is not whole"),
    ("near --ranks 2", TWO[:-1], {}, 3, "B1 row 1 is cut short"),
    ("near", TWO + b"\0", {}, 3, "B2 bytes after the last row"),
    ("near", file_of(MASS, (0, 0, 0, 0)), {}, 3, "B4 row 0 mass out of range"),
    *[
        (["near", "--radius", value], b"", {}, 2, f"A6 bad value {value} for --radius")
        for value in ("1073741825", "-1", "+1", "1.0", "", "0x1", "18446744073709551616", "000000000000000000001", "--ranks")
    ],
    *[
        (["near", "--radius", value], file_of(BARE), {}, 0, near())
        for value in ("0", "00", "1073741824", "00000000001073741824")
    ],
    *[
        (f"near {option} 1", b"", {}, 2, f"A3 unknown option {option}")
        for option in ("--theta", "--eps", "--moments", "--form", "--report", "--bodies", "--seed")
    ],
    *[
        (f"{command} --radius 1", b"", {}, 2, "A3 unknown option --radius")
        for command in ("forces", "split", "make", "sample")
    ],
    ("near --ranks 0", b"", {}, 2, "A6 bad value 0 for --ranks"),
    ("near --leaf 65", b"", {}, 2, "A6 bad value 65 for --leaf"),
    ("near --mail first", b"", {}, 2, "A6 bad value first for --mail"),
    ("near --radius", b"", {}, 2, "A4 no value for --radius"),
    ("near --radius 1 --radius", b"", {}, 2, "A5 option given twice --radius"),
    ("near a --radius 1", b"", {}, 2, "A7 extra word --radius"),
    ("near - -", b"", {}, 2, "A7 extra word -"),
    ("near " + "a " * 16 + "b", b"", {}, 2, "A7 extra word b"),
]


def worked_near():
    """Each worked case, and its answer."""
    for words, data, files, status, told in NEAR:
        out, err = (told, "") if status == 0 else ("", f"hot: {told}\n")
        case = Case("worked near", words.split() if isinstance(words, str) else words, data, files)
        yield case, (status, out.encode(), err.encode())
    for room in (0, 5, 12, len(NEIGHBOURS) - 1):
        words = ["near", "--radius", "768", "--ranks", "2"]
        yield Case("worked near", words, STEP, room={"out": room}), (5, NEIGHBOURS[:room].encode(), FAULT.encode())
