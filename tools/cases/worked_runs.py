"""Cases of runs over ranks, reports, generated bodies and streams with little room, whose answers are known by hand."""

import struct

from cases import Case
from cases.worked import BARE, HALVES, HEAD, MASS, ROW_OF_THREE, SAME, TWO, file_of, forces

TWO_WORDS = "forces --eps 1 --theta 0/1 --ranks 2"
TWO_FORCES = forces("0 3145725 0 0", "1 -1048575 0 0")
FIVE = file_of(BARE, *[(5, 5, 5)] * 5)
FIVE_FORCES = forces(*(f"{k} 0 0 0" for k in range(5)))
FAULT = "hot: write fault\n"


def report(ranks, branches, letters, rounds, cells, bound):
    """The report of ranks with these numbers of bodies, opened and needed cells, and of branches with their ranks."""
    lines = ["# hot report 1"]
    lines += [f"rank {q} bodies {n} opened {o} asks {a}" for q, (n, o, a) in enumerate(ranks)]
    lines += [f"branch {cell} rank {rank}" for cell, rank in branches.items()]
    lines += [f"letters {letters} rounds {rounds} cells {cells} bound {bound}", "# end report"]
    return "".join(f"{line}\n" for line in lines)


# The root is a leaf that both ranks share, so each asks for the branch of the other at level 19. Six letters: a round
# for the branch lists, one for the asks and one for the answers, and the last. With a letter in each round there are
# seven: two asks and two answers wait for their turn.
def two_report(rounds):
    return report([(1, 1, 1), (1, 1, 1)], {2**57: 0, 2**57 + 4: 1}, 6, rounds, 3, 9)


# The root is a leaf of three ranks of 64: 64 * 63 branch lists, and six asks with their answers
ROW_RANKS = [(1, 1, 2) if rank in (0, 21, 42) else (0, 0, 0) for rank in range(64)]
ROW_REPORT = report(ROW_RANKS, {2**60 + 4: 42, 2**63: 0, 2**63 + 4: 21}, 4044, 4, 4, 4537)
ROW_FORCES = forces("0 8932854 0 0", "1 0 0 0", "2 -8932854 0 0")

# Bodies in the cells 8, 96 and 100, the last two in 12. By the weights 12 is a branch of rank 1, and rank 0 asks for 96
# and 100 in one letter once it read what is in 12.
WEIGHTS = "int32_t x, y, z, mass, work;"
IN_8, IN_96, IN_100 = (0, 0, 0, 1 << 22), (1 << 20, 0, 0, 1 << 22), (3 << 19, 0, 0, 1 << 22)
DEEP = file_of(WEIGHTS, (*IN_96, 1), (*IN_8, 2), (*IN_100, 1))
# Without weights rank 1 has cell 100 alone: 12 is shared, and 8, 96 and 100 are branches, two of them in one letter
FLAT = file_of(WEIGHTS, (*IN_96, 0), (*IN_8, 0), (*IN_100, 0))
OPEN_ALL = "--eps 1 --theta 0/1 --leaf 1"
THREE_FORCES = forces("0 192 0 0", "1 91 0 0", "2 -283 0 0")
FLAT_REPORT = report([(2, 10, 1), (1, 5, 2)], {8: 0, 96: 0, 100: 1}, 6, 4, 5, 13)


def deep_report(rounds):
    return report([(1, 5, 3), (2, 10, 1)], {8: 0, 12: 1}, 8, rounds, 5, 13)


# A body in cell 8 and one in 12, each of which accepts the other's cell: nothing is asked for where leaves have one
# body; where the root is a leaf, each asks for the branch of the other though it would accept it.
FAR = file_of(MASS, (0, 0, 0, 4194304), (2097151, 0, 0, 4194304))
FAR_FORCES = forces("0 16 0 0", "1 -16 0 0")
FAR_REPORTS = {
    1: report([(1, 2, 0), (1, 2, 0)], {8: 0, 12: 1}, 2, 2, 3, 9),
    2: report([(1, 1, 1), (1, 1, 1)], {8: 0, 12: 1}, 6, 4, 3, 9),
}

# Two pairs in opposite corners, parted on level 21 alone. Each rank asks for the cells of the other level by level, for
# that of level l in round 2 * l, the last two at once: 21 asks and 21 answers each way.
CORNERS = file_of(BARE, (0, 0, 0), (1, 0, 0), (2097150, 2097151, 2097151), (2097151, 2097151, 2097151))
CORNER_FORCES = forces(*(f"{k} {ax} 0 0" for k, ax in enumerate([5931651, -5931651] * 2)))


def corner_report(rounds):
    return report([(2, 90, 22)] * 2, {8: 0, 15: 1}, 86, rounds, 45, 93)


SDF_HEAD = """# SDF
parameter byteorder = 0x78563412;
struct {{
  int64_t ident_hi;
  uint64_t ident_lo;
  int64_t ax_hi;
  uint64_t ax_lo;
  int64_t ay_hi;
  uint64_t ay_lo;
  int64_t az_hi;
  uint64_t az_lo;
}}[{count}];
# SDF-EOH
"""


def sdf(*rows):
    """A file of forces of these rows of eight halves."""
    return SDF_HEAD.format(count=len(rows)).encode() + b"".join(struct.pack("<" + "qQ" * 4, *row) for row in rows)


TWO_SDF = sdf((0, 0, 0, 3145725, 0, 0, 0, 0), (0, 1, -1, 0xFFFFFFFFFFF00001, 0, 0, 0, 0))
# 32 heavy bodies pull one of mass 1, a fine unit away, each by 2^72 / 2896, which is together more than 2^65
STRONG = HEAD.format(columns=MASS, count=33).replace("cube_bits = 21", "cube_bits = 29").encode()
STRONG += struct.pack("<132i", *[0, 0, 0, 1 << 22] * 32, 1, 0, 0, 1)
STRONG_SDF = sdf(*[(0, k, 0, 388777592141, 0, 0, 0, 0) for k in range(32)], (0, 32, -3, 3159387106546939808, 0, 0, 0, 0))


def made(count, rows):
    head = f"""# SDF
parameter byteorder = 0x78563412;
int cube_bits = 21;
struct {{
  int32_t x, y, z;
}}[{count}];
# SDF-EOH
"""
    return head.encode() + bytes.fromhex(rows)


ONE_MADE = "af8002001d410300cf5e1300"
NO_SAMPLE = "sample bodies 0 seed {} ranks {} opened 0 asks 0 cells 0 letters {} rounds {} sum 0 0 0\n"
ONE_SAMPLE = "sample bodies 1 seed 0 ranks {} opened 1 asks 0 cells 1 letters {} rounds {} sum 0 0 0\n"

# A body before two others that lie in a cell of side 512 at its corner: beyond the side, their second moments count
NEAR = file_of(MASS, (0, 0, 0, 1), (2, 0, 0, 4194304), (3, 0, 0, 4194304))
NEAR_FORCES = "1 70367397827599 0 0", "2 -70367403886018 0 0"
WIDE = "hot: A8 ratio above 1 with --moments 2\n"

# words, standard input, output, error stream
RUNS = [
    *[
        (f"forces --eps 1 --leaf 1 --theta 1/1 --moments {moments} --ranks {ranks}", NEAR, forces(first, *NEAR_FORCES), "")
        for moments, first in ((1, "0 22517943161405 0 0"), (2, "0 25220089743732 0 0"))
        for ranks in (1, 2, 3)
    ],
    *[(f"{TWO_WORDS} --mail {mail}", TWO, TWO_FORCES, "") for mail in ("prompt", "last", "single", "5")],
    (f"{TWO_WORDS} --report", TWO, TWO_FORCES, two_report(4)),
    (f"{TWO_WORDS} --report --mail last", TWO, TWO_FORCES, two_report(4)),
    (f"{TWO_WORDS} --mail single --report -", TWO, TWO_FORCES, two_report(7)),
    # Draws: the first list and, since `more`, the other; both asks; the second answer; alone, the first
    (f"{TWO_WORDS} --report --mail 5", TWO, TWO_FORCES, two_report(5)),
    # The second list; the ask of rank 0 and the first list; the ask of rank 1, which stands behind an answer; two answers
    (f"{TWO_WORDS} --report --mail 16", TWO, TWO_FORCES, two_report(5)),
    (
        "forces --eps 1 --leaf 1 --theta 1/1 --report",
        SAME,
        forces("0 127 0 0", "1 0 0 0", "2 0 0 0"),
        report([(3, 49, 0)], {1: 0}, 0, 1, 23, 1),
    ),
    (
        "forces --ranks 3 --report",
        FIVE,
        FIVE_FORCES,
        report([(5, 5, 0), (0, 0, 0), (0, 0, 0)], {1: 0}, 6, 2, 1, 11),
    ),
    # The six branch lists alone: one in each round, and the last
    (
        "forces --ranks 3 --report --mail single",
        FIVE,
        FIVE_FORCES,
        report([(5, 5, 0), (0, 0, 0), (0, 0, 0)], {1: 0}, 6, 7, 1, 11),
    ),
    ("forces --ranks 64 --report", ROW_OF_THREE, ROW_FORCES, ROW_REPORT),
    ("forces --ranks 64", ROW_OF_THREE, ROW_FORCES, ""),
    # Of three ranks each asks the two others. Taken in the rounds: the list from 2 to 0; those from 1 to 2, 0 to 1, 0 to
    # 2; the ask from 2 to 1 and the list; the asks from 2 to 0 and 1 to 0, the list from 1 to 0, the ask from 1 to 2;
    # that from 0 to 2; six; one; none.
    (
        "forces --ranks 3 --report --mail 9",
        ROW_OF_THREE,
        ROW_FORCES,
        report([(1, 1, 2)] * 3, {2**60 + 4: 2, 2**63: 0, 2**63 + 4: 1}, 18, 8, 4, 23),
    ),
    *[
        (f"forces {OPEN_ALL} --ranks 2 --report --mail {mail}", DEEP, THREE_FORCES, deep_report(rounds))
        for mail, rounds in (("prompt", 6), ("last", 6), ("single", 9))
    ],
    (f"forces {OPEN_ALL} --ranks 2 --report", FLAT, THREE_FORCES, FLAT_REPORT),
    *[
        (f"forces --eps 1 --theta 1024/1 --ranks 2 --report --leaf {leaf}", FAR, FAR_FORCES, told)
        for leaf, told in FAR_REPORTS.items()
    ],
    *[(f"{TWO_WORDS} --form sdf --mail {mail}", TWO, TWO_SDF, "") for mail in ("prompt", "single")],
    (f"{TWO_WORDS} --report --form sdf -", TWO, TWO_SDF, two_report(4)),
    ("forces --form sdf --eps 1 --theta 0/1", STRONG, STRONG_SDF, ""),
    ("forces --form sdf", file_of(BARE), sdf(), ""),
    *[
        (f"forces --theta 0/1 --leaf 1 --ranks 2 --report --mail {mail}", CORNERS, CORNER_FORCES, corner_report(rounds))
        for mail, rounds in (("prompt", 44), ("last", 44), ("single", 87))
    ],
    ("forces --ranks 2 --report", file_of(BARE), forces(), report([(0, 0, 0)] * 2, {}, 2, 2, 0, 3)),
    ("forces --report", file_of(BARE), forces(), report([(0, 0, 0)], {}, 0, 1, 0, 1)),
    ("make --bodies 1 --seed 0", b"", made(1, ONE_MADE), ""),
    ("make --bodies 1", b"not read", made(1, ONE_MADE), ""),
    ("make --seed 0 --bodies 0", b"", made(0, ""), ""),
    ("sample --bodies 1 --seed 0", b"", ONE_SAMPLE.format(1, 0, 1), ""),
    # Three bodies close to each other, alone in their cells from level 9, 11 and 11 on: the last accepts the others as one
    (
        "sample --bodies 3 --leaf 1 --theta 1024/1 --eps 1 --seed 4530668864071540986",
        b"",
        "sample bodies 3 seed 4530668864071540986 ranks 1 opened 34"
        " asks 0 cells 14 letters 0 rounds 1 sum -74 -112 -150\n",
        "",
    ),
    (
        "sample --bodies 2 --ranks 2",
        b"",
        "sample bodies 2 seed 0 ranks 2 opened 2 asks 2 cells 3 letters 6 rounds 4 sum 0 0 0\n",
        "",
    ),
    ("sample --bodies 1 --ranks 2", b"not read", ONE_SAMPLE.format(2, 2, 2), ""),
    ("sample --bodies 0 --seed 0", b"", NO_SAMPLE.format(0, 1, 0, 1), ""),
    ("sample --bodies 0 --ranks 3 --seed 18446744073709551615", b"", NO_SAMPLE.format(2**64 - 1, 3, 6, 2), ""),
]

# Ten bodies, and the first seven rows with a half of the next
TEN = file_of(BARE, *[(k, 0, 0) for k in range(10)])
HALF_READ = TEN[: -2 * 12 - 6]

# words, standard input, the room of streams, output, error stream; the status is 5
ROOMS = [
    ("forces --ranks 64", ROW_OF_THREE, {"out": 20}, ROW_FORCES[:20], FAULT),
    ("forces --ranks 64 --report", ROW_OF_THREE, {"out": 20}, ROW_FORCES[:20], FAULT),
    ("forces --ranks 64 --report", ROW_OF_THREE, {"out": 0}, "", FAULT),
    ("forces --ranks 64 --report", ROW_OF_THREE, {"out": 0, "err": 0}, "", ""),
    *[
        (f"{TWO_WORDS} --report", TWO, {"err": room}, TWO_FORCES, two_report(4)[:room])
        for room in (0, 1, 14, 15, 16, 33, 60, len(two_report(4)) - 1)
    ],
    (f"{TWO_WORDS} --report", TWO, {"out": len(TWO_FORCES) - 1}, TWO_FORCES[:-1], FAULT),
    *[(f"{TWO_WORDS} --form sdf", TWO, {"out": room}, TWO_SDF[:room], FAULT) for room in (0, 211, 250, 300, 338)],
    (f"{TWO_WORDS} --form sdf --report", TWO, {"out": 300}, TWO_SDF[:300], FAULT),
    ("make --bodies 1", b"", {"out": 0}, "", FAULT),
    ("make --bodies 1", b"", {"out": 110}, made(1, ONE_MADE)[:110], FAULT),
    ("sample --bodies 1", b"", {"out": 0}, "", FAULT),
    ("sample --bodies 1", b"", {"out": 9}, "sample bo", FAULT),
    ("split", HALVES, {"out": 5}, "# hot", FAULT),
    ("weigh", b"", {"err": 3}, "", "hot"),
    ("forces", TWO[:-1], {"err": 4}, "", "hot:"),
]
# The same, but the streams have enough room
ENOUGH = [
    (f"{TWO_WORDS} --report", TWO, {"err": len(two_report(4))}, TWO_FORCES, two_report(4)),
    (f"{TWO_WORDS} --report", TWO, {"out": len(TWO_FORCES)}, TWO_FORCES, two_report(4)),
    (TWO_WORDS, TWO, {"err": 0}, TWO_FORCES, ""),
    ("make --bodies 1", b"", {"out": 116}, made(1, ONE_MADE), ""),
]

TOO_WIDE = "forces --theta 2/1 --moments 2;sample --moments 2 --theta 1024/1023;forces --moments 2 --theta 8/7 nowhere"


def as_bytes(text):
    return text if isinstance(text, bytes) else text.encode()


def worked_runs():
    """Each worked case, and its answer."""
    cases = [(words, data, {}, 0, out, err) for words, data, out, err in RUNS]
    cases += [(words, data, room, 5, out, err) for words, data, room, out, err in ROOMS]
    cases += [(words, data, room, 0, out, err) for words, data, room, out, err in ENOUGH]
    cases += [(words, b"", {}, 2, "", WIDE) for words in TOO_WIDE.split(";")]
    for words, data, room, status, out, err in cases:
        yield Case("worked", words.split(), data, room=room), (status, as_bytes(out), as_bytes(err))
    yield Case("worked", ["forces", "--ranks", "4"], HALF_READ, broken=True), (4, b"", b"hot: read fault\n")
