"""Samples of many bodies, the longest generated file, and many neighbours."""

from cases import Case
from cases.runs import CLOSE
from cases.worked import BARE, file_of

CALLS = [
    "sample",
    *(f"sample --bodies 2000 --seed 7 --ranks 16 --mail {mail}" for mail in ("prompt", "last", "single", "5")),
    f"sample --bodies 2000 --seed {CLOSE[0]} --ranks 64 --mail 3 --theta 1024/1 --leaf 1 --eps 1",
    "make --bodies 262144 --seed 18446744073709551615",
]
# The second computation takes minutes for these, so what it gave stands here; only the rounds depend on the mail
LARGEST = "sample --bodies 20000 --seed 7 --ranks 16"
LINE = "sample bodies 20000 seed 7 ranks 16 opened 719184 asks 5169 cells 6119 letters 1202 rounds {} sum 0 0 0\n"
ROUNDS = {"": 10, " --mail prompt": 10, " --mail last": 10, " --mail single": 1203, " --mail 5": 607}


def large_cases():
    return [Case("large", call.split()) for call in CALLS]


# Bodies at one distance from the next on a line, in the file by steps of 1365 places, each with up to 100 neighbours
COUNT, APART, REACH = 4096, 500, 50


def on_a_line():
    """The call for their neighbours, and the answer by their places."""
    place_of = [row * 1365 % COUNT for row in range(COUNT)]
    row_at = {place: row for row, place in enumerate(place_of)}
    lines = ["# hot near 1"]
    for row, place in enumerate(place_of):
        near = sorted(row_at[k] for k in range(max(0, place - REACH), min(COUNT, place + REACH + 1)) if k != place)
        lines.append(" ".join(map(str, (row, len(near), *near))))
    data = file_of(BARE, *((APART * place, 0, 0) for place in place_of))
    words = ["near", "--radius", str(256 * APART * REACH), "--ranks", "8"]
    return Case("large", words, data), (0, "".join(f"{line}\n" for line in [*lines, f"# end {COUNT}"]).encode(), b"")


def largest():
    """Each of the largest cases, and its answer."""
    yield on_a_line()
    for mail, rounds in ROUNDS.items():
        yield Case("large", (LARGEST + mail).split()), (0, LINE.format(rounds).encode(), b"")
