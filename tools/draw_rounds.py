#!/usr/bin/env python3
"""Measures how far the exchange of letters stays below what is proved of it, for docs/ROUNDS.md.

Usage: tools/draw_rounds.py [--program PATH]

Runs the built program with --report over a spread and a clustered file of 1,000 bodies, on 1 to 64 ranks, and writes
the tables of docs/ROUNDS.md, between its two marks, and the picture docs/rounds.svg. Needed cells, letters, rounds,
cells in play and the bound are those of the reports, and are compared with the second computation (reference/). That
one also plays the exchange with one letter a round, and adds up the bytes of the letters of the log, which no report
tells: what stands in each letter follows from the definitions. It takes about two minutes.
"""

import argparse
import os
import struct
import subprocess
import sys
from dataclasses import dataclass
from math import log10

from reference.exchange import exchange
from reference.forces import Walk
from reference.generator import CUBE_BITS, HEAD, made_places
from reference.needed import Needs
from reference.rows import Bodies
from reference.split import Split

TOP = os.path.dirname(os.path.dirname(os.path.abspath(__file__)))
BUILT = os.path.join(TOP, "crates", "hot", "out", "hot")
PAGE = os.path.join(TOP, "docs", "ROUNDS.md")
PICTURE = os.path.join(TOP, "docs", "rounds.svg")
MARKS = "<!-- measured: from here -->\n", "<!-- measured: to here -->\n"

COUNT, SEED = 1000, 1
RANKS = [1, 2, 4, 8, 16, 32, 64]
EPS, RATIO, LEAF = 256, (7, 10), 8  # the defaults
SHELLS = 14  # of the clustered file: body k is 2^(k mod 14) times closer to the middle
PROMPT_ROUNDS = 44

# The parts of letters, in bytes (docs/FORMATS.md)
HEADER, RECORD, ASK, ANSWER, BODY = 6, 164, 8, 13, 20


def spread():
    return made_places(COUNT, SEED)


def clustered():
    half = 1 << CUBE_BITS - 1
    return [tuple(half + (v - half >> k % SHELLS) for v in place) for k, place in enumerate(spread())]


def file_of(places):
    return HEAD.format(count=len(places)).encode() + b"".join(struct.pack("<3i", *place) for place in places)


@dataclass
class Row:
    """What a run on so many ranks sent, and the cells in play."""

    ranks: int
    needed: int
    letters: int
    sent: int  # bytes
    prompt: int  # rounds
    single: int  # rounds where one letter comes in each
    cells: int
    bound: int  # of rounds

    def most_needed(self):
        return (self.ranks - 1) * self.cells

    def most_letters(self):
        return self.ranks * (self.ranks - 1) + 2 * self.needed


def report(program, data, ranks):
    """Of the report of a run: needed cells, letters, rounds, cells in play, bound of rounds."""
    words = [program, "forces", "--ranks", str(ranks), "--report"]
    told = subprocess.run(words, input=data, capture_output=True, check=True).stderr.decode().splitlines()
    needed = sum(int(line.split()[-1]) for line in told if line.startswith("rank "))
    totals = next(line.split() for line in told if line.startswith("letters "))
    return [needed, *(int(number) for number in totals[1::2])]


def bytes_sent(needs, needed, letters):
    """The bytes of all letters of a complete log: the branches of each rank to all others, asks, and answers."""
    split = needs.split

    def answered(cell):
        if needs.is_leaf(cell):
            return BODY * len(split.inside[cell])
        return RECORD * sum(8 * cell + digit in split.inside for digit in range(8))

    told = RECORD * len(split.branches) * (split.ranks - 1)
    return HEADER * letters + told + sum(ASK + ANSWER + answered(cell) for cell in needed)


def measure(program, places):
    data = file_of(places)
    whole = Bodies()
    whole.add_file(data)
    found = whole.found
    results = Walk(found, EPS, RATIO, LEAF, 1).results()
    rows = []
    for ranks in RANKS:
        needs = Needs(Split(found, ranks), results, LEAF)
        needed = [cell for rank in range(ranks) for cell in needs.needed(rank)]
        letters, prompt, _ = exchange(needs, "prompt")
        _, single, _ = exchange(needs, "single")
        wanted = [len(needed), letters, prompt, needs.cells(), needs.bound()]
        if report(program, data, ranks) != wanted:
            sys.exit(f"draw_rounds.py: the report on {ranks} ranks is not {wanted}")
        sent = bytes_sent(needs, needed, letters)
        rows.append(Row(ranks, len(needed), letters, sent, prompt, single, needs.cells(), needs.bound()))
    return rows


def table(name, rows):
    columns = ["Ranks", "Needed cells", "At most", "Letters", "At most", "Bytes"]
    columns += ["Rounds, `prompt`", "At most", "Rounds, `single`", "At most"]
    lines = [f"**{name}**", "", f"| {' | '.join(columns)} |", "|" + "---:|" * len(columns)]
    for row in rows:
        numbers = [row.ranks, row.needed, row.most_needed(), row.letters, row.most_letters(), row.sent]
        numbers += [row.prompt, PROMPT_ROUNDS, row.single, row.bound]
        lines.append("| " + " | ".join(f"{number:,}" for number in numbers) + " |")
    return "".join(f"{line}\n" for line in [*lines, ""])


# The picture: two panels, both axes by powers. A solid line is what was measured, a broken one what is proved.

WIDE, HIGH, LEFT, UPPER, GAP = 430, 400, 85, 50, 85
POWERS = 7  # the upper axis ends at 10^7
INK = {"bytes": "#777777", "needed cells": "#1f5fbf", "letters": "#1d7f3c", "rounds": "#b3261e"}


def across(panel, ranks):
    return LEFT + panel * (WIDE + GAP) + (ranks.bit_length() - 1) * WIDE / (len(RANKS) - 1)


def up(value):
    """The height of a value of at least 1."""
    return UPPER + HIGH * (1 - log10(value) / POWERS)


def text(x, y, words, more=""):
    return f'<text x="{x:.1f}" y="{y:.1f}" {more}>{words}</text>'


def path(panel, rows, value, ink, style):
    points = [(across(panel, row.ranks), up(value(row))) for row in rows if value(row) > 0]
    joined = " ".join(f"{x:.1f},{y:.1f}" for x, y in points)
    return f'<polyline points="{joined}" fill="none" stroke="{ink}" {style}/>'


SOLID = 'stroke-width="2.2"'
BROKEN = 'stroke-width="1.4" stroke-dasharray="6 4"'
DOTTED = 'stroke-width="1.8" stroke-dasharray="2 3"'
LINES = [
    ("bytes", SOLID, lambda row: row.sent),
    ("needed cells", SOLID, lambda row: row.needed),
    ("needed cells", BROKEN, Row.most_needed),
    ("letters", SOLID, lambda row: row.letters),
    ("letters", BROKEN, Row.most_letters),
    ("rounds", SOLID, lambda row: row.prompt),
    ("rounds", BROKEN, lambda row: PROMPT_ROUNDS),
    ("rounds", DOTTED, lambda row: row.single),
    ("rounds", BROKEN, lambda row: row.bound),
]


def frame(panel, name):
    left, right = across(panel, 1), across(panel, RANKS[-1])
    parts = [text((left + right) / 2, UPPER - 18, name, 'text-anchor="middle" font-weight="bold"')]
    for power in range(POWERS + 1):
        y = up(10**power)
        parts.append(f'<line x1="{left}" y1="{y:.1f}" x2="{right}" y2="{y:.1f}" stroke="#dddddd"/>')
        parts.append(text(left - 8, y + 4, f"{10**power:,}", 'text-anchor="end"'))
    for ranks in RANKS:
        parts.append(text(across(panel, ranks), UPPER + HIGH + 18, ranks, 'text-anchor="middle"'))
    parts.append(text((left + right) / 2, UPPER + HIGH + 38, "ranks", 'text-anchor="middle"'))
    parts.append(text(right + 4, up(PROMPT_ROUNDS) + 4, PROMPT_ROUNDS, f'fill="{INK["rounds"]}"'))
    return parts


def legend():
    y = UPPER + HIGH + 66
    parts = []
    for place, (name, ink) in enumerate(INK.items()):
        x = LEFT + 125 * place
        parts.append(f'<line x1="{x}" y1="{y}" x2="{x + 24}" y2="{y}" stroke="{ink}" stroke-width="3"/>')
        parts.append(text(x + 30, y + 4, name))
    styles = [("measured", SOLID), ("one letter a round", DOTTED), ("proved: at most", BROKEN)]
    for place, (words, style) in enumerate(styles):
        x = LEFT + 500 + 160 * place
        parts.append(f'<line x1="{x}" y1="{y}" x2="{x + 30}" y2="{y}" stroke="#333333" {style}/>')
        parts.append(text(x + 36, y + 4, words))
    return parts


def picture(panels):
    width, height = LEFT + 2 * WIDE + GAP + 30, UPPER + HIGH + 85
    size = f'width="{width}" height="{height}" viewBox="0 0 {width} {height}"'
    parts = [
        f'<svg xmlns="http://www.w3.org/2000/svg" {size} font-family="sans-serif" font-size="12">',
        f'<rect width="{width}" height="{height}" fill="#ffffff"/>',
    ]
    for panel, (name, rows) in enumerate(panels.items()):
        parts += frame(panel, name)
        parts += [path(panel, rows, value, INK[of], style) for of, style, value in LINES]
    return "".join(f"{part}\n" for part in [*parts, *legend(), "</svg>"])


def main():
    parser = argparse.ArgumentParser()
    parser.add_argument("--program", default=BUILT)
    program = parser.parse_args().program
    panels = {
        f"{COUNT:,} bodies, spread": measure(program, spread()),
        f"{COUNT:,} bodies, clustered": measure(program, clustered()),
    }
    with open(PAGE, encoding="utf-8") as file:
        page = file.read()
    before, rest = page.split(MARKS[0])
    behind = rest.split(MARKS[1])[1]
    tables = "".join(table(name, rows) for name, rows in panels.items())
    with open(PAGE, "w", encoding="utf-8") as file:
        file.write(before + MARKS[0] + "\n" + tables + MARKS[1] + behind)
    with open(PICTURE, "w", encoding="utf-8") as file:
        file.write(picture(panels))


if __name__ == "__main__":
    main()
