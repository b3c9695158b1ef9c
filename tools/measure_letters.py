#!/usr/bin/env python3
"""Counts the instructions of `Letter::from_bytes` on letters of a quarter, a half and a whole megabyte, of the worst keys.

Usage: tools/measure_letters.py

A copy of cell_mail, with the crates below it, gets a program of one call a word, which is proved and built: some five
minutes where nothing of it was proved on this machine yet. Instructions are counted by valgrind's callgrind; those of
two calls less those of one are one call. The table has instructions per byte; where the work is linear, that number
does not grow from left to right.
"""

import os
import re
import shutil
import subprocess
import sys
import tempfile

from check_program import TOP

PROGRAM = """//! Reads standard input as a letter, once for each word.
#![tactic(auto)]

use cell_mail::{Letter, LetterError};
use std::env;
use std::io::{self, Read};

fn main(rt: HostRuntime) -> io::Result<()> {
    let mut bytes = Vec::new(rt.alloc());
    rt.reader().read_to_end(&mut bytes)?;
    for _ in env::args(&rt)?.skip(1) {
        let said = match Letter::from_bytes(rt.alloc(), 0, 1, &bytes) {
            Ok(_) => "a letter",
            Err(LetterError::NotALetter) => "no letter",
            Err(LetterError::Memory) => "no memory",
        };
        println!(rt; "{said}")?;
    }
    Ok(())
}
"""
NAME = "letter_reader"
CRATES = ["hot_units", "hot_model", "morton_key", "cell_mail"]
MEGABYTE = 1 << 20
PARTS = (4, 2, 1)
BRANCHES, ASKS, ANSWERS = 1, 2, 3
RECORDS, BODIES = 1, 2
LEVELS, SIDE_BITS = 21, 29


def number(size, value):
    return value.to_bytes(size, "little")


def letter(kind, items):
    return number(1, 2) + number(1, kind) + number(4, len(items)) + b"".join(items)


def corner(key):
    """The least corner of a cell, by its digits: x, y and z from the highest bit."""
    level = (key.bit_length() - 1) // 3
    places = [0, 0, 0]
    for digit in range(level):
        bits = key >> 3 * (level - 1 - digit) & 7
        places = [2 * place + (bits >> 2 - axis & 1) for axis, place in enumerate(places)]
    return [place << SIDE_BITS - level for place in places]


def record(key):
    """A cell with one body of mass 1 in its least corner."""
    x, y, z = corner(key)
    sums = [x, y, z, x * x, y * y, z * z, x * y, x * z, y * z]
    return number(8, key) + number(4, 1) + number(8, 1) + b"".join(number(16, it) for it in sums)


def body(places, row):
    return b"".join(number(4, it) for it in [*places, 1, row])


def answer(key, tag, entries):
    return number(8, key) + number(1, tag) + number(4, len(entries)) + b"".join(entries)


DEEPEST = 1 << 3 * LEVELS


def neighbours(count):
    """Cells of the last level, side by side: their keys differ in the last digits alone."""
    return [DEEPEST + k for k in range(count)]


def spread(count):
    """Cells of the last level all over the cube."""
    return [DEEPEST + k * (DEEPEST // count) for k in range(count)]


def nested(count):
    """Cells of six levels, the coarser ones first, none in another one."""
    each = count // 6 + 1
    return [(8 + group << 3 * (15 + group)) + k for group in range(6) for k in range(each)][:count]


def asks(keys):
    return lambda length: letter(ASKS, [number(8, key) for key in keys((length - 6) // 8)])


def branches(keys):
    return lambda length: letter(BRANCHES, [record(key) for key in keys((length - 6) // 164)])


def one_body_each(length):
    return letter(ANSWERS, [answer(key, BODIES, [body(corner(key), 0)]) for key in neighbours((length - 6) // 33)])


def one_leaf(length):
    return letter(ANSWERS, [answer(DEEPEST, BODIES, [body((0, 0, 0), row) for row in range((length - 19) // 20)])])


def all_children(length):
    parents = [DEEPEST // 8 + k for k in range((length - 6) // (13 + 8 * 164))]
    return letter(ANSWERS, [answer(it, RECORDS, [record(8 * it + digit) for digit in range(8)]) for it in parents])


def wrong_at_last(make, back):
    """A letter that the last of its items spoils: that of the byte so far back from its end."""

    def spoilt(length):
        data = bytearray(make(length))
        data[-back] ^= 255
        return bytes(data)

    return spoilt


LETTERS = {
    "asks of cells side by side": asks(neighbours),
    "asks of cells all over the cube": asks(spread),
    "asks whose last key is out of order": wrong_at_last(asks(neighbours), 1),
    "branches side by side": branches(neighbours),
    "branches all over the cube": branches(spread),
    "branches of six levels": branches(nested),
    "branches whose last sum is wrong": wrong_at_last(branches(neighbours), 1),
    "answers of one body each": one_body_each,
    "an answer of all bodies in one cell": one_leaf,
    "answers of eight children each": all_children,
    "an answer whose last row is too large": wrong_at_last(one_leaf, 1),
    "a count that claims more than there is": lambda length: letter(ASKS, [])[:2] + number(4, 0xFFFFFFFF) + asks(neighbours)(length)[6:],
}


def built(folder):
    """The proved program, in a copy of the crates."""
    crates = os.path.join(folder, "crates")
    for crate in CRATES:
        shutil.copytree(os.path.join(TOP, "crates", crate), os.path.join(crates, crate))
    own = os.path.join(crates, NAME)
    os.makedirs(os.path.join(own, "src"))
    with open(os.path.join(own, "src", "main.rt"), "w", encoding="utf-8") as file:
        file.write(PROGRAM)
    with open(os.path.join(TOP, "crates.txt"), encoding="utf-8") as file:
        lines = [line for line in file.read().splitlines() if line.split(":")[0] in CRATES]
    with open(os.path.join(folder, "crates.txt"), "w", encoding="utf-8") as file:
        file.write("\n".join([*lines, f"{NAME}: cell_mail hot_model hot_units"]) + "\n")
    said = subprocess.run(["rt", "run", "--jobs", "1"], cwd=own, stdin=subprocess.DEVNULL, capture_output=True, check=False)
    program = os.path.join(own, "out", NAME)
    if not os.path.exists(program):
        sys.exit(said.stdout.decode() + said.stderr.decode())
    return program


def counted(program, data, calls):
    """The instructions of so many calls on these bytes, and what the last one said."""
    words = ["valgrind", "--tool=callgrind", "--callgrind-out-file=/dev/null", program, *["again"] * calls]
    got = subprocess.run(words, input=data, capture_output=True, check=True)
    return int(re.search(r"Collected\s*:\s*(\d+)", got.stderr.decode())[1]), got.stdout.decode().splitlines()[-1]


def main():
    with tempfile.TemporaryDirectory(prefix="hot-letters-") as folder:
        program = built(folder)
        print("| Bytes | Of which | Instructions a byte at a quarter, half, whole | Answer |\n|---|---|---|---|")
        for name, make in LETTERS.items():
            rates, said = [], ""
            for part in PARTS:
                data = make(MEGABYTE // part)
                once, said = counted(program, data, 1)
                twice, _ = counted(program, data, 2)
                rates.append(f"{(twice - once) / len(data):.1f}")
            print(f"| {name} | {len(data)} | {', '.join(rates)} | {said} |", flush=True)


if __name__ == "__main__":
    main()
