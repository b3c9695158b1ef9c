#!/usr/bin/env python3
"""Counts the instructions that the program takes for hostile files of one, two and four times a length.

Usage: tools/measure_hostile.py [--program PATH]

Each kind of file is made at three lengths, the last of which is the limit: headers of 65,536 bytes of the worst tokens,
rows of 1,024 bytes, rows of `[]`. The program splits them for one rank. Instructions are counted by valgrind's
callgrind, less those of a short file. The table has instructions per byte; where the work is linear, that number does
not grow from left to right.
"""

import argparse
import os
import re
import subprocess
import sys
import tempfile
from concurrent.futures import ThreadPoolExecutor

from check_program import built_program

FRONT, END = b"# SDF\n", b"# SDF-EOH\n"
STRUCT = b"struct {int8_t x,y,z;}[0];\n"
MAX_HEADER = 65536
PARTS = (4, 2, 1)  # of the greatest length


def filled(unit, tail=b"", front=b""):
    """Headers of at most some length: a front, as many units as fit, and a tail. A unit may count."""

    def make(length):
        text, number = [FRONT + front], 0
        left = length - len(FRONT) - len(front) - len(tail) - 1 - len(END)
        while True:
            item = unit(number) if callable(unit) else unit
            if len(item) > left:
                break
            text.append(item)
            left, number = left - len(item), number + 1
        return b"".join(text) + b" " * left + tail + b"\n" + END

    return make


def short_name(number):
    """The names of few bytes, one after the other."""
    letters = b"abcdefghijklmnopqrstuvwABCDEFGHIJKLMNOPQRSTUVWXYZ_"
    digits = letters + b"0123456789"
    name, number = letters[number % len(letters) :][:1], number // len(letters)
    while number:
        number -= 1
        name, number = name + digits[number % len(digits) :][:1], number // len(digits)
    return name


COLUMNS = b"struct {int8_t x,y,z;char " + b",".join(b"a%d[9]" % k for k in range(60)) + b";char b;}[0];\n"
HEADERS = {
    "comments of a line": filled(b"#\n", STRUCT),
    "comments of five bytes": filled(b"/**/\n", STRUCT),
    "one comment": filled(b"*", b"*/" + STRUCT, b"/*"),
    "blanks": filled(b" ", STRUCT),
    "values of different short names": filled(lambda k: b"int %s=1;" % short_name(k), STRUCT),
    "parameters of different short names": filled(lambda k: b"parameter %s=a;" % short_name(k), STRUCT),
    "values of names with a long common front": filled(lambda k: b"int %s%s=1;" % (b"n" * 200, short_name(k)), STRUCT),
    "texts": filled(lambda k: b'char %s[]="";' % short_name(k), STRUCT),
    "long texts": filled(lambda k: b'char %s[]="%s";' % (short_name(k), b"t" * 4096), STRUCT),
    "64 columns behind blanks": filled(b"\n", COLUMNS),
    "a name of all bytes": filled(b"n", b"=1;" + STRUCT, b"int "),
    "digits of zero": filled(b"0", b";" + STRUCT, b"int a="),
    "hexadecimal digits of zero": filled(b"0", b"1;" + STRUCT, b"int a=0x"),
    "digits of a fraction": filled(b"7", b";" + STRUCT, b"float a=0."),
    "digits of an exponent": filled(b"9", b";" + STRUCT, b"float a=1e"),
    "an open comment": filled(b"/*", b"", STRUCT),
    "an open text": filled(b"t", b"", STRUCT + b'char a[]="'),
    "quotes": filled(b'"', b"", STRUCT),
    "signs": filled(b"{", b"", b""),
    "lines that nearly end it": filled(b"#SDF-EO\n", STRUCT),
    "comments of marks that nearly end it": filled(b"SDF-EO", b"\n" + STRUCT, b"#"),
    "fields of no known type": filled(b"a b;", b"", b"struct {"),
}
WIDE = FRONT + b"int cube_bits=8;struct {uint8_t x,y,z;char a[1021];}[];\n" + END
BARE = FRONT + b"struct {int8_t x,y,z;}[];\n" + END
SPREAD = FRONT + b"int cube_bits=8;struct {uint8_t x,y,z;}[];\n" + END


def spread(number, width):
    """Rows of bodies all over the cube."""
    return b"".join((k * 0x9E3779B97F4A7C15 >> 40 & 0xFFFFFF).to_bytes(3, "little") + bytes(width - 3) for k in range(number))


MANY = 1048576
ROWS = {
    "65,536 rows of 1,024 bytes": lambda part: WIDE + spread(65536 // part, 1024),
    "1,048,576 rows of `[]`, all in one cell": lambda part: BARE + bytes(3 * MANY // part),
    "1,048,576 rows of `[]`, all over the cube": lambda part: SPREAD + spread(MANY // part, 3),
    "four million rows of `[]`": lambda part: BARE + bytes(3 * 4000000 // part),
}


def counted(program, folder, name, data):
    """The instructions of a call on a file, and its status."""
    path = os.path.join(folder, name)
    with open(path, "wb") as file:
        file.write(data)
    words = ["valgrind", "--tool=callgrind", "--callgrind-out-file=/dev/null", program, "split", path]
    got = subprocess.run(words, stdin=subprocess.DEVNULL, capture_output=True, check=False)
    os.remove(path)
    lines = got.stderr.decode(errors="replace")
    line = next((it for it in lines.splitlines() if it.startswith("hot: ")), f"status {got.returncode}")
    return int(re.search(r"Collected\s*:\s*(\d+)", lines)[1]), line


def main():
    parser = argparse.ArgumentParser()
    parser.add_argument("--program")
    options = parser.parse_args()
    program = os.path.abspath(options.program) if options.program else built_program()
    files = {name: [make(MAX_HEADER // part) for part in PARTS] for name, make in HEADERS.items()}
    files |= {name: [make(part) for part in PARTS] for name, make in ROWS.items()}
    steep = []
    with tempfile.TemporaryDirectory(prefix="hot-measure-") as folder, ThreadPoolExecutor(2) as pool:
        base, _ = counted(program, folder, "base", FRONT + STRUCT + END)
        print("| File | Bytes | Instructions a byte at a quarter, half, whole | Answer |\n|---|---|---|---|")
        for number, (name, sizes) in enumerate(files.items()):
            names = [f"{number}-{part}" for part in PARTS]
            found = list(pool.map(lambda pair: counted(program, folder, *pair), zip(names, sizes)))
            rates = [(count - base) / len(data) for (count, _), data in zip(found, sizes)]
            steep += [name] if rates[2] > 1.1 * rates[1] > 1.21 * rates[0] else []
            told = ", ".join(f"{rate:.1f}" for rate in rates)
            print(f"| {name} | {len(sizes[2])} | {told} | `{found[2][1].removeprefix('hot: ')}` |", flush=True)
    for name in steep:
        print(f"{name}: the work grows faster than the length", file=sys.stderr)
    return 1 if steep else 0


if __name__ == "__main__":
    sys.exit(main())
