#!/usr/bin/env python3
"""Counts what of the source does not fit a screen: lines over 100 columns, functions over 40 lines, parameters over 7.

usage: tools/screen.py [--all]   a line for each of the three counts, outside tests; with --all the places too

A function's lines are those of its body. Rows of a table of bytes (lines that hold a byte string) are not counted.
"""

import pathlib
import re
import sys

COLUMNS, LINES, PARAMETERS = 100, 40, 7
TOP = pathlib.Path(__file__).resolve().parent.parent
SIGNATURE = re.compile(r"^( *)(?:pub(?:\([a-z]+\))? )?(?:const )?fn (\w+)", re.M)


def sources():
    """The files of src/ that are no tests, as (path, text)."""
    for path in sorted(TOP.glob("crates/*/src/**/*.rt")):
        if "tests" not in path.relative_to(TOP).as_posix():
            yield path.relative_to(TOP), re.split(r"^#\[cfg\(test\)\]\nmod \w+ \{", path.read_text(), flags=re.M)[0]


def parameters(text, start):
    """How many parameters a function has whose name ends at `start`, without its own value."""
    depth, angle, count, used, at = 0, 0, 0, False, text.index("(", start)
    words = []
    for place in range(at, len(text)):
        letter = text[place]
        if letter in "([{":
            depth += 1
        elif letter in ")]}":
            depth -= 1
            if depth == 0:
                break
        elif letter == "<":
            angle += 1
        elif letter == ">" and text[place - 1] != "-":
            angle -= 1
        elif letter == "," and depth == 1 and angle == 0:
            words.append("")
            continue
        if place > at:
            words[-1:] = [(words[-1] if words else "") + letter]
    own = re.compile(r"^(?:mut )?&?(?:'\w+ )?(?:mut )?self$")
    return sum(1 for word in words if word.strip() and not own.match(word.strip()))


def body_lines(text, match):
    """How many lines the body of a function has that begins behind its signature; 0 where it has none."""
    indent = match.group(1)
    opened = re.compile(rf"^(?:{indent}|{indent}\S.* )\{{(\}}?)$", re.M).search(text, match.start())
    closed = opened and re.compile(rf"^{indent}\}}", re.M).search(text, opened.end())
    return text.count("\n", opened.end(), closed.start()) - 1 if closed and not opened.group(1) else 0


def main():
    wide, long, many = [], [], []
    for path, text in sources():
        for number, line in enumerate(text.split("\n"), 1):
            if len(line) > COLUMNS and 'b"' not in line:
                wide.append(f"{path}:{number}: {len(line)} columns")
        for match in SIGNATURE.finditer(text):
            number = text.count("\n", 0, match.start()) + 1
            if (lines := body_lines(text, match)) > LINES:
                long.append(f"{path}:{number}: {match.group(2)} has {lines} lines")
            if (count := parameters(text, match.end())) > PARAMETERS:
                many.append(f"{path}:{number}: {match.group(2)} has {count} parameters")
    for places, what in ((wide, f"lines over {COLUMNS} columns"), (long, f"functions over {LINES} lines"),
                         (many, f"functions with more than {PARAMETERS} parameters")):
        print(f"screen: {len(places)} {what}")
        if "--all" in sys.argv[1:]:
            print(*(f"  {place}" for place in places), sep="\n" if places else "", end="\n" if places else "")
    return 0


if __name__ == "__main__":
    sys.exit(main())
