#!/usr/bin/env python3
"""Runs mutated inputs and lists of words through the built program, by a driver in C (tools/mutate.c).

Usage: tools/check_mutated.py [--program PATH | --try] [--inputs N] [--seed S] [--jobs N]

Each of N cases, 2,000 where nothing else is said, is a call and an input of the cases that tools/check compares, of
which the driver changes bytes, tokens and words. It looks at how the program ends: by itself, with a status of the
table in docs/FORMATS.md, with nothing on its output but at status 0, and with a line that goes with the status. What
the answer should be is not known here. A case depends on the seed and its number alone; one that is wrong is kept.
Skipped where there is no C compiler, and with --try.
"""

import argparse
import glob
import os
import random
import shutil
import subprocess
import sys
import tempfile
import time
from collections import Counter
from concurrent.futures import ThreadPoolExecutor

from cases.calls import BAD, COMMANDS, GOOD, NAMES, OPTIONS, good_words, random_call
from cases.faults import TOKENS, long_header, mutated_header, spoilt_rows, wide_header
from cases.layouts import pick_file
from cases.lists import list_case
from cases.worked import worked
from cases.worked_lists import FIRST, NONE, OTHER_BITS, SECOND, worked_lists
from cases.worked_near import worked_near
from cases.worked_runs import worked_runs
from check_program import TOP, built_program

MOST_SHOWN = 5  # cases that are wrong
MORE_TOKENS = ["# SDF\n", "# SDF-EOH\n", "}[];", "}[1];", "struct {", "parameter ", "/*", "*/", "\n", '"']


def corpus(rng):
    """The calls, the inputs, the tokens of words and of inputs from which cases are made."""
    known = [case for case, _ in [*worked(), *worked_runs(), *worked_lists(), *worked_near()]]
    calls = [case.words for case in known] + [good_words(rng, name) for name in ["forces", "forces", "split", "near"] * 150]
    calls += [random_call(rng).words for _ in range(200)] + [list_case(rng).words for _ in range(200)]
    inputs = [case.stdin for case in known] + [pick_file(rng, 9).data(rng) for _ in range(200)]
    inputs += [make(rng) for make in (mutated_header, spoilt_rows, wide_header) for _ in range(60)]
    inputs += [long_header(rng) for _ in range(10)]
    for name in sorted(glob.glob(os.path.join(TOP, "examples", "*.sdf"))):
        with open(name, "rb") as file:
            inputs.append(file.read())
    values = [value for several in GOOD.values() for value in several]
    return calls, inputs, [*COMMANDS, *OPTIONS, *values, *BAD, *NAMES], [*TOKENS, *MORE_TOKENS]


def packed(items):
    """A list as the driver reads it."""
    return len(items).to_bytes(4, "little") + b"".join(len(it).to_bytes(4, "little") + it for it in items)


def write_corpus(path, rng):
    calls, inputs, word_tokens, tokens = corpus(rng)
    as_bytes = [b"".join(os.fsencode(word) + b"\0" for word in words) for words in calls]
    lists = [as_bytes, inputs, [it.encode() for it in word_tokens], [it.encode() for it in tokens]]
    with open(path, "wb") as file:
        file.write(b"".join(map(packed, lists)))


def furnish(folder, rng):
    """Puts the files that words name into a folder."""
    files = random_call(rng).files | {"a": FIRST, "b": SECOND, "c": OTHER_BITS, "none": NONE}
    for name, data in files.items():
        with open(os.path.join(folder, name), "wb") as file:
            file.write(data)


def compiled(folder):
    """The driver, or None where there is no compiler."""
    compiler = next(filter(None, map(shutil.which, ["cc", "clang", "gcc"])), None)
    if not compiler:
        return None
    driver = os.path.join(folder, "mutate")
    subprocess.run([compiler, "-O2", "-o", driver, os.path.join(TOP, "tools", "mutate.c")], check=True)
    return driver


def shares(count, parts):
    """The first case and the number of cases of each part."""
    bounds = [count * k // parts for k in range(parts + 1)]
    return [(low, high - low) for low, high in zip(bounds, bounds[1:]) if high > low]


def drive(folder, driver, program, options, kept):
    """What the drivers answer, one of them for each job, and whether one failed."""
    rng, corpus_file, room = random.Random(options.seed), os.path.join(folder, "corpus"), os.path.join(folder, "room")
    write_corpus(corpus_file, rng)
    os.mkdir(room)
    furnish(room, rng)

    def run(share):
        words = [driver, program, corpus_file, str(options.seed), *map(str, share), kept]
        return subprocess.run(words, cwd=room, stdout=subprocess.PIPE, stdin=subprocess.DEVNULL, check=False)

    parts = shares(options.inputs, options.jobs)
    with ThreadPoolExecutor(len(parts)) as pool:
        runs = list(pool.map(run, parts))
    lines = [line for got in runs for line in got.stdout.decode().splitlines()]
    return lines, any(got.returncode not in (0, 1) for got in runs)


def tell(lines, options, kept):
    """Tells of the cases that are wrong, and how many ended with which status; the number of those that are wrong."""
    wrong, ended = [line for line in lines if line.startswith("wrong ")], Counter()
    for line in wrong[:MOST_SHOWN]:
        print(f"mutated: seed {options.seed}: {line[6:]}; its words and input are in {kept}", file=sys.stderr)
    for status, number in (line.split() for line in lines if not line.startswith("wrong ")):
        ended[int(status)] += int(number)
    table = ", ".join(f"{number} with {status}" for status, number in sorted(ended.items()))
    print(f"{options.inputs} mutated cases of seed {options.seed}: {table}; {len(wrong)} wrong", end="")
    return len(wrong)


def main():
    parser = argparse.ArgumentParser()
    parser.add_argument("--program")
    parser.add_argument("--inputs", type=int, default=2000)
    parser.add_argument("--seed", type=int, default=1)
    parser.add_argument("--jobs", type=int, default=os.cpu_count())
    parser.add_argument("--try", dest="unproved", action="store_true")
    options, _ = parser.parse_known_args()
    if options.unproved:
        return 0
    program = os.path.abspath(options.program) if options.program else built_program()
    begin, kept = time.monotonic(), tempfile.mkdtemp(prefix="hot-wrong-")
    with tempfile.TemporaryDirectory(prefix="hot-mutated-") as folder:
        driver = compiled(folder)
        if driver:
            lines, has_failed = drive(folder, driver, program, options, kept)
            wrong = tell(lines, options, kept)
            print(f", in {time.monotonic() - begin:.1f} seconds")
        else:
            print("tools/check: there is no C compiler, so no mutated input was tried", file=sys.stderr)
            wrong, has_failed = 0, False
    if not wrong:
        os.rmdir(kept)
    return 1 if wrong or has_failed else 0


if __name__ == "__main__":
    sys.exit(main())
