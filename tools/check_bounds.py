#!/usr/bin/env python3
"""Compares pulls and forces with exact gravity, and tells how near they come to the proved bounds of their rounding.

Usage: tools/check_bounds.py [--program PATH | --try] [--pulls N] [--files N] [--seed S]

The bounds are those of crates/pull_bound. With E for the exact size of one component in printed units, P for the size
that whole numbers give and s for the integer root of 2^20 times the softened squared distance, E < P + 1 and
P * s <= E * (s + 1). E is the root of a fraction, so both are compared by squares, exactly. A component of a force at
ratio 0 lies between sums over all other bodies: those of terms from which up to one unit is missing, and of terms that
are too large by up to one part in s. Here the exact terms stand between two neighbours in units of 2^-200, so these
sums are sharp to 60 digits.

The 10,000 pulls are those of the formula, by masses up to 2^40; the 200 files are run by the program, which `./hot`
builds where it is not built yet; with --try there are none. For each bound the script tells how near the worst case
comes, as a share of the bound. Python's whole numbers are all that it uses.
"""

import argparse
import math
import os
import random
import struct
import subprocess
import sys
import time
from concurrent.futures import ThreadPoolExecutor

from check_program import built_program
from reference.forces import pull

FINE_BITS = 29
MAX_BODY_MASS, MAX_ALL_MASS, MAX_SOFTENING = 2**32 - 1, 2**40, 2**28
SCALE = 200  # bits behind the point
Q = 1 << SCALE
NEAR_A_SQUARE = [511, 31, 6]  # gaps: with a softening of 5, 2^20 times the squared distance is a square less 1
HEAD = (
    b"# SDF\nparameter byteorder = 0x78563412;\nint cube_bits = 29;\n"
    b"struct {\nint32_t x, y, z;\nuint32_t mass;\n}[%d];\n# SDF-EOH\n"
)


def exact_squares(mass, gap, r2):
    """The two sides of E^2 * r2^3 = (mass * gap)^2 * 2^80, without E."""
    return (mass * gap) ** 2 << 80, r2**3


def floor_of(mass, gap, r2):
    """E in units of 2^-200, rounded down."""
    exact, cube = exact_squares(mass, gap, r2)
    return math.isqrt((exact << 2 * SCALE) // cube)


def share_of_scale(n):
    """A number in units of 2^-200 as a float."""
    return float(n >> SCALE - 60) / 2.0**60


def any_length(rng, bits):
    """A whole number of up to so many bits, each count of bits alike."""
    return rng.randrange(1 << rng.randint(0, bits))


def random_pull(rng):
    gaps = [any_length(rng, FINE_BITS) for _ in range(3)]
    eps = rng.choice([1, 2, any_length(rng, 28) + 1, MAX_SOFTENING])
    mass = rng.choice([1, MAX_BODY_MASS, MAX_ALL_MASS, any_length(rng, 40) + 1])
    return gaps, eps, mass


class Worst:
    """The largest share of each bound that was seen, and how many cases were outside of it."""

    def __init__(self, name):
        self.name, self.lacks, self.exceeds, self.wrong, self.seen = name, 0.0, 0.0, 0, 0

    def tell(self):
        print(
            f"{self.name}: {self.seen} components, {self.wrong} outside; nearest to the bounds "
            f"{self.lacks:.4f} of what may be missing, {self.exceeds:.4f} of what may be too much"
        )


def check_pulls(rng, count):
    """Random pulls by the formula; every third is one whose softened squared distance is just below a square."""
    worst = Worst("pulls")
    for number in range(count):
        gaps, eps, mass = random_pull(rng)
        if number % 3 == 0:
            gaps, eps = rng.sample(NEAR_A_SQUARE, 3), 5
        found = pull((0, 0, 0), gaps, mass, eps)
        r2 = sum(gap * gap for gap in gaps) + eps * eps
        s = math.isqrt(r2 << 20)
        for size, gap in zip(found, gaps):
            exact, cube = exact_squares(mass, gap, r2)
            lacks = exact < (size + 1) ** 2 * cube
            exceeds = (size * s) ** 2 * cube <= exact * (s + 1) ** 2
            none = (size == 0) == (mass * gap << 50 < r2 * s)
            worst.seen += 1
            worst.wrong += not (lacks and exceeds and none)
            off = (size << SCALE) - floor_of(mass, gap, r2)
            worst.lacks = max(worst.lacks, share_of_scale(-off))
            if off > 0:
                worst.exceeds = max(worst.exceeds, share_of_scale(off * s * Q // floor_of(mass, gap, r2)))
    return worst


def random_file(rng):
    """Some bodies as (x, y, z, mass), and a softening: far apart, close together, on a line, or partly at one place."""
    count = rng.choice([2, 2, 3, rng.randint(4, 12), rng.randint(13, 40)])
    width = 1 << rng.randint(2, FINE_BITS)
    corner = [rng.randrange((1 << FINE_BITS) - width + 1) for _ in range(3)]
    flat = rng.random() < 0.2
    bodies = []
    for _ in range(count):
        place = [c + (rng.randrange(width) if axis == 0 or not flat else 0) for axis, c in enumerate(corner)]
        mass = rng.choice([1, MAX_BODY_MASS, any_length(rng, 32) + 1])
        bodies.append((*place, min(mass, MAX_BODY_MASS)))
    if rng.random() < 0.2:
        bodies.append(bodies[0])
    return bodies, rng.choice([1, 2, any_length(rng, 12) + 1])


def printed(program, bodies, eps, ranks):
    """The forces that the program prints for bodies at ratio 0."""
    data = HEAD % len(bodies) + b"".join(struct.pack("<iiiI", *body) for body in bodies)
    words = [program, "forces", "--eps", str(eps), "--theta", "0/1", "--ranks", str(ranks)]
    run = subprocess.run(words, input=data, stdout=subprocess.PIPE, check=True)
    lines = run.stdout.decode().splitlines()[1:-1]
    return [tuple(map(int, line.split()[1:])) for line in lines]


def sums(bodies, b, axis, eps):
    """For the bodies beyond b along an axis and for those before it: how many, the least, the most and the shares."""
    up, down = [0, 0, 0, 0], [0, 0, 0, 0]
    for o in bodies:
        gap = o[axis] - b[axis]
        if gap:
            r2 = sum((o[k] - b[k]) ** 2 for k in range(3)) + eps * eps
            low = floor_of(o[3], abs(gap), r2)
            side = up if gap > 0 else down
            for k, more in enumerate((1, low, low + 1, (low + 1) // math.isqrt(r2 << 20))):
                side[k] += more
    return up, down


def check_file(case):
    program, bodies, eps, ranks = case
    worst = Worst("forces")
    found = printed(program, bodies, eps, ranks)
    worst.wrong += len(found) != len(bodies)
    for b, force in zip(bodies, found):
        for axis in range(3):
            up, down = sums(bodies, b, axis, eps)
            lacks, exceeds = up[0] * Q + down[3], down[0] * Q + up[3]
            off = force[axis] * Q
            worst.seen += 1
            worst.wrong += not up[1] - down[2] - lacks <= off <= up[2] - down[1] + exceeds
            worst.wrong += any(1024 * eps * side[3] > side[2] for side in (up, down))
            if lacks:
                worst.lacks = max(worst.lacks, share_of_scale((up[1] - down[2] - off) * Q // lacks))
            if exceeds:
                worst.exceeds = max(worst.exceeds, share_of_scale((off - up[2] + down[1]) * Q // exceeds))
    return worst


def check_files(rng, count, program):
    cases = [(program, *random_file(rng), rng.choice([1, 1, 2, 5])) for _ in range(count)]
    worst = Worst("forces")
    with ThreadPoolExecutor(os.cpu_count()) as pool:
        for one in pool.map(check_file, cases):
            worst.seen += one.seen
            worst.wrong += one.wrong
            worst.lacks, worst.exceeds = max(worst.lacks, one.lacks), max(worst.exceeds, one.exceeds)
    return worst


def main():
    parser = argparse.ArgumentParser()
    parser.add_argument("--program")
    parser.add_argument("--try", dest="unproved", action="store_true")
    parser.add_argument("--pulls", type=int, default=10_000)
    parser.add_argument("--files", type=int, default=200)
    parser.add_argument("--seed", type=int, default=1)
    options, _ = parser.parse_known_args()
    begin = time.monotonic()
    rng = random.Random(options.seed)
    found = [check_pulls(rng, options.pulls)]
    if not options.unproved:
        program = os.path.abspath(options.program) if options.program else built_program()
        found.append(check_files(rng, options.files, program))
    for worst in found:
        worst.tell()
    print(f"tools/check_bounds: {time.monotonic() - begin:.0f} seconds")
    return 1 if any(worst.wrong for worst in found) else 0


if __name__ == "__main__":
    sys.exit(main())
