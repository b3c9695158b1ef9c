"""The force of gravity on each body, and the cells that it opens, by one recursive walk (docs/MODEL.md), in plain whole
numbers."""

import math
import struct

from reference.keys import FINE_BITS, LEVELS, contains, key_of, level_of

AXES = range(3)


SDF_HEAD = """# SDF
parameter byteorder = 0x78563412;
struct {{
  int64_t ident_hi;
  uint64_t ident_lo;
  int64_t ax_hi;
  uint64_t ax_lo;
  int64_t ay_hi;
  uint64_t ay_lo;
  int64_t az_hi;
  uint64_t az_lo;
}}[{count}];
# SDF-EOH
"""


def pull(p, c, mass, eps):
    gap = [ci - pi for pi, ci in zip(p, c)]
    r2 = sum(g * g for g in gap) + eps * eps
    s = math.isqrt(r2 << 20)
    sizes = [(mass * abs(g) << 50) // (r2 * s) for g in gap]
    return [size if g >= 0 else -size for g, size in zip(gap, sizes)]


def without_fraction(a, by):
    return a // by if a >= 0 else -(-a // by)


def spread_of(pairs, mass, centre):
    """The sums of mass times two offsets from the centre, as a table, by the sums about the corner of the cube."""
    first = [sum(b.mass * b.place[i] for _, b in pairs) for i in AXES]
    second = [[sum(b.mass * b.place[i] * b.place[j] for _, b in pairs) for j in AXES] for i in AXES]
    return [
        [
            second[i][j] - centre[i] * first[j] - centre[j] * first[i] + mass * centre[i] * centre[j]
            for j in AXES
        ]
        for i in AXES
    ]


def quadrupole_pull(p, cell, centre, spread, eps):
    """The pull of a cell's second moments: 0 unless its centre is farther off than its side."""
    gap = [ci - pi for pi, ci in zip(p, centre)]
    distance2 = sum(g * g for g in gap)
    side = 1 << FINE_BITS - level_of(cell)
    if distance2 <= side * side:
        return [0, 0, 0]
    r2 = distance2 + eps * eps
    heading = [without_fraction(g << 30, math.isqrt(r2 << 20)) for g in gap]
    trace = sum(spread[i][i] for i in AXES)
    traceless = [[3 * spread[i][j] - (trace if i == j else 0) for j in AXES] for i in AXES]
    scaled = [[without_fraction(number << 20, r2) for number in row] for row in traceless]
    turned = [sum(number * n for number, n in zip(row, heading)) for row in scaled]
    part = without_fraction(sum(t * n for t, n in zip(turned, heading)), 1 << 20)
    return [without_fraction(without_fraction(5 * part * n, 1 << 21) - t, r2) for t, n in zip(turned, heading)]


def accepts(key, p, cell, centre, ratio):
    if contains(cell, key):
        return False
    side = 1 << FINE_BITS - level_of(cell)
    distance2 = sum((ci - pi) ** 2 for pi, ci in zip(p, centre))
    num, den = ratio
    return side * side * den * den < num * num * distance2


def add(a, b):
    return [i + j for i, j in zip(a, b)]


class Walk:
    """The recursion over one list of bodies. Each cell is filtered out of its parent once."""

    def __init__(self, bodies, eps, ratio, leaf, moments):
        self.keyed = [(key_of(b.place), b) for b in bodies]
        self.eps, self.ratio, self.leaf, self.moments = eps, ratio, leaf, moments
        self.cells = {}
        self.spreads = {}
        self.walked = {}  # of each place: the force there, and the set of opened cells

    def inside(self, cell):
        """The bodies of a cell, its mass and its centre."""
        if cell not in self.cells:
            within = self.keyed if cell == 1 else self.inside(cell >> 3)[0]
            pairs = [pair for pair in within if contains(cell, pair[0])]
            mass = sum(b.mass for _, b in pairs)
            centre = [sum(b.mass * b.place[i] for _, b in pairs) // mass for i in range(3)] if pairs else None
            self.cells[cell] = pairs, mass, centre
        return self.cells[cell]

    def spread(self, cell):
        """The second sums of a cell about its centre."""
        if cell not in self.spreads:
            self.spreads[cell] = spread_of(*self.inside(cell))
        return self.spreads[cell]

    def far(self, p, cell, mass, centre):
        """The pull of a cell as one source."""
        first = pull(p, centre, mass, self.eps)
        if self.moments == 1:
            return first
        return add(first, quadrupole_pull(p, cell, centre, self.spread(cell), self.eps))

    def is_leaf(self, cell):
        return len(self.inside(cell)[0]) <= self.leaf or level_of(cell) == LEVELS

    def force(self, key, p, opened, cell=1):
        """The force on the body at `p` from a cell; what it opens there goes to `opened`."""
        pairs, mass, centre = self.inside(cell)
        if not pairs:
            return [0, 0, 0]
        if accepts(key, p, cell, centre, self.ratio):
            return self.far(p, cell, mass, centre)
        opened.add(cell)
        total = [0, 0, 0]
        if self.is_leaf(cell):
            for _, b in pairs:
                total = add(total, pull(p, b.place, b.mass, self.eps))
            return total
        for digit in range(8):
            total = add(total, self.force(key, p, opened, 8 * cell + digit))
        return total

    def results(self):
        """The force on each body and the cells that it opens, in the order of the list."""
        for key, b in self.keyed:
            if b.place not in self.walked:
                opened = set()
                self.walked[b.place] = self.force(key, b.place, opened), opened
        return [self.walked[b.place] for _, b in self.keyed]


def forces_text(bodies, results):
    lines = ["# hot forces 1"]
    lines += [f"{b.ident} {ax} {ay} {az}" for b, ((ax, ay, az), _) in zip(bodies, results)]
    lines.append(f"# end {len(bodies)}")
    return "\n".join(lines) + "\n"


def forces_sdf(bodies, results):
    """The same as a file: each value in two halves, of which the low one is never below 0."""
    values = [value for b, (force, _) in zip(bodies, results) for value in (b.ident, *force)]
    halves = [half for value in values for half in divmod(value, 2**64)]
    return SDF_HEAD.format(count=len(bodies)).encode() + struct.pack("<" + "qQ" * len(values), *halves)
