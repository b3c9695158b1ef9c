"""The neighbours of each body within a radius, by a filter over the whole list, and the cells that it opens
(docs/MODEL.md), by a filter over the cells with bodies."""

from collections import defaultdict
from functools import cache

from reference.keys import FINE_BITS, LEVELS, cells_of, key_of, level_of


def is_neighbour(bodies, row, other, radius):
    """Whether another row is within the radius of a row."""
    gaps = (a - b for a, b in zip(bodies[row].place, bodies[other].place))
    return other != row and sum(gap * gap for gap in gaps) <= radius * radius


@cache
def box_of(cell):
    """The least and the greatest coordinate of a cell on each axis."""
    level = level_of(cell)
    least = [0, 0, 0]
    for up in range(level):
        digit = cell >> 3 * up & 7
        for axis in range(3):
            least[axis] |= (digit >> 2 - axis & 1) << FINE_BITS - level + up
    return [(low, low + 2 ** (FINE_BITS - level) - 1) for low in least]


def is_opened(place, cell, radius):
    """Whether the box of a cell comes within the radius of a place."""
    gaps = (max(low - p, p - high, 0) for p, (low, high) in zip(place, box_of(cell)))
    return sum(gap * gap for gap in gaps) <= radius * radius


def rows_of_cells(bodies):
    """The rows in each cell that has bodies."""
    inside = defaultdict(list)
    for row, b in enumerate(bodies):
        for cell in cells_of(key_of(b.place)):
            inside[cell].append(row)
    return inside


def near_results(bodies, radius, leaf):
    """The rows of the neighbours of each body and the cells that it opens, in the order of the list."""
    inside, rows, results = rows_of_cells(bodies), range(len(bodies)), []
    parted = {cell for cell in inside if len(inside[cell]) > leaf and level_of(cell) < LEVELS}
    met = [cell for cell in inside if cell == 1 or cell >> 3 in parted]  # all that a walk may meet
    opened = {place: {cell for cell in met if is_opened(place, cell, radius)} for place in {b.place for b in bodies}}
    for row, b in enumerate(bodies):
        near = [other for other in rows if is_neighbour(bodies, row, other, radius)]
        told = {other for cell in opened[b.place] - parted for other in inside[cell]}
        assert told.issuperset(near), "a cell that is not opened has a neighbour"
        results.append((near, opened[b.place]))
    return results


def near_text(bodies, results):
    lines = ["# hot near 1"]
    lines += [" ".join(map(str, (b.ident, len(rows), *rows))) for b, (rows, _) in zip(bodies, results)]
    return "".join(f"{line}\n" for line in [*lines, f"# end {len(bodies)}"])
