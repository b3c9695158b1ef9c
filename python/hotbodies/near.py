"""Neighbours within a radius: from arrays to lists of indices, by the program's `near`."""

from dataclasses import dataclass
from numbers import Integral

import numpy as np

from .bodies import body_bytes
from .checks import as_vectors
from .header import FormatError
from .limits import FINE_BITS, MAX_LEAF, MAX_RADIUS, MAX_RANKS
from .run import _number, file_words, run_program
from .scale import Scale

FIRST, LAST = b"# hot near 1\n", b"# end %d\n"
BLOCK = 1 << 20  # pairs whose distances are computed at once
LEAST_EXTENT, MOST_EXTENT = 1e-140, 1e300  # between them no unit, and no square of a distance in units, is lost
ROUNDED = 3  # units by which the radius grows at most: a distance is off by less than sqrt(3), and the radius by 1


@dataclass(frozen=True)
class Neighbours:
    """Lists of neighbours, one after the other: those of body k are `indices[offsets[k] : offsets[k + 1]]`.

    Attributes:
        offsets: int64 of shape (N + 1,), from 0 up to the number of all entries.
        indices: int64, the rows of the neighbours, counted from 0 and ascending in each list.
    """

    offsets: np.ndarray
    indices: np.ndarray

    def of(self, k):
        """The rows of the neighbours of body k, ascending."""
        return self.indices[self.offsets[k] : self.offsets[k + 1]]


def read_neighbours(data):
    """The lists of neighbours in what `hot near` gives out, without the idents.

    Args:
        data: the bytes of its output.

    Returns:
        Neighbours: in the order of the file, or of the files.

    Raises:
        FormatError: a ValueError: it is no such text.
    """
    begin = data.rfind(b"\n", 0, len(data) - 1) + 1
    lines = data[len(FIRST) : begin]
    count = lines.count(b"\n")
    if not data.startswith(FIRST) or begin < len(FIRST) or data[begin:] != LAST % count:
        raise FormatError("no neighbours: the first and the last line are not those of `hot near`")
    offsets, lists = np.zeros(count + 1, dtype=np.int64), [np.zeros(0, dtype=np.int64)]
    for k, line in enumerate(lines.splitlines()):
        words = line.split()
        if len(words) < 2 or not all(word.isdigit() for word in words[1:]) or int(words[1]) != len(words) - 2:
            raise FormatError(f"no neighbours: line {k + 2} is no ident and no list")
        lists.append(np.array(words[2:], dtype=np.int64))
        offsets[k + 1] = offsets[k] + len(words) - 2
    indices = np.concatenate(lists)
    if (indices >= count).any():
        raise FormatError(f"no neighbours: a row is not below {count}")
    return Neighbours(offsets, indices)


def file_neighbours(data, radius, leaf=8, ranks=1, program=None, *, more=()):
    """The neighbours of the bodies of a body file, or of several files: exact, in the program's whole numbers.

    Args:
        data: the bytes of the file, or a list of the paths of 1 to 16 files with one cube, whose bodies are taken together.
        radius: in fine units, a whole number from 0 to 2^30; a body at the radius is a neighbour.
        leaf: the bodies up to which a cell is not parted, 1 to 64.
        ranks: the ranks over which the work is split, 1 to 64; they do not change the answer.
        program: as `find_program`.
        more: further words for the program.

    Returns:
        Neighbours: in the order of the file, or of the files.

    Raises:
        ValueError: an option is out of its range, or the number of files.
        ProgramError: the program refused a file or failed; it has the number of the file.
        ProgramMissing: there is no program.
    """
    if isinstance(radius, bool) or not isinstance(radius, Integral) or not 0 <= radius <= MAX_RADIUS:
        raise ValueError(f"radius is {radius}: a whole number from 0 to {MAX_RADIUS} is wanted")
    words = ["near", "--radius", radius, "--leaf", _number("leaf", leaf, MAX_LEAF)]
    words += ["--ranks", _number("ranks", ranks, MAX_RANKS), *more]
    if isinstance(data, (list, tuple)):
        return read_neighbours(run_program([*words, *file_words(data)], program=program))
    return read_neighbours(run_program(words, data, program))


def _unit(extent):
    """The least power of two of which a box of this extent is less than 2^29 wide; 1 where the box is a point."""
    return 2.0 ** np.ceil(np.log2(extent / (2**FINE_BITS - 2))) if extent else 1.0


def _within(found, positions, radius):
    """The lists without the neighbours whose squared distance is above that of the radius."""
    bodies = np.repeat(np.arange(len(positions)), np.diff(found.offsets))
    good = np.zeros(len(bodies), dtype=bool)
    for at in range(0, len(bodies), BLOCK):
        part = slice(at, at + BLOCK)
        apart = positions[bodies[part]] - positions[found.indices[part]]
        good[part] = (apart * apart).sum(axis=1) <= radius * radius
    counts = np.bincount(bodies[good], minlength=len(positions))
    return Neighbours(np.concatenate(([0], np.cumsum(counts))).astype(np.int64), found.indices[good])


def neighbours(positions, radius, ranks=1, program=None, *, leaf=8):
    """The other bodies within a radius of each body, found by the tree of the proved program `hot`.

    The program searches with places on a grid across the box of the bodies, 2^28 - 1 to 2^29 steps wide, and a radius that
    is up to 3 steps longer, so that no pair within the radius is missed: a place is off by at most half a step on each
    axis, so a distance by less than 1.74 steps. Of what it finds the pairs p, q stay for which `((p - q) ** 2).sum()`, in
    float64, is at most `radius * radius`. So the answer is that of a comparison of all pairs by their squared distances,
    where no square is too small or too large for float64.

    Args:
        positions: numbers of shape (N, 3), in any unit.
        radius: a number of 0 or more, in the unit of the positions. A body whose squared distance is that of the radius
            is a neighbour, and with 0 those at the same place are.
        ranks: the ranks over which the work is split, 1 to 64; they do not change the answer.
        program: the path of the program; without one as `find_program`.
        leaf: the bodies up to which a cell is not parted, 1 to 64.

    Returns:
        Neighbours: `offsets` and `indices`; the neighbours of body k are `indices[offsets[k] : offsets[k + 1]]`.

    Raises:
        ValueError: an array has another shape, an element is not finite, the radius or an option is out of its range, or
            the bodies are all within 1e-140 of each other and not at one place, or some farther apart than 1e300.
        ProgramError: the program refused the bodies (more than 1,048,576 are `H13`) or failed; it has the program's line.
        ProgramMissing: there is no program.
    """
    positions, radius = as_vectors("positions", positions), float(radius)
    if not (np.isfinite(radius) and radius >= 0):
        raise ValueError(f"radius is {radius}: a number of 0 or more is wanted")
    if len(positions) == 0:
        return Neighbours(np.zeros(1, dtype=np.int64), np.zeros(0, dtype=np.int64))
    with np.errstate(over="ignore"):
        shifted = positions - positions.min(axis=0)
        extent = float(shifted.max())
    if extent and not LEAST_EXTENT <= extent <= MOST_EXTENT:
        raise ValueError(f"positions are {extent} apart: {LEAST_EXTENT} to {MOST_EXTENT} is wanted, or 0")
    unit = _unit(extent)
    data, _ = body_bytes(shifted, 1.0, scale=Scale(unit, 1.0, (0, 0, 0), FINE_BITS))
    wanted = int(min(radius / unit, MAX_RADIUS - ROUNDED)) + ROUNDED
    found = file_neighbours(data, wanted, leaf, ranks, program)
    return _within(found, positions / unit, min(radius / unit, float(MAX_RADIUS)))
