"""What `hot forces` gives out: the accelerations of bodies, exact and in physical units."""

from dataclasses import dataclass

import numpy as np

from .header import FormatError, bytes_of, read_rows
from .scale import Scale

FIRST, LAST = b"# hot forces 1\n", b"# end %d\n"
NUMBERS = ("ident", "ax", "ay", "az")


@dataclass(frozen=True)
class Forces:
    """The accelerations of bodies, in the order of their file.

    Attributes:
        idents: whole numbers of shape (N,): int64, uint64 or, where neither holds them, Python's.
        whole: Python's whole numbers, an object array of shape (N, 3): the exact answer, in units of 2^-40 of mass over
            squared fine distance.
        scale: what one unit of the body file's whole numbers is.
    """

    idents: np.ndarray
    whole: np.ndarray
    scale: Scale

    def accelerations(self, G=1.0):
        """The accelerations in physical units, float64 of shape (N, 3), each the nearest float to the exact one."""
        return self.whole.astype(np.float64) * self.scale.acceleration(G)


def _of_text(data):
    if not data.startswith(FIRST):
        raise FormatError("no forces: the first line is not '# hot forces 1'")
    begin = data.rfind(b"\n", 0, len(data) - 1) + 1
    lines = data[len(FIRST) : begin]
    count = lines.count(b"\n")
    if begin < len(FIRST) or data[begin:] != LAST % count:
        raise FormatError(f"no forces: the last line is not '# end {count}' behind {count} lines")
    try:
        numbers = [int(word) for word in lines.split()]
    except ValueError as error:
        raise FormatError(f"no forces: {error}") from None
    if len(numbers) != len(NUMBERS) * count:
        raise FormatError(f"no forces: {len(numbers)} numbers on {count} lines")
    return np.array(numbers, dtype=object).reshape(count, len(NUMBERS))


def _of_sdf(data):
    header, rows = read_rows(data)
    wanted = [(f"{name}_{half}", code) for name in NUMBERS for half, code in (("hi", "<i8"), ("lo", "<u8"))]
    if header.dtype != np.dtype(wanted) or header.rows is None:
        raise FormatError("no forces: the columns are not the high and low halves of ident, ax, ay and az")
    halves = [(rows[f"{name}_hi"].astype(object), rows[f"{name}_lo"].astype(object)) for name in NUMBERS]
    return np.stack([high * 2**64 + low for high, low in halves], axis=1)


def read_forces(source, scale=Scale()):
    """The accelerations in an output of `hot forces`, as text or, with `--form sdf`, as SDF.

    Args:
        source: a path, the bytes of the output, or an object with `read`.
        scale: of the body file, as `write_bodies` returns it and `read_bodies` reads it; without one the program's own
            units, a fine unit and a unit of mass.

    Returns:
        Forces: exact whole numbers, and by `accelerations` those in physical units.

    Raises:
        FormatError: a ValueError: it is no such output, or not all of it.
        OSError: the file cannot be read.
    """
    data = bytes_of(source)
    numbers = _of_sdf(data) if data.startswith(b"# SDF") else _of_text(data)
    idents = numbers[:, 0]
    for kind in (np.int64, np.uint64):
        limits = np.iinfo(kind)
        if all(limits.min <= int(ident) <= limits.max for ident in idents):
            idents = idents.astype(kind)
            break
    return Forces(idents, numbers[:, 1:], scale)
