"""The rows behind the headers: the bodies of a list of files, or the first fault."""

from dataclasses import dataclass

from reference.header import MAX_MASS, MAX_ROWS, Refused, layout
from reference.keys import FINE_BITS

MAX_WORK = 2**32 - 1
MAX_ALL_MASS = 2**40


@dataclass
class Body:
    place: tuple  # fine coordinates
    mass: int
    ident: int
    work: int  # the weight in the split over ranks


def number(row, column, most_first):
    cut = row[column.offset : column.offset + column.size]
    return int.from_bytes(cut, "big" if most_first else "little", signed=column.signed)


def body(form, k, row):
    """The body of the whole row `k`, or its first fault."""

    def value(name, default):
        return number(row, form.columns[name], form.most_first) if name in form.columns else default

    if k >= MAX_ROWS:
        raise Refused("B6 too many rows")
    place = []
    for axis, least in zip("xyz", form.corner):
        gap = value(axis, None) - least
        if not 0 <= gap < 2**form.bits:
            raise Refused(f"B3 row {k} outside the cube on {axis}")
        place.append(gap << FINE_BITS - form.bits)
    mass = value("mass", form.mass)
    if not 1 <= mass <= MAX_MASS:
        raise Refused(f"B4 row {k} mass out of range")
    work = value("work", 1)
    if not 0 <= work <= MAX_WORK:
        raise Refused(f"B5 row {k} work out of range")
    return Body(tuple(place), mass, value("ident", k), work)


class Bodies:
    """The bodies of the files so far, in their order."""

    def __init__(self):
        self.found = []
        self.cube = None  # of the first file
        self.mass = 0  # of all bodies

    def add_row(self, form, row):
        k = len(self.found)
        if len(row) < form.width:
            raise Refused(f"B1 row {k} is cut short")
        one = body(form, k, row)
        if self.mass + one.mass > MAX_ALL_MASS:
            raise Refused(f"B7 row {k} mass sum out of range")
        self.mass += one.mass
        self.found.append(one)

    def add_file(self, data):
        """Adds the bodies of the next file."""
        form = layout(data)
        self.cube = self.cube or form.cube()
        if form.cube() != self.cube:
            raise Refused("H14 cube differs")
        rest = len(data) - form.length
        rows = -(-rest // form.width) if form.count is None else form.count
        for k in range(rows):
            at = form.length + k * form.width
            self.add_row(form, data[at : at + form.width])
        if rows * form.width < rest:
            raise Refused("B2 bytes after the last row")
