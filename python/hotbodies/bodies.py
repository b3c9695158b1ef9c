"""Body files: written from arrays in physical units, and read back into them."""

import io
from dataclasses import dataclass

import numpy as np

from .checks import all_good, as_idents, as_masses, as_vectors, as_work
from .header import FormatError, header_text, read_rows
from .limits import FINE_BITS, MAX_ALL_MASS, MAX_BODY_MASS
from .scale import Scale, _check_masses, choose_scale, whole_positions

LENGTH, MASS = "hot_length", "hot_mass"  # the names of the scale in a header


@dataclass(frozen=True)
class Bodies:
    """The bodies of a file, in its order.

    Attributes:
        positions: float64 of shape (N, 3), in physical units.
        masses: float64 of shape (N,), in physical units.
        velocities: float64 of shape (N, 3) as the columns vx, vy, vz give them, or None where one of them is absent.
        idents: int64 or uint64 of shape (N,); the numbers of the rows where there is no such column.
        work: int64 or uint64 of shape (N,), or None where there is no such column.
        scale: what one unit of the whole numbers is.
        values: all named values of the header.
        rows: the rows as they stand in the file, a structured array of shape (N,).
    """

    positions: np.ndarray
    masses: np.ndarray
    velocities: "np.ndarray | None"
    idents: np.ndarray
    work: "np.ndarray | None"
    scale: Scale
    values: dict
    rows: np.ndarray


def _whole_masses(masses, scale, loss):
    """The masses in units of a scale, uint32 of shape (N,)."""
    _check_masses(masses, scale.mass, loss)
    whole = np.rint(masses / scale.mass)
    good = (whole >= 1) & (whole <= MAX_BODY_MASS)
    all_good("masses", masses, good, f"1 to {MAX_BODY_MASS} units of {scale.mass} are wanted")
    if float(whole.sum()) > MAX_ALL_MASS:
        raise ValueError(f"masses are together more than {MAX_ALL_MASS} units of {scale.mass}")
    return whole.astype(np.uint32)


def _whole_places(positions, scale):
    """The positions in units of a scale, int64 of shape (N, 3), all of them inside its cube."""
    whole = whole_positions(positions, scale.length)
    fine = whole - np.array(scale.corner, dtype=np.int64)
    all_good("positions", positions, (fine >= 0) & (fine < 2**scale.bits), "it is outside the cube of this scale")
    return whole


def _table(places, whole, velocities, idents, work):
    """The rows as a structured array, and their columns as pairs of a type and names."""
    narrow = len(places) == 0 or bool(np.abs(places).max() < 2**31)
    columns = [("int32_t" if narrow else "int64_t", "xyz"), ("uint32_t", ["mass"])]
    parts = [*places.T, whole]
    if idents is not None:
        columns.append(("int64_t" if idents.dtype == np.int64 else "uint64_t", ["ident"]))
        parts.append(idents)
    if work is not None:
        columns.append(("uint32_t", ["work"]))
        parts.append(work)
    if velocities is not None:
        columns.append(("double", ["vx", "vy", "vz"]))
        parts += [*velocities.T]
    codes = {"int32_t": "<i4", "int64_t": "<i8", "uint32_t": "<u4", "uint64_t": "<u8", "double": "<f8"}
    fields = [(name, codes[kind]) for kind, names in columns for name in names]
    rows = np.empty(len(places), dtype=fields)
    for (name, _), part in zip(fields, parts):
        rows[name] = part
    return rows, columns


def write_bodies(
    path, positions, masses, velocities=None, idents=None, work=None, *, eps=0.0, loss=0.01, scale=None, values=None
):
    """Writes a body file, at the scale at which whole numbers lose least (`choose_scale`).

    The scale stands in the header, as `hot_length` and `hot_mass`, which the program passes over and `read_bodies` uses.
    A file with more bodies than the program takes, 1,048,576, is written too.

    Args:
        path: the file's name, or an object with `write` that takes bytes.
        positions: numbers of shape (N, 3), in any unit.
        masses: numbers above 0, of shape (N,), in any unit; one number stands for all bodies.
        velocities: numbers of shape (N, 3), in any unit, or None. They are carried along as doubles; the program passes
            over them.
        idents: whole numbers of shape (N,), -2^63 to 2^63 - 1 or 0 to 2^64 - 1, or None for the row numbers.
        work: work weights, whole numbers from 0 to 2^32 - 1, of shape (N,), or None.
        eps: the softening that will be used, in the unit of the positions; the scale is chosen so that it is exact.
        loss: the largest share of a mass, or by an estimate of the pull on a body, that may be lost.
        scale: a Scale to use in place of the best one, so that several files have the same.
        values: more named values for the header (texts, whole numbers, floats), which the program passes over.

    Returns:
        Scale: the scale of the file.

    Raises:
        ValueError: an array has another shape, or an element that is NaN, infinite, out of its range or, for a mass, 0
            or less; array and place are named. Also bodies outside the cube of a given scale.
        LossError: a ValueError too: more than `loss` would be lost.
        OSError: the file cannot be written.
    """
    positions = as_vectors("positions", positions)
    count = len(positions)
    masses = as_masses(masses, count)
    velocities = None if velocities is None else as_vectors("velocities", velocities, count)
    idents = None if idents is None else as_idents(idents, count)
    work = None if work is None else as_work(work, count)
    scale = scale or choose_scale(positions, masses, eps, loss)
    rows, columns = _table(
        _whole_places(positions, scale), _whole_masses(masses, scale, loss), velocities, idents, work
    )
    named = {LENGTH: float(scale.length), MASS: float(scale.mass), "cube_bits": scale.bits}
    named |= {f"cube_{axis}0": corner for axis, corner in zip("xyz", scale.corner)}
    if twice := named.keys() & (values or {}).keys():
        raise ValueError(f"{min(twice)} is a name of the scale")
    head = header_text(named | (values or {}), columns, count)
    if hasattr(path, "write"):
        path.write(head + rows.tobytes())
    else:
        with open(path, "wb") as file:
            file.write(head)
            rows.tofile(file)
    return scale


def body_bytes(positions, masses, **options):
    """The bytes of a body file and its scale; arguments and errors are those of `write_bodies`."""
    file = io.BytesIO()
    scale = write_bodies(file, positions, masses, **options)
    return file.getvalue(), scale


def _value(values, name, default, kinds=(int,)):
    found = values.get(name, default)
    if not isinstance(found, kinds):
        raise FormatError(f"header: {name} is {found}")
    return found


def scale_of(values):
    """The scale that the named values of a header give: 1 and 1 where it has no `hot_length` and `hot_mass`.

    Raises:
        FormatError: one of them is no such number.
    """
    bits = _value(values, "cube_bits", 21)
    length, mass = (float(_value(values, name, 1.0, (int, float))) for name in (LENGTH, MASS))
    if not (1 <= bits <= FINE_BITS and 0 < length < np.inf and 0 < mass < np.inf):
        raise FormatError(f"header: no scale: {bits} bits, a length of {length}, a mass of {mass}")
    return Scale(length, mass, tuple(_value(values, f"cube_{axis}0", 0) for axis in "xyz"), bits)


def _plain(rows, name, kinds):
    """A column that is no array and of one of these kinds, in this machine's byte order; None where it is not there."""
    dtype = rows.dtype[name] if name in (rows.dtype.names or ()) else None
    if dtype is None or dtype.shape:
        return None
    if dtype.kind not in kinds:
        raise FormatError(f"column {name} is not whole")
    return rows[name].astype(dtype.newbyteorder("="))


def read_bodies(source):
    """The bodies of a body file, in physical units by the scale that its header gives, else in its own units.

    Every file of the program's profile is read: both byte orders, columns of all types, absent columns.

    Args:
        source: a path, the bytes of a file, or an object with `read`.

    Returns:
        Bodies: with positions that are `hot_length` times the coordinates, and masses that are `hot_mass` times those
        of the file.

    Raises:
        FormatError: a ValueError: it is no such file; the text says where and why.
        OSError: the file cannot be read.
    """
    header, rows = read_rows(source)
    scale = scale_of(header.values)
    places = [_plain(rows, axis, "iu") for axis in "xyz"]
    for axis, column in zip("xyz", places):
        if column is None:
            raise FormatError(f"column {axis} is missing")
    count = len(rows)
    masses, idents, work = (_plain(rows, name, "iu") for name in ("mass", "ident", "work"))
    if masses is None:
        masses = np.full(count, _value(header.values, "mass", 1))
    speeds = [_plain(rows, name, "iuf") for name in ("vx", "vy", "vz")]
    has_speeds = all(speed is not None for speed in speeds)
    return Bodies(
        positions=scale.length * np.stack([column.astype(np.float64) for column in places], axis=1),
        masses=scale.mass * masses.astype(np.float64),
        velocities=np.stack([speed.astype(np.float64) for speed in speeds], axis=1) if has_speeds else None,
        idents=np.arange(count) if idents is None else idents.astype(np.uint64 if idents.dtype == np.uint64 else np.int64),
        work=None if work is None else work.astype(np.int64),
        scale=scale,
        values=header.values,
        rows=rows,
    )
