"""Bodies from and to the files of others: .npy, .npz, .csv, HDF5, GADGET's HDF5 layout, and body files (.sdf).

Each reader gives a Table and each writer takes one. HDF5 wants h5py; nothing else wants more than NumPy.
"""

import csv
import os
from dataclasses import dataclass

import numpy as np

from .bodies import read_bodies, write_bodies

# The columns of a table of numbers: .csv and structured .npy have them by name, a plain .npy by their number
PLACE, MASS, SPEED, IDENT, WORK = ("x", "y", "z"), "mass", ("vx", "vy", "vz"), "ident", "work"
GADGET_PARTS = 6  # kinds of particles in GADGET's files
SUFFIXES = (".sdf", ".npy", ".npz", ".csv", ".hdf5", ".h5")


class ConvertError(ValueError):
    """A file that holds no bodies as it is asked for; the text names the file and what is missing."""


@dataclass(frozen=True)
class Names:
    """The names of datasets, in .npz and HDF5 files."""

    positions: str = "positions"
    masses: str = "masses"
    velocities: str = "velocities"
    idents: str = "idents"
    work: str = "work"


@dataclass(frozen=True)
class Table:
    """Bodies as arrays, with what may be absent: positions (N, 3), masses (N,), velocities (N, 3), idents and work (N,)."""

    positions: np.ndarray
    masses: np.ndarray
    velocities: "np.ndarray | None" = None
    idents: "np.ndarray | None" = None
    work: "np.ndarray | None" = None

    def named(self, names):
        """The arrays that are there, by the names given for them."""
        pairs = ((name, getattr(self, part)) for part, name in vars(names).items())
        return {name: array for name, array in pairs if array is not None}


def _h5py():
    try:
        import h5py
    except ImportError:
        raise ConvertError("HDF5 files want h5py (Debian: python3-h5py), which is not there") from None
    return h5py


def _of_named(path, arrays, names):
    """A table from named arrays."""
    parts = {part: arrays[name][...] if name in arrays else None for part, name in vars(names).items()}
    for part in ("positions", "masses"):
        if parts[part] is None:
            there = ", ".join(sorted(arrays)) or "nothing"
            raise ConvertError(f"{path} has no {getattr(names, part)}, but {there}: name the dataset by --{part}")
    return Table(**parts)


def _of_columns(path, rows):
    """A table from a structured array with the columns x, y, z, mass and perhaps vx, vy, vz, ident, work."""
    there = rows.dtype.names
    for name in (*PLACE, MASS):
        if name not in there:
            raise ConvertError(f"{path} has no column {name}, but {', '.join(there)}")
    stack = lambda names: np.stack([rows[name] for name in names], axis=1)
    return Table(
        stack(PLACE),
        rows[MASS],
        stack(SPEED) if all(name in there for name in SPEED) else None,
        rows[IDENT] if IDENT in there else None,
        rows[WORK] if WORK in there else None,
    )


def _columns_of(table):
    """The structured array that `_of_columns` reads."""
    fields = [(name, "f8") for name in (*PLACE, MASS)]
    parts = [*np.asarray(table.positions).T, table.masses]
    if table.velocities is not None:
        fields += [(name, "f8") for name in SPEED]
        parts += [*np.asarray(table.velocities).T]
    for name, array in ((IDENT, table.idents), (WORK, table.work)):
        if array is not None:
            fields.append((name, "u8" if np.asarray(array).dtype == np.uint64 else "i8"))
            parts.append(array)
    rows = np.empty(len(table.positions), dtype=fields)
    for (name, _), part in zip(fields, parts):
        rows[name] = part
    return rows


def read_npy(path, _names):
    rows = np.load(path)
    if rows.dtype.names:
        return _of_columns(path, rows)
    if rows.ndim != 2 or rows.shape[1] not in (4, 7):
        raise ConvertError(f"{path} has the shape {rows.shape}: x y z mass, or these and vx vy vz, are wanted on a row")
    return Table(rows[:, :3], rows[:, 3], rows[:, 4:] if rows.shape[1] == 7 else None)


def write_npy(path, table, _names):
    np.save(path, _columns_of(table))


def read_npz(path, names):
    with np.load(path) as arrays:
        return _of_named(path, arrays, names)


def write_npz(path, table, names):
    np.savez(path, **table.named(names))


def read_csv(path, _names):
    with open(path, newline="", encoding="utf-8") as file:
        names = [name.strip() for name in next(csv.reader(file), [])]
        kinds = {IDENT: "i8", WORK: "i8"}
        dtype = [(name, kinds.get(name, "f8")) for name in names]
        try:
            rows = np.loadtxt(file, dtype=dtype, delimiter=",", ndmin=1) if names else np.zeros(0)
        except (ValueError, OverflowError) as error:
            raise ConvertError(f"{path}: {error}") from None
    if not names:
        raise ConvertError(f"{path} has no line of names")
    return _of_columns(path, rows)


def write_csv(path, table, _names):
    rows = _columns_of(table)
    kinds = ["%d" if rows.dtype[name].kind in "iu" else "%.17g" for name in rows.dtype.names]
    np.savetxt(path, rows, fmt=kinds, delimiter=",", header=",".join(rows.dtype.names), comments="")


def _gadget_part(group, mass, path):
    """The bodies of one kind of particle in GADGET's layout."""
    count = len(group["Coordinates"])
    if "Masses" not in group and not mass:
        raise ConvertError(f"{path}: {group.name} has no Masses, and its mass in Header/MassTable is 0")
    part = lambda name: group[name][...] if name in group else None
    masses = part("Masses") if "Masses" in group else np.full(count, mass)
    return Table(part("Coordinates"), masses, part("Velocities"), part("ParticleIDs"))


def _joined(parts):
    """Tables one behind the other; what one of them lacks, all lack."""
    lists = ([getattr(part, name) for part in parts] for name in Table.__dataclass_fields__)
    return Table(*(None if any(it is None for it in arrays) else np.concatenate(arrays) for arrays in lists))


def _read_gadget(path, file, kinds):
    header = file["Header"].attrs if "Header" in file else {}
    table = header.get("MassTable", np.zeros(GADGET_PARTS))
    there = [kind for kind in range(GADGET_PARTS) if f"PartType{kind}/Coordinates" in file]
    wanted = there if kinds is None else kinds
    for kind in wanted:
        if kind not in there:
            raise ConvertError(f"{path} has no PartType{kind}, but {', '.join(f'PartType{it}' for it in there)}")
    masses = [float(table[kind]) if kind < len(table) else 0.0 for kind in wanted]
    return _joined([_gadget_part(file[f"PartType{kind}"], mass, path) for kind, mass in zip(wanted, masses)])


def read_hdf5(path, names, kinds=None):
    """A table from an HDF5 file: of GADGET's layout where it has a group PartType0 to PartType5, else by names."""
    with _h5py().File(path, "r") as file:
        if any(f"PartType{kind}" in file for kind in range(GADGET_PARTS)):
            return _read_gadget(path, file, kinds)
        return _of_named(path, file, names)


def write_hdf5(path, table, names):
    with _h5py().File(path, "w") as file:
        for name, array in table.named(names).items():
            file[name] = array


def write_gadget(path, table, kind=1):
    """Writes bodies as one kind of particle in GADGET's HDF5 layout, with a Header for a lone snapshot file."""
    count = len(table.positions)
    counts = [count if it == kind else 0 for it in range(GADGET_PARTS)]
    with _h5py().File(path, "w") as file:
        header = file.create_group("Header").attrs
        header["NumPart_ThisFile"] = np.array(counts, dtype=np.int32)
        header["NumPart_Total"] = np.array(counts, dtype=np.uint32)
        header["NumPart_Total_HighWord"] = np.zeros(GADGET_PARTS, dtype=np.uint32)
        header["MassTable"] = np.zeros(GADGET_PARTS)
        header["NumFilesPerSnapshot"] = 1
        for name in ("Time", "Redshift", "BoxSize"):
            header[name] = 0.0
        part = file.create_group(f"PartType{kind}")
        part["Coordinates"], part["Masses"] = table.positions, table.masses
        part["Velocities"] = np.zeros((count, 3)) if table.velocities is None else table.velocities
        part["ParticleIDs"] = np.arange(count) if table.idents is None else table.idents


def read_sdf(path, _names):
    found = read_bodies(path)
    idents = found.idents if "ident" in found.rows.dtype.names else None
    return Table(found.positions, found.masses, found.velocities, idents, found.work)


READERS = {".npy": read_npy, ".npz": read_npz, ".csv": read_csv, ".sdf": read_sdf}
WRITERS = {".npy": write_npy, ".npz": write_npz, ".csv": write_csv, ".hdf5": write_hdf5, ".h5": write_hdf5}


def _suffix(path):
    suffix = os.path.splitext(path)[1].lower()
    if suffix not in SUFFIXES:
        raise ConvertError(f"{path}: its name ends with none of {' '.join(SUFFIXES)}")
    return suffix


def read_table(path, names=Names(), kinds=None):
    """The bodies of a file, by the ending of its name.

    Args:
        path: a file that ends with .sdf, .npy (rows x y z mass [vx vy vz], or named columns), .npz, .csv (a line of names
            first), .hdf5 or .h5.
        names: of the datasets, in .npz and HDF5 files.
        kinds: the PartTypes of GADGET's layout to take, whole numbers; without them all that are there.

    Returns:
        Table: the arrays as they stand in the file.

    Raises:
        ConvertError: a ValueError: the name's ending, a dataset, a column or h5py is missing.
        FormatError, OSError: the file is broken or not there.
    """
    suffix = _suffix(path)
    if suffix in (".hdf5", ".h5"):
        return read_hdf5(path, names, kinds)
    return READERS[suffix](path, names)


def write_table(path, table, names=Names(), *, eps=0.0, loss=0.01, gadget=False):
    """Writes bodies in the form that the ending of the name says.

    Args:
        path: the file, as in `read_table`.
        table: a Table.
        names: of the datasets, in .npz and HDF5 files.
        eps, loss: as in `write_bodies`, for body files.
        gadget: whether an HDF5 file gets GADGET's layout, all bodies as PartType1.

    Returns:
        Scale or None: the scale, of a body file.

    Raises:
        ConvertError: as `read_table`.
        ValueError: as `write_bodies`.
        OSError: the file cannot be written.
    """
    suffix = _suffix(path)
    if suffix == ".sdf":
        return write_bodies(path, **vars(table), eps=eps, loss=loss)
    if gadget:
        if suffix not in (".hdf5", ".h5"):
            raise ConvertError(f"{path}: GADGET's layout is one of .hdf5 files")
        return write_gadget(path, table)
    return WRITERS[suffix](path, table, names)
