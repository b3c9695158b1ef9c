"""Accelerations by direct sums in NumPy, to compare with, and how errors are measured."""

from dataclasses import dataclass

import numpy as np

from .checks import as_masses, as_vectors

PAIRS = 2_000_000  # pairs that are summed at a time


def direct_accelerations(positions, masses, eps=0.0, G=1.0, rows=None):
    """The accelerations of bodies by the pulls of all pairs, in float64.

    Args:
        positions: numbers of shape (N, 3).
        masses: numbers above 0, of shape (N,); one number stands for all bodies.
        eps: the softening, in the unit of the positions.
        G: the gravitational constant.
        rows: the bodies for which it is wanted, whole numbers of shape (K,); without them all.

    Returns:
        ndarray: float64 of shape (K, 3). Bodies at one place do not pull each other.

    Raises:
        ValueError: an array has another shape, or an element out of its range.
    """
    positions = as_vectors("positions", positions)
    masses = as_masses(masses, len(positions))
    rows = np.arange(len(positions)) if rows is None else np.asarray(rows, dtype=np.int64)
    found = np.zeros((len(rows), 3))
    step = max(1, PAIRS // max(1, len(positions)))
    for begin in range(0, len(rows), step):
        part = rows[begin : begin + step]
        gap = positions[None, :, :] - positions[part][:, None, :]
        apart = (gap * gap).sum(axis=2)
        soft = np.where(apart > 0, apart + eps * eps, np.inf)
        found[begin : begin + step] = np.einsum("kn,kni->ki", masses / (soft * np.sqrt(soft)), gap)
    return G * found


def relative_errors(found, truth):
    """How far accelerations are from true ones, over the size of the true one.

    Args:
        found: of shape (N, 3).
        truth: of shape (N, 3).

    Returns:
        ndarray: float64 of shape (N,); where the true one is 0, 0 if the found one is 0 too, and else infinite.
    """
    off = np.linalg.norm(np.asarray(found) - truth, axis=1)
    size = np.linalg.norm(truth, axis=1)
    with np.errstate(divide="ignore", invalid="ignore"):
        return np.where(off == 0, 0.0, off / size)


@dataclass(frozen=True)
class Errors:
    """The relative errors of many bodies in three numbers: half of them, and 99 in 100, are at most the first two."""

    median: float
    most: float
    largest: float

    @staticmethod
    def of(errors):
        """The three numbers of relative errors of shape (N,); all 0 where there are none."""
        if len(errors) == 0:
            return Errors(0.0, 0.0, 0.0)
        low, high = np.quantile(errors, [0.5, 0.99], method="higher")
        return Errors(float(low), float(high), float(errors.max()))
