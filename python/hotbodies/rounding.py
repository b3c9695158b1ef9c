"""How far the rounding of pulls takes an acceleration at most: the bounds that are proved in crates/pull_bound.

With E for the exact size of one component of a pull in printed units, P for the size that whole numbers give, and s for
the integer root of 2^20 times the softened squared distance, E < P + 1 and P <= E * (s + 1) / s. So a pull is less than
one unit too small, or too large by E / s at most.
"""

from fractions import Fraction

import numpy as np

from .bodies import read_bodies
from .direct import PAIRS
from .limits import ACCELERATION_BITS, FINE_BITS

ROOT_BITS = 10  # s is 2^10 times the softened distance, rounded down
UP = 1 + 1e-9  # what floats lose in the sums below is far less


def _spots(data):
    """The places in fine units and the masses of a body file, float64 of shape (N, 3) and (N,), all whole and exact."""
    bodies = read_bodies(data)
    rows, corner = bodies.rows, bodies.scale.corner
    steps = 2 ** (FINE_BITS - bodies.scale.bits)
    axes = [(rows[axis].astype(object) - least) * steps for axis, least in zip("xyz", corner)]
    places = np.stack(axes, axis=1).astype(np.float64).reshape(len(rows), 3)
    return places, np.rint(bodies.masses / bodies.scale.mass)


def _of_pairs(gap, masses, eps):
    """For each body and axis, the bound of the sum over all pairs: gaps of shape (K, N, 3)."""
    soft = (gap * gap).sum(axis=2) + eps * eps
    root = np.sqrt(soft)
    share = masses * 2.0**ACCELERATION_BITS / (soft * root) / (2.0**ROOT_BITS * root - 1)  # of a pull over its distance
    all_shares, difference = (np.einsum("kn,kni->ki", share, it) for it in (np.abs(gap), gap))
    beyond, before = (gap > 0).sum(axis=1), (gap < 0).sum(axis=1)
    sides = beyond + (all_shares - difference) / 2, before + (all_shares + difference) / 2
    return np.maximum(*sides) + all_shares * (UP - 1)


def _of_cells(gap, masses, eps, theta):
    """The same where cells are taken whole at a ratio.

    There is at most one term for each other body. A body of such a cell is off its centre by less than sqrt(3) * theta
    of the centre's distance, so the centre is at least 1 / (1 + sqrt(3) * theta) as far as the body.
    """
    apart = (gap * gap).sum(axis=2)
    soft = apart / (1 + np.sqrt(3) * theta) ** 2 + eps * eps
    root = np.sqrt(soft)
    shares = masses * 2.0**ACCELERATION_BITS / soft / (2.0**ROOT_BITS * root - 1)
    bound = gap.shape[1] - 1 + np.where(apart > 0, shares, 0.0).sum(axis=1)
    return np.repeat(bound[:, None], 3, axis=1)


def rounding_bounds(data, softening, theta=0):
    """How far the rounding of pulls takes each component of the printed accelerations at most, in printed units.

    Args:
        data: the bytes of a body file.
        softening: in fine units, a whole number from 1 on.
        theta: the opening ratio. At 0 the bound is of the exact sum over all bodies as they stand in the file. At others
            it is of the rounding of pulls alone: the exact sum of the same terms, each a body or the mass of a cell at
            its whole centre. What such cells leave out, which is mostly far more, is not in it.

    Returns:
        ndarray: float64 of shape (N, 3), in the order of the file. The work is a square of N.
    """
    places, masses = _spots(data)
    eps, ratio = float(softening), float(Fraction(theta))
    found = np.zeros((len(places), 3))
    step = max(1, PAIRS // max(1, len(places)))
    for begin in range(0, len(places), step):
        gap = places[None, :, :] - places[begin : begin + step, None, :]
        part = _of_cells(gap, masses, eps, ratio) if ratio else _of_pairs(gap, masses, eps)
        found[begin : begin + step] = part
    return found * UP
