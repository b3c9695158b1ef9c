"""The scale between physical units and the whole numbers of `hot`, and how a good one is chosen.

A scale is the length of one unit of a coordinate and the mass of one unit of a mass. Two losses pull it in opposite
directions. A coordinate is rounded to a whole number, so a pull from a distance of r units is off by about 1/r of itself:
that wants many units to the box. And each component of a pull is cut to a whole number of acceleration units, which are
2^-40 of mass over squared distance: that wants few units to the box, and heavy masses. Per body the losses are b * u and
a / u^2, with u the length of a unit, so there is one best length; `choose_scale` estimates a and b from the bodies.
"""

from dataclasses import dataclass

import numpy as np

from .limits import ACCELERATION_BITS, FINE_BITS, MAX_ALL_MASS, MAX_SOFTENING

TARGETS, SOURCES = 48, 32_768  # bodies at which the losses are estimated, and bodies whose pulls are summed there
SHARE = 0.9  # the share of the targets whose loss is made least
HEAVIEST = 2**31  # units of the heaviest mass, a power of two within the limit of one body
ROOM = 2**FINE_BITS - 4  # units that the bodies may be apart on an axis
FARTHEST = 2.0**62  # units that a coordinate may be from 0, so that it fits 64 bits


class LossError(ValueError):
    """Whole numbers would lose more of the bodies than the stated share."""


@dataclass(frozen=True)
class Scale:
    """What the whole numbers of a body file mean: `position = length * x` and `mass = mass * m`.

    Attributes:
        length: of one unit of the columns x, y, z, in the unit of the positions.
        mass: of one unit of the column mass, in the unit of the masses.
        corner: the least x, y, z inside the cube, whole numbers.
        bits: the cube is 2^bits units wide, 1 to 29.
    """

    length: float = 1.0
    mass: float = 1.0
    corner: tuple = (0, 0, 0)
    bits: int = FINE_BITS

    @property
    def fine(self):
        """The length of a fine unit, of which the cube is 2^29 wide; softenings are counted in it."""
        return self.length * 2.0 ** (self.bits - FINE_BITS)

    def acceleration(self, G=1.0):
        """One unit of a printed acceleration, in G times the unit of mass over the squared unit of length."""
        return G * self.mass / self.fine**2 * 2.0**-ACCELERATION_BITS

    def softening(self, eps):
        """A softening in fine units: the nearest whole number from 1 to 2^28.

        Args:
            eps: the softening in the unit of the positions, 0 or more; 0 gives 1, the least that the program has.

        Raises:
            ValueError: it is no such number, or above 2^28 fine units.
        """
        if not (np.isfinite(eps) and eps >= 0):
            raise ValueError(f"eps is {eps}: a softening of 0 or more is wanted")
        units = max(1, round(eps / self.fine))
        if units > MAX_SOFTENING:
            raise ValueError(f"eps is {eps}: at this scale a softening is at most {MAX_SOFTENING * self.fine}")
        return units


@dataclass(frozen=True)
class Losses:
    """Estimated losses at some bodies, each as a share of the sizes of all pulls on the body.

    Attributes:
        rows: the bodies, by their rows; shape (K,).
        cutting: what the cutting of pulls loses, times the squared length of a unit; shape (K,).
        rounding: what the rounding of positions loses, over the length of a unit; shape (K,).
    """

    rows: np.ndarray
    cutting: np.ndarray
    rounding: np.ndarray

    def at(self, length):
        """The loss at each of the bodies with units of this length; shape (K,)."""
        return self.cutting / length**2 + self.rounding * length


def mass_unit(masses):
    """A unit with which each mass fits the program's limit of one body, and all of them that of their sum.

    It is the heaviest mass over 2^31, or that times the least power of two that fits; so equal masses are exact.

    Args:
        masses: float64 of shape (N,), each above 0.
    """
    if len(masses) == 0:
        return 1.0
    unit = float(masses.max()) / HEAVIEST
    while float(np.rint(masses / unit).sum()) > MAX_ALL_MASS:
        unit *= 2
    return unit


def estimate_losses(positions, masses, eps=0.0):
    """The losses that whole numbers bring, at bodies spread evenly over the rows, from direct sums over a part of all.

    A component of a pull loses half a unit on average, toward 0, so the losses of bodies on one side add up. Positions
    are off by up to half a unit at either end, which changes a pull of size m / r^2 by m / r^3 in the root mean square.

    Args:
        positions: float64 of shape (N, 3).
        masses: float64 of shape (N,), each above 0.
        eps: the softening in the unit of the positions.

    Returns:
        Losses: at up to `TARGETS` of the bodies, those that another body pulls.
    """
    count = len(positions)
    rows = np.unique(np.linspace(0, count - 1, min(TARGETS, count)).astype(np.int64))
    parts = np.unique(np.linspace(0, count - 1, min(SOURCES, count)).astype(np.int64))
    places, weights, share = positions[parts], masses[parts], count / max(1, len(parts))
    kept, cutting, rounding = [], [], []
    for row in rows:
        gap = places - positions[row]
        apart = (gap * gap).sum(axis=1)
        pulls = parts[apart > 0].size
        if not pulls:
            continue
        soft = np.where(apart > 0, apart + eps * eps, np.inf)
        steep = weights / (soft * np.sqrt(soft))  # of a pull over its distance
        sizes = (steep * np.sqrt(apart)).sum()
        lost = 0.5 * np.abs(np.sign(gap).sum(axis=0)) + np.sqrt(pulls / 12 / share)
        kept.append(row)
        cutting.append(np.sqrt((lost * lost).sum()) / sizes)
        rounding.append(np.sqrt((steep * steep).sum()) / sizes)
    unit = mass_unit(masses) * 2.0**-ACCELERATION_BITS
    return Losses(np.array(kept, dtype=np.int64), unit * np.array(cutting), np.array(rounding))


def _candidates(least, most, eps):
    """Lengths from least to most to choose from: parts of the softening, so that it is whole, else powers of two."""
    if eps > 0:
        steps = np.exp2(np.arange(0, 28.01, 0.125))
        lengths = eps / np.unique(np.rint(steps))
    else:
        lengths = np.exp2(np.arange(np.floor(np.log2(least)), np.floor(np.log2(least)) + FINE_BITS))
    return lengths[(lengths >= least) & (lengths <= max(most, least))]


def _corner(wholes):
    """The corner of a cube for coordinates of shape (N, 3): they begin in its middle where they fit in half of it.

    So cells of the tree fit the box of the bodies, and there is room on all sides.
    """
    if len(wholes) == 0:
        return (0, 0, 0)
    low, high = wholes.min(axis=0), wholes.max(axis=0)
    half = 2 ** (FINE_BITS - 1)
    return tuple(int(a) - (half if b - a < half else 0) for a, b in zip(low, high))


def whole_positions(positions, length):
    """The positions in whole units of a length, int64 of shape (N, 3)."""
    return np.rint(positions / length).astype(np.int64)


def choose_scale(positions, masses, eps=0.0, loss=0.01):
    """The scale with which whole numbers lose least of the bodies' pulls on each other.

    The mass unit is the least that fits. The length of a unit is the one at which nine in ten bodies lose least, by
    `estimate_losses`. It is a whole part of the softening where there is one, so that the softening is exact, and else a
    power of two.

    Args:
        positions: float64 of shape (N, 3), finite.
        masses: float64 of shape (N,), each above 0.
        eps: the softening that will be used, in the unit of the positions; 0 for none.
        loss: the largest share of a mass, and by the estimate of the pull on a body, that may be lost.

    Returns:
        Scale: with 29 bits, and all bodies inside its cube.

    Raises:
        LossError: a mass, or the pull on a body, would lose more than `loss`; the row is named.
        ValueError: the bodies lie too far from 0 for how close they are, or no unit fits the softening and the cube.
    """
    unit = mass_unit(masses)
    _check_masses(masses, unit, loss)
    extent = float(np.ptp(positions, axis=0).max()) if len(positions) else 0.0
    if extent == 0:
        farthest = float(np.abs(positions).max(initial=0.0))
        length = float(2.0 ** (np.ceil(np.log2(farthest)) - FINE_BITS)) if farthest else 1.0
        length = eps / max(1, round(eps / length)) if eps > 0 else length
        return Scale(length, unit, _corner(whole_positions(positions, length)))
    least = max(extent / ROOM, eps / MAX_SOFTENING)
    lengths = _candidates(least, extent, eps)
    if len(lengths) == 0:
        raise ValueError(f"eps is {eps}: with positions {extent} apart a softening is at least {least}")
    losses = estimate_losses(positions, masses, eps)
    bests = [float(np.quantile(losses.at(length), SHARE)) for length in lengths]
    length = float(lengths[int(np.argmin(bests))])
    if min(bests) > loss:
        row = losses.rows[int(np.argmax(losses.at(length)))]
        raise LossError(
            f"positions[{row}]: whole numbers would lose about {100 * min(bests):.2g} % of the pulls on such bodies,"
            f" and at most {100 * loss:g} % may be lost"
        )
    if float(np.abs(positions).max()) / length > FARTHEST:
        raise ValueError(f"positions are too far from 0 for how close they are: up to 2^62 units of {length}")
    return Scale(length, unit, _corner(whole_positions(positions, length)))


def _check_masses(masses, unit, loss):
    """Refuses masses of which rounding loses more than a share."""
    if len(masses):
        lost = np.abs(np.rint(masses / unit) * unit / masses - 1)
        row = int(np.argmax(lost))
        if lost[row] > loss:
            raise LossError(
                f"masses[{row}] is {masses[row]}: beside the heaviest, {masses.max()}, rounding would lose"
                f" {100 * lost[row]:.2g} % of it, and at most {100 * loss:g} % may be lost"
            )
