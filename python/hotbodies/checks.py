"""Tests of what a caller hands in. Each refusal is a ValueError that names the array and the place."""

import numpy as np

from .limits import MAX_IDENT, MAX_WORK, MIN_IDENT


def all_good(name, array, good, wanted):
    """Refuses an array at its first element that is not good.

    Args:
        name: the array's name in the refusal.
        array: any array.
        good: booleans of the same shape.
        wanted: what an element has to be, in words.

    Raises:
        ValueError: an element is not good; its index and value are named.
    """
    if not good.all():
        place = np.unravel_index(int(np.argmin(good)), good.shape)
        index = ", ".join(str(int(i)) for i in place)
        raise ValueError(f"{name}[{index}] is {array[place]}: {wanted}")


def as_floats(name, values):
    """The values as an array of float64, all of them finite.

    Raises:
        ValueError: they are no numbers, or one is NaN or infinite.
    """
    try:
        array = np.asarray(values, dtype=np.float64)
    except (TypeError, ValueError):
        raise ValueError(f"{name} are no numbers") from None
    all_good(name, array, np.isfinite(array), "a finite number is wanted")
    return array


def as_vectors(name, values, count=None):
    """The values as float64 of shape (N, 3), with N = count where that is given.

    Raises:
        ValueError: as `as_floats`, or the shape is another.
    """
    array = as_floats(name, values)
    wanted = "(N, 3)" if count is None else f"({count}, 3)"
    if array.size == 0 and not count and array.ndim <= 2:
        return array.reshape(0, 3)
    if array.ndim != 2 or array.shape[1] != 3 or count not in (None, len(array)):
        raise ValueError(f"{name} have the shape {array.shape}, and {wanted} is wanted")
    return array


def as_masses(values, count):
    """The masses as float64 of shape (count,); one number stands for all.

    Raises:
        ValueError: as `as_floats`, the shape is another, or a mass is 0 or less.
    """
    array = as_floats("masses", values)
    if array.ndim == 0:
        array = np.full(count, float(array))
    if array.shape != (count,):
        raise ValueError(f"masses have the shape {array.shape}, and ({count},) is wanted, as of the positions")
    all_good("masses", array, array > 0, "a mass is above 0")
    return array


def as_whole(name, values, count, least, most):
    """The values as whole numbers of shape (count,), int64 where they fit, else uint64.

    Raises:
        ValueError: they are no whole numbers, the shape is another, one is not in least..most, or some are below 0 and
            others above 2^63 - 1, which no column holds.
    """
    array = np.asarray(values)
    if array.shape != (count,):
        raise ValueError(f"{name} have the shape {array.shape}, and ({count},) is wanted, as of the positions")
    if count == 0:
        return np.zeros(0, dtype=np.int64)
    if array.dtype.kind not in "iu":
        whole = [isinstance(v, int) or (isinstance(v, float) and v.is_integer()) for v in array.tolist()]
        all_good(name, array, np.array(whole), "a whole number is wanted")
        array = np.array([int(v) for v in array.tolist()], dtype=object)
    if int(array.min()) < least or int(array.max()) > most:
        exact = array.astype(object)
        all_good(name, exact, (exact >= least) & (exact <= most), f"a number from {least} to {most} is wanted")
    if int(array.max()) < 2**63:
        return array.astype(np.int64)
    if int(array.min()) < 0:
        raise ValueError(f"{name} are below 0 and above 2^63 - 1: no column holds both")
    return array.astype(np.uint64)


def as_idents(values, count):
    """Idents as `as_whole` gives them, from -2^63 to 2^64 - 1 and all in int64 or all in uint64."""
    return as_whole("idents", values, count, MIN_IDENT, MAX_IDENT)


def as_work(values, count):
    """Work weights as `as_whole` gives them, from 0 to 2^32 - 1."""
    return as_whole("work", values, count, 0, MAX_WORK)
