"""The keys of bodies and cells (docs/MODEL.md): 1, and then one octal digit for each level."""

from functools import cache

LEVELS = 21
FINE_BITS = 29


@cache
def key_of(place):
    x, y, z = place
    key = 1
    for level in range(1, LEVELS + 1):
        bit = FINE_BITS - level
        key = 8 * key + 4 * (x >> bit & 1) + 2 * (y >> bit & 1) + (z >> bit & 1)
    return key


def level_of(cell):
    return (cell.bit_length() - 1) // 3


def contains(cell, key):
    return key >> 3 * (LEVELS - level_of(cell)) == cell


@cache
def cells_of(key):
    """The cells that contain a body of this key, one on each level."""
    return [key >> 3 * (LEVELS - level) for level in range(LEVELS + 1)]
