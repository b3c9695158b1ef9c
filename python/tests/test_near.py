import unittest

import numpy as np

from hotbodies import FormatError, file_neighbours, neighbours, read_neighbours
from hotbodies.near import FIRST, Neighbours, _unit, _within

from . import with_program
from .test_run import TWO_BODIES


def all_pairs(positions, radius):
    """The neighbours by a comparison of all pairs."""
    apart = positions[:, None, :] - positions[None, :, :]
    near = (apart * apart).sum(axis=2) <= radius * radius
    np.fill_diagonal(near, False)
    return [list(np.flatnonzero(row)) for row in near]


def lists(found):
    return [list(found.of(k)) for k in range(len(found.offsets) - 1)]


class Texts(unittest.TestCase):
    def test_lists_of_a_text(self):
        found = read_neighbours(FIRST + b"7 2 1 2\n-8 0\n9 1 0\n# end 3\n")
        self.assertEqual(lists(found), [[1, 2], [], [0]])
        self.assertEqual(lists(read_neighbours(FIRST + b"# end 0\n")), [])

    def test_texts_that_are_none(self):
        for text in (b"", FIRST, b"# hot forces 1\n0 0\n# end 1\n"):
            with self.assertRaises(FormatError):
                read_neighbours(text)
        for lines in (b"0 1\n# end 1\n", b"0 0\n# end 2\n", b"0 0 3\n# end 1\n", b"0 0 x\n# end 1\n"):
            with self.assertRaises(FormatError):
                read_neighbours(FIRST + lines)
        for lines in (b"0 1 1.5\n# end 1\n", b"0 1 1 1 1\n0\n# end 2\n", b"0 1 1\n# end 1\n"):
            with self.assertRaises(FormatError):
                read_neighbours(FIRST + lines)


class Pairs(unittest.TestCase):
    def test_units(self):
        self.assertEqual(_unit(0.0), 1.0)
        for extent in (1e-140, 0.3, 1.0, 2.0**29 - 2, 1e300):
            self.assertLess(extent / _unit(extent), 2**29 - 1)
            self.assertGreaterEqual(extent / _unit(extent), 2**28 - 1)

    def test_pairs_beyond_the_radius_go(self):
        positions = np.array([[0.0, 0, 0], [1, 0, 0], [3, 0, 0]])
        found = Neighbours(np.array([0, 2, 3, 4]), np.array([1, 2, 0, 0]))
        self.assertEqual(lists(_within(found, positions, 1.0)), [[1], [0], []])


class Radii(unittest.TestCase):
    def test_refusals(self):
        for radius in (-1.0, np.nan, np.inf):
            with self.assertRaisesRegex(ValueError, "radius is"):
                neighbours([[0.0, 0.0, 0.0]], radius)
        for radius in (-1, 2**30 + 1, 1.0):
            with self.assertRaisesRegex(ValueError, "radius is"):
                file_neighbours(TWO_BODIES, radius)
        for far in (1.7e308, 1e-150):
            with self.assertRaisesRegex(ValueError, "apart"):
                neighbours([[-far, 0, 0], [far, 0, 0]], 1.0)

    def test_no_bodies(self):
        found = neighbours(np.zeros((0, 3)), 1.0)
        self.assertEqual((list(found.offsets), list(found.indices)), ([0], []))


@with_program
class Runs(unittest.TestCase):
    def test_a_file(self):
        self.assertEqual(lists(file_neighbours(TWO_BODIES, 1024)), [[1], [0]])
        self.assertEqual(lists(file_neighbours(TWO_BODIES, 1023)), [[], []])

    def test_all_pairs(self):
        rng = np.random.default_rng(1)
        for count, radius, spread in ((1, 1.0, 1.0), (2, 0.0, 0.0), (60, 0.2, 1.0), (200, 40.0, 100.0), (60, 1e9, 1.0)):
            positions = rng.normal(size=(count, 3)) * spread + 1000.0
            for ranks in (1, 3):
                found = neighbours(positions, radius, ranks)
                self.assertEqual(lists(found), all_pairs(positions, radius))

    def test_a_grid_has_pairs_at_the_radius(self):
        axis = np.arange(5.0)
        positions = np.stack(np.meshgrid(axis, axis, axis), axis=-1).reshape(-1, 3)
        for radius in (0.0, 1.0, 2.0**0.5, 3.0**0.5, 3.0):
            self.assertEqual(lists(neighbours(positions, radius)), all_pairs(positions, radius))

    def test_a_body_at_the_radius(self):
        for x in (0.6388858474772539, 1e-130, 1e200):
            self.assertEqual(lists(neighbours([[0, 0, 0], [x, 0, 0]], x)), [[1], [0]])
        self.assertEqual(lists(neighbours([[0, 0, 0], [3, 0, 0]], np.int64(2**32))), [[1], [0]])
