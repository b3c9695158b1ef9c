import math
import unittest
from fractions import Fraction

import numpy as np

from hotbodies import accelerations, read_bodies, rounding_bounds
from hotbodies.bodies import body_bytes
from hotbodies.samples import SAMPLES
from hotbodies.scale import HEAVIEST

from . import built_program, with_program

BITS = 100  # behind the point, of the exact sums


def exact_sums(data, softening):
    """The sums over all pairs in printed units, as fractions that are off by less than N * 2^-100."""
    bodies = read_bodies(data)
    steps = 2 ** (29 - bodies.scale.bits)
    rows = [[int(row[name]) for name in ("x", "y", "z", "mass")] for row in bodies.rows]
    sums = []
    for p in rows:
        total = [0, 0, 0]
        for c in rows:
            gap = [(c[k] - p[k]) * steps for k in range(3)]
            cube = (sum(g * g for g in gap) + softening**2) ** 3
            for k, g in enumerate(gap):
                size = math.isqrt(((c[3] * g) ** 2 << 80 + 2 * BITS) // cube)
                total[k] += size if g > 0 else -size
        sums.append([Fraction(number, 1 << BITS) for number in total])
    return sums


class Bounds(unittest.TestCase):
    def test_two_bodies(self):
        """Each pulls the other from one side alone: it lacks less than a unit, or has one part in s too much."""
        data, scale = body_bytes([[0.0, 0, 0], [4.0, 0, 0]], [1.0, 1.0])
        gap, softening = 4 / scale.fine, scale.softening(0)
        root = 1024 * math.sqrt(gap**2 + softening**2)
        for body, axes in enumerate(rounding_bounds(data, softening)):
            size = HEAVIEST * gap * 2**40 / (gap**2 + softening**2) ** 1.5
            np.testing.assert_allclose(axes, [max(1, size / root), 0, 0], rtol=1e-6)
        wider = rounding_bounds(data, softening, 0.5)
        self.assertTrue((wider >= rounding_bounds(data, softening)).all())

    def test_none_is_proved_of_second_moments(self):
        with self.assertRaisesRegex(ValueError, "bound: of second moments none is proved"):
            accelerations([[0, 0, 0]], 1.0, 0.5, moments=2, bound=True)


@with_program
class Answers(unittest.TestCase):
    program = built_program()

    def test_exact_sums_are_within(self):
        for name, make in SAMPLES.items():
            for eps in (0.0, 0.02):
                with self.subTest(name, eps=eps):
                    positions, masses = make(60, 5)
                    data, scale = body_bytes(positions, masses, eps=eps)
                    given = dict(eps=eps, scale=scale, program=self.program)
                    found, bounds = accelerations(positions, masses, 0, bound=True, **given)
                    unit = Fraction(scale.acceleration())
                    for body, sums in enumerate(exact_sums(data, scale.softening(eps))):
                        for axis in range(3):
                            off = abs(Fraction(found[body, axis]) - sums[axis] * unit)
                            self.assertLessEqual(off, Fraction(bounds[body, axis]))
                            self.assertLess(bounds[body, axis], 1e-3 * np.abs(found).max())
                    np.testing.assert_array_equal(found, accelerations(positions, masses, 0, **given))

    def test_with_whole_numbers_and_other_ratios(self):
        positions, masses = SAMPLES["uniform box"](60, 5)
        exact, bounds = accelerations(positions, masses, 0.7, 0.02, exact=True, bound=True, program=self.program)
        self.assertEqual((exact.whole.shape, bounds.shape), ((60, 3), (60, 3)))
        self.assertTrue((bounds >= accelerations(positions, masses, 0, 0.02, bound=True, program=self.program)[1]).all())


if __name__ == "__main__":
    unittest.main()
