import io
import tempfile
import unittest

import numpy as np

from hotbodies import FormatError, LossError, Scale, read_bodies, write_bodies
from hotbodies.bodies import body_bytes
from hotbodies.samples import SAMPLES
from hotbodies.scale import HEAVIEST

PLACES = np.array([[0.1, 0.2, 0.3], [0.4, 0.2, 0.3], [0.1, 0.7, 0.3]])
TWO = b"# SDF\nparameter byteorder = %s;\nint cube_bits = 21;\nstruct { %s }[];\n# SDF-EOH\n"


class RoundTrips(unittest.TestCase):
    def test_positions_within_half_a_unit(self):
        for name, make in SAMPLES.items():
            for shift, size in ((0.0, 1.0), (-3.0, 1.0), (1e3, 1e-2), (0.0, 3e19), (0.0, 1e-12)):
                with self.subTest(name, shift=shift, size=size):
                    positions, masses = make(200, 3)
                    positions = positions * size + shift
                    data, scale = body_bytes(positions, masses * 2e33)
                    found = read_bodies(data)
                    off = np.abs(found.positions - positions).max()
                    self.assertLessEqual(off, 0.5 * scale.length + np.spacing(abs(shift)))
                    np.testing.assert_allclose(found.masses, masses * 2e33, rtol=1e-6)
                    self.assertEqual(found.scale, scale)

    def test_all_columns_come_back(self):
        speeds = PLACES * 1.7 - 3
        cases = {"signed": [-5, 2**63 - 1, 0], "unsigned": [0, 2**64 - 1, 7]}
        for name, idents in cases.items():
            with self.subTest(name):
                data, _ = body_bytes(
                    PLACES, [1.0, 4.0, 2.5], velocities=speeds, idents=np.array(idents, dtype=object), work=[0, 2**32 - 1, 9]
                )
                found = read_bodies(data)
                np.testing.assert_array_equal(found.velocities, speeds)
                self.assertEqual(found.idents.tolist(), idents)
                self.assertEqual(found.work.tolist(), [0, 2**32 - 1, 9])

    def test_a_path_and_further_values(self):
        with tempfile.NamedTemporaryFile(suffix=".sdf") as file:
            scale = write_bodies(file.name, PLACES, 2.0, values={"redshift": 0.5, "units": "kpc", "npart": 3})
            found = read_bodies(file.name)
        self.assertEqual([found.values[name] for name in ("redshift", "units", "npart")], [0.5, "kpc", 3])
        self.assertEqual(found.values["hot_length"], scale.length)
        np.testing.assert_array_equal(found.masses, 2.0)

    def test_none_one_and_equal_places(self):
        for positions in (np.zeros((0, 3)), [[0.3, -4.0, 1e9]], [[0.3, 0.3, 0.3]] * 4, np.zeros((2, 3))):
            with self.subTest(positions):
                data, scale = body_bytes(positions, 1.0)
                found = read_bodies(data).positions
                self.assertEqual(found.shape, np.shape(positions))
                self.assertLessEqual(np.abs(found - positions).max(initial=0), 0.5 * scale.length)

    def test_a_given_scale(self):
        scale = Scale(0.25, 0.5, (-4, 0, 0), 3)
        data, used = body_bytes([[-1.0, 0.0, 1.75], [0.75, 1.0, 0.3]], 1.0, scale=scale)
        self.assertEqual(used, scale)
        found = read_bodies(data)
        self.assertEqual((found.scale, found.rows["mass"].tolist()), (scale, [2, 2]))
        self.assertEqual(found.rows["x"].tolist(), [-4, 3])
        with self.assertRaisesRegex(ValueError, r"positions\[1, 0\] is 1.0: it is outside the cube"):
            body_bytes([[0.0, 0.0, 0.0], [1.0, 0.0, 0.0]], 1.0, scale=scale)
        with self.assertRaisesRegex(ValueError, r"masses\[0\] is 3000000000.0: 1 to 4294967295 units"):
            body_bytes([[0.0, 0.0, 0.0]], 3e9, scale=scale)


class Reading(unittest.TestCase):
    def test_every_whole_type_in_both_orders(self):
        types = {"int8_t": "i1", "uint8_t": "u1", "short": "i2", "unsigned short": "u2"}
        types |= {"int": "i4", "unsigned int": "u4", "int64_t": "i8", "uint64_t": "u8"}
        for mark, order in ((b"0x78563412", "<"), (b"305419896", ">")):
            for name, code in types.items():
                with self.subTest(name, order=order):
                    columns = f"{name} ident, x; char tag[3]; {name} y, z; float work2[2]; {name} mass, work;"
                    names = [(it, order + code) for it in ("ident", "x", "y", "z", "mass", "work")]
                    names[2:2] = [("tag", "S3")]
                    names[5:5] = [("other", order + "f4", (2,))]
                    rows = np.zeros(2, dtype=names)
                    for number, column in enumerate(("ident", "x", "y", "z", "mass", "work")):
                        rows[column] = [number + 1, 100 - number]
                    found = read_bodies(TWO % (mark, columns.encode()) + rows.tobytes())
                    np.testing.assert_array_equal(found.positions, [[2, 3, 4], [99, 98, 97]])
                    self.assertEqual(found.idents.tolist(), [1, 100])
                    self.assertEqual((found.masses.tolist(), found.work.tolist()), ([5.0, 96.0], [6, 95]))
                    self.assertIsNone(found.velocities)

    def test_absent_columns(self):
        found = read_bodies(TWO % (b"0x78563412", b"int32_t x, y, z; int mass[1];") + bytes(range(32)))
        self.assertEqual(found.idents.tolist(), [0, 1])
        self.assertEqual(found.masses.tolist(), [1.0, 1.0])
        self.assertIsNone(found.work)
        self.assertEqual(found.scale, Scale(1.0, 1.0, (0, 0, 0), 21))

    def test_files_that_are_none(self):
        for columns, wanted in ((b"int x, y;", "column z is missing"), (b"int x, y; float z;", "column z is not whole")):
            with self.subTest(columns), self.assertRaisesRegex(FormatError, wanted):
                read_bodies(TWO % (b"0x78563412", columns))
        with self.assertRaisesRegex(FormatError, "byteorder is 1"):
            read_bodies(TWO % (b"1", b"int x, y, z;"))
        with self.assertRaises(FileNotFoundError):
            read_bodies("/nowhere/at.all")


class Refusals(unittest.TestCase):
    def refused(self, wanted, positions=PLACES, masses=1.0, kind=ValueError, **more):
        with self.subTest(wanted), self.assertRaisesRegex(kind, wanted):
            write_bodies(io.BytesIO(), positions, masses, **more)

    def test_by_name_and_place(self):
        bad = PLACES.copy()
        bad[1, 2] = np.nan
        self.refused(r"positions\[1, 2\] is nan", bad)
        bad[1, 2] = np.inf
        self.refused(r"positions\[1, 2\] is inf", bad)
        self.refused(r"positions have the shape \(3, 2\)", PLACES[:, :2])
        self.refused(r"positions are no numbers", [["a", "b", "c"]])
        self.refused(r"masses\[2\] is 0.0: a mass is above 0", masses=[1, 2, 0])
        self.refused(r"masses\[0\] is -1.0", masses=[-1, 2, 3])
        self.refused(r"masses\[1\] is inf", masses=[1, np.inf, 3])
        self.refused(r"masses have the shape \(2,\)", masses=[1, 2])
        self.refused(r"velocities have the shape \(2, 3\)", velocities=PLACES[:2])
        self.refused(r"velocities\[0, 0\] is nan", velocities=PLACES * np.nan)
        self.refused(r"idents\[1\] is 1.5: a whole number", idents=[1, 1.5, 2])
        self.refused(r"idents\[2\] is 18446744073709551616", idents=[1, 2, 2**64])
        self.refused(r"below 0 and above 2\^63 - 1", idents=np.array([1, -2, 2**64 - 1], dtype=object))
        self.refused(r"work\[0\] is -1", work=[-1, 2, 3])
        self.refused(r"work\[1\] is 4294967296", work=[1, 2**32, 3])
        self.refused("hot_mass is a name of the scale", values={"hot_mass": 1.0})

    def test_what_would_lose_too_much(self):
        self.refused(r"masses\[1\] is 1e-09: beside the heaviest, 1.0", masses=[1, 1e-9, 1], kind=LossError)
        self.refused(r"masses\[1\] is 1e-05", masses=[1, 1e-5, 1], loss=1e-6, kind=LossError)
        pairs = np.array([[0.0, 0, 0], [1e-6, 0, 0], [1.0, 0, 0], [1.0 + 1e-6, 0, 0]])
        write_bodies(io.BytesIO(), pairs, 1.0)
        pairs[:, 0] *= [1, 1e-4, 1, 1]
        self.refused(r"positions\[[0-3]\]: whole numbers would lose about", pairs, kind=LossError)
        self.refused(r"positions are too far from 0", PLACES + 1e30 * np.ones(3) + [[0], [1e16], [0]], kind=ValueError)
        self.refused(r"eps is 1e-30", eps=1e-30)


class Scales(unittest.TestCase):
    def test_the_softening_is_whole_and_masses_fit(self):
        for eps in (1e-3, 0.017, 0.3):
            positions, masses = SAMPLES["Plummer sphere"](500, 5)
            _, scale = body_bytes(positions, masses, eps=eps)
            self.assertAlmostEqual(scale.softening(eps) * scale.fine, eps, delta=1e-12)
        _, scale = body_bytes(PLACES, [1.0, 3.0, 7.0])
        self.assertEqual(scale.mass * HEAVIEST, 7.0)
        self.assertEqual(scale.softening(0.0), 1)
        with self.assertRaisesRegex(ValueError, "eps is -1"):
            scale.softening(-1)

    def test_the_mass_of_very_many(self):
        count = 300_000
        positions, masses = SAMPLES["uniform box"](count, 5)
        found = read_bodies(body_bytes(positions, masses)[0])
        self.assertEqual(len(np.unique(found.rows["mass"])), 1)
        self.assertLessEqual(int(found.rows["mass"].astype(np.int64).sum()), 2**40)
        np.testing.assert_allclose(found.masses, masses, rtol=1e-15)


if __name__ == "__main__":
    unittest.main()
