import io
import os
import tempfile
import unittest
from contextlib import redirect_stderr, redirect_stdout
from unittest import mock

import numpy as np

from hotbodies.__main__ import main
from hotbodies.convert import ConvertError, Names, Table, read_table, write_table

from . import built_program, with_program

try:
    import h5py
except ImportError:
    h5py = None

DRAWS = np.random.default_rng(4)
BODIES = Table(
    DRAWS.normal(size=(20, 3)), DRAWS.uniform(1, 2, 20), DRAWS.normal(size=(20, 3)), np.arange(20) - 2**60, np.arange(20)
)
BARE = Table(BODIES.positions, BODIES.masses)
PLAIN = (".npy", ".npz", ".csv")
HDF5 = (".hdf5", ".h5") if h5py else ()


class InFolder(unittest.TestCase):
    def setUp(self):
        folder = tempfile.TemporaryDirectory()
        self.addCleanup(folder.cleanup)
        self.path = lambda name: os.path.join(folder.name, name)

    def same(self, found, wanted, rtol=0.0):
        for part, array in vars(wanted).items():
            if array is None:
                self.assertIsNone(getattr(found, part), part)
            else:
                np.testing.assert_allclose(getattr(found, part), array, rtol=rtol, err_msg=part)

    def run_main(self, *words):
        out, err = io.StringIO(), io.StringIO()
        with redirect_stdout(out), redirect_stderr(err):
            status = main([*words])
        return status, out.getvalue(), err.getvalue()


class Tables(InFolder):
    def test_each_form_gives_back_what_it_got(self):
        for suffix in (*PLAIN, *HDF5):
            for table in (BODIES, BARE):
                with self.subTest(suffix):
                    write_table(self.path("it" + suffix), table)
                    self.same(read_table(self.path("it" + suffix)), table)

    def test_body_files_keep_all_within_half_a_unit(self):
        scale = write_table(self.path("it.sdf"), BODIES)
        found = read_table(self.path("it.sdf"))
        self.assertLessEqual(np.abs(found.positions - BODIES.positions).max(), scale.length / 2)
        self.same(Table(BODIES.positions, *list(vars(found).values())[1:]), BODIES, rtol=1e-6)

    def test_plain_arrays_of_numbers(self):
        rows = np.column_stack([BODIES.positions, BODIES.masses, BODIES.velocities])
        for width, speeds in ((4, None), (7, BODIES.velocities)):
            np.save(self.path("it.npy"), rows[:, :width])
            self.same(read_table(self.path("it.npy")), Table(BODIES.positions, BODIES.masses, speeds))
        np.save(self.path("it.npy"), rows[:, :5])
        with self.assertRaisesRegex(ConvertError, r"shape \(20, 5\)"):
            read_table(self.path("it.npy"))

    def test_names_of_datasets(self):
        names = Names("pos", "m", "v", "id", "w")
        for suffix in (".npz", *HDF5):
            write_table(self.path("it" + suffix), BODIES, names)
            self.same(read_table(self.path("it" + suffix), names), BODIES)
            with self.assertRaisesRegex(ConvertError, "no positions, but id, m, pos, v, w: name the dataset by --positions"):
                read_table(self.path("it" + suffix))

    def test_csv_by_hand(self):
        with open(self.path("it.csv"), "w", encoding="utf-8") as file:
            file.write("ident, mass,x,y,z\n9007199254740993,1.5,1,2,3\n-7,2,4,5,6e1\n")
        found = read_table(self.path("it.csv"))
        places, idents = np.array([[1, 2, 3], [4, 5, 60.0]]), np.array([9007199254740993, -7])
        self.same(found, Table(places, np.array([1.5, 2]), None, idents, None))
        for text, wanted in (("x,y,z\n1,2,3\n", "no column mass"), ("", "no line of names"), ("x,y,z,mass\n1,2,3,a\n", "it.csv")):
            with open(self.path("it.csv"), "w", encoding="utf-8") as file:
                file.write(text)
            with self.subTest(text), self.assertRaisesRegex(ConvertError, wanted):
                read_table(self.path("it.csv"))

    def test_endings(self):
        with self.assertRaisesRegex(ConvertError, "ends with none of .sdf .npy"):
            read_table("it.txt")
        with self.assertRaisesRegex(ConvertError, "GADGET's layout is one of .hdf5"):
            write_table(self.path("it.npy"), BARE, gadget=True)

    def test_hdf5_without_h5py(self):
        with mock.patch.dict("sys.modules", h5py=None), self.assertRaisesRegex(ConvertError, "python3-h5py"):
            read_table("it.hdf5")


@unittest.skipUnless(h5py, "h5py is not there: Debian's python3-h5py has it")
class Gadget(InFolder):
    def test_written_and_read(self):
        write_table(self.path("it.hdf5"), BODIES, gadget=True)
        self.same(read_table(self.path("it.hdf5")), Table(*list(vars(BODIES).values())[:4]))

    def test_kinds_and_masses_of_the_header(self):
        with h5py.File(self.path("it.hdf5"), "w") as file:
            file.create_group("Header").attrs["MassTable"] = [0, 0.25, 0, 0, 0, 0]
            for kind, rows in ((0, slice(0, 5)), (1, slice(5, 20))):
                part = file.create_group(f"PartType{kind}")
                part["Coordinates"] = BODIES.positions[rows]
                part["ParticleIDs"] = BODIES.idents[rows]
            file["PartType0/Masses"] = BODIES.masses[:5]
        found = read_table(self.path("it.hdf5"))
        masses = np.concatenate([BODIES.masses[:5], np.full(15, 0.25)])
        self.same(found, Table(BODIES.positions, masses, None, BODIES.idents))
        self.same(read_table(self.path("it.hdf5"), kinds=[0]), Table(BODIES.positions[:5], masses[:5], None, BODIES.idents[:5]))
        with self.assertRaisesRegex(ConvertError, "no PartType4, but PartType0, PartType1"):
            read_table(self.path("it.hdf5"), kinds=[4])
        with h5py.File(self.path("it.hdf5"), "a") as file:
            del file["PartType0/Masses"]
        with self.assertRaisesRegex(ConvertError, "PartType0 has no Masses"):
            read_table(self.path("it.hdf5"))


class Commands(InFolder):
    def test_convert_there_and_back(self):
        write_table(self.path("a.csv"), BODIES)
        status, out, err = self.run_main("convert", self.path("a.csv"), self.path("b.sdf"), "--eps", "0.01")
        self.assertEqual((status, err), (0, ""))
        self.assertRegex(out, "^20 bodies, a unit is .* long and .* heavy\n$")
        self.assertEqual(self.run_main("convert", self.path("b.sdf"), self.path("c.npz"))[:2], (0, "20 bodies\n"))
        self.same(Table(BODIES.positions, *list(vars(read_table(self.path("c.npz"))).values())[1:]), BODIES, rtol=1e-6)

    def test_what_cannot_be_done(self):
        status, out, err = self.run_main("convert", self.path("none.npy"), self.path("b.sdf"))
        self.assertEqual((status, out), (1, ""))
        self.assertRegex(err, "^hotbodies: .*No such file")
        write_table(self.path("a.npy"), Table(BODIES.positions * np.nan, BODIES.masses))
        status, out, err = self.run_main("convert", self.path("a.npy"), self.path("b.sdf"))
        self.assertEqual((status, err), (1, "hotbodies: positions[0, 0] is nan: a finite number is wanted\n"))

    @with_program
    def test_accuracy(self):
        write_table(self.path("a.npy"), BODIES)
        words = ["accuracy", self.path("a.npy"), "--ratios", "0/1,7/10", "--program", built_program()]
        status, out, err = self.run_main(*words)
        self.assertEqual((status, err), (0, ""))
        lines = [line.split() for line in out.splitlines()]
        self.assertEqual(lines[0], ["ratio", "median", "99", "%", "largest"])
        self.assertEqual(lines[1], ["0/1", "0.00e+00", "0.00e+00", "0.00e+00"])
        self.assertEqual(lines[2][0], "7/10")

    @with_program
    def test_accuracy_of_second_moments(self):
        write_table(self.path("a.npy"), BODIES)
        status, out, err = self.run_main("accuracy", self.path("a.npy"), "--moments", "2", "--program", built_program())
        self.assertEqual((status, err), (0, ""))
        self.assertEqual([line.split()[0] for line in out.splitlines()], ["ratio", "1/10", "3/10", "1/2", "7/10", "9/10"])


if __name__ == "__main__":
    unittest.main()
