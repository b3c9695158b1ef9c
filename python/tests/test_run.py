import io
import os
import stat
import sys
import tempfile
import unittest
from contextlib import redirect_stderr
from fractions import Fraction
from unittest import mock

import numpy as np

from hotbodies import Errors, ProgramError, ProgramMissing, Scale, accelerations, direct_accelerations, relative_errors
from hotbodies import find_program, read_bodies
from hotbodies.bodies import body_bytes, write_bodies
from hotbodies.limits import MAX_BODIES, MAX_FILES
from hotbodies.run import file_forces, file_words, ratio_words, run_program
from hotbodies.samples import SAMPLES

from . import built_program, with_program

HEAD = b"# SDF\nparameter byteorder = 0x78563412;\nint cube_bits = 21;\nstruct {\nint32_t x, y, z, mass;\n}[2];\n# SDF-EOH\n"
TWO_BODIES = HEAD + np.array([0, 0, 0, 1, 4, 0, 0, 3], dtype="<i4").tobytes()


def stand_in(folder, text):
    """A program of a few lines of Python."""
    path = os.path.join(folder, "hot")
    with open(path, "w", encoding="utf-8") as file:
        file.write(f"#!{sys.executable}\nimport sys\n{text}\n")
    os.chmod(path, os.stat(path).st_mode | stat.S_IXUSR)
    return path


class Calls(unittest.TestCase):
    def test_words_and_lines_of_a_program(self):
        with tempfile.TemporaryDirectory() as folder:
            program = stand_in(folder, "print(sys.argv[1:], sys.stdin.read())")
            self.assertEqual(run_program(["a", 3], b"data", program), b"['a', '3'] data\n")
            program = stand_in(folder, "sys.stderr.write('hot: proving\\nhot: B3 row 0 outside\\n'); sys.exit(3)")
            said = io.StringIO()
            with redirect_stderr(said), self.assertRaises(ProgramError) as caught:
                run_program(["forces"], b"", program)
        self.assertEqual(said.getvalue(), "hot: proving\n")
        error = caught.exception
        self.assertEqual((error.status, error.line, error.code), (3, "B3 row 0 outside", "B3"))
        self.assertEqual(str(error), "hot: B3 row 0 outside")

    def test_the_file_that_was_refused(self):
        for line, number in (("B1 row 4 is cut short in file 12", 12), ("H14 cube differs", None)):
            error = ProgramError(3, f"hot: {line}\n")
            self.assertEqual((error.line, error.code, error.file), (line, line.split()[0], number))
        self.assertIsNone(ProgramError(2, "hot: A2 unknown command in file 3\n").file)

    def test_words_of_files(self):
        self.assertEqual(file_words(["a", "-", "--ranks", "b/-c"]), ["a", "./-", "./--ranks", "b/-c"])
        self.assertEqual(len(file_words(["a"] * MAX_FILES)), MAX_FILES)
        for count in (0, MAX_FILES + 1):
            with self.assertRaisesRegex(ValueError, f"files are {count}: 1 to 16 are wanted"):
                file_words(["a"] * count)

    def test_which_program(self):
        with tempfile.TemporaryDirectory() as folder:
            program = stand_in(folder, "")
            self.assertEqual(find_program(program), program)
            with mock.patch.dict(os.environ, HOT_PROGRAM=program):
                self.assertEqual(find_program(), program)
            with self.assertRaisesRegex(ProgramMissing, "is no program"):
                find_program(os.path.join(folder, "none"))

    def test_ratios(self):
        wanted = {0: "0/1", 0.7: "7/10", 1: "1/1", 1 / 3: "1/3", "7/10": "7/10", 1.5: "3/2", 1024: "1024/1"}
        wanted |= {Fraction(22, 7): "22/7", 1e-9: "0/1", 1000.3: "1000/1"}
        for theta, words in wanted.items():
            self.assertEqual(ratio_words(theta), words)
        for theta in (-0.1, 1025, float("nan"), float("inf"), "a", None):
            with self.subTest(theta), self.assertRaisesRegex(ValueError, "theta is"):
                ratio_words(theta)

    def test_options_out_of_range(self):
        cases = [("leaf", 0), ("leaf", 65), ("leaf", 1.0), ("ranks", 65), ("ranks", True), ("moments", 3), ("eps", -1)]
        for name, value in cases:
            with self.subTest(name), self.assertRaisesRegex(ValueError, f"{name} is {value}"):
                accelerations([[0, 0, 0]], 1.0, **{name: value}, program=sys.executable)


@with_program
class Answers(unittest.TestCase):
    program = built_program()

    def test_two_bodies_exactly(self):
        found = file_forces(TWO_BODIES, Scale(bits=21), theta=0, softening=1, program=self.program)
        self.assertEqual(found.whole.tolist(), [[3145725, 0, 0], [-1048575, 0, 0]])

    def test_several_files_are_one_list(self):
        positions, masses = SAMPLES["two clusters"](300, 7)
        data, scale = body_bytes(positions, masses, eps=0.02)
        whole = file_forces(data, scale, 0.5, 40, program=self.program)
        with tempfile.TemporaryDirectory() as folder:
            names = [os.path.join(folder, str(number)) for number in range(MAX_FILES)]
            for name, part in zip(names, np.array_split(np.arange(300), MAX_FILES)):
                write_bodies(name, positions[part], masses[part], scale=scale)
            parts = file_forces(names, scale, 0.5, 40, program=self.program)
            np.testing.assert_array_equal(parts.whole, whole.whole)
            np.testing.assert_array_equal(parts.idents, np.arange(300))
            write_bodies(names[2], np.zeros((1, 3)), 1.0, scale=Scale(bits=21))
            with self.assertRaises(ProgramError) as caught:
                file_forces(names, scale, program=self.program)
        self.assertEqual((caught.exception.line, caught.exception.file), ("H14 cube differs in file 3", 3))

    def test_ratio_0_is_the_direct_sum_within_its_bound(self):
        """A component is off by less than a unit a pull, and each pull by 2^-9 of itself over its distance in units."""
        for name, make in SAMPLES.items():
            for eps in (0.0, 0.02):
                with self.subTest(name, eps=eps):
                    positions, masses = make(300, 11)
                    data, scale = body_bytes(positions, masses, eps=eps)
                    bodies, softening = read_bodies(data), scale.softening(eps)
                    found = file_forces(data, scale, 0, softening, program=self.program).whole.astype(float)
                    soft, unit = softening * scale.fine, scale.acceleration()
                    exact = direct_accelerations(bodies.positions, bodies.masses, soft) / unit
                    gap = bodies.positions[None] - bodies.positions[:, None]
                    apart = np.sqrt((gap * gap).sum(axis=2) + soft**2)
                    pulls = np.abs(gap) * (bodies.masses / apart**3)[:, :, None] / unit
                    bound = 299 + (pulls * (2.0**-9 / (apart / scale.fine) + 1e-12)[:, :, None]).sum(axis=1)
                    self.assertTrue((np.abs(found - exact) <= bound).all())

    def test_the_errors_of_the_page(self):
        """docs/ACCURACY.md: 99 in 100 bodies are within 1e-4 at ratio 0, and within 1e-1 at 0.7."""
        for name, make in SAMPLES.items():
            positions, masses = make(300, 11)
            truth = direct_accelerations(positions, masses, 0.02)
            for theta, most in ((0, 1e-4), (0.7, 1e-1)):
                with self.subTest(name, theta=theta):
                    found = accelerations(positions, masses, theta, 0.02, program=self.program)
                    self.assertLess(Errors.of(relative_errors(found, truth)).most, most)

    def test_second_moments(self):
        """At a ratio of 1/2 they bring the median to less than half, and at 0, where no cell pulls, they change nothing."""
        for name, make in SAMPLES.items():
            with self.subTest(name):
                positions, masses = make(300, 11)
                truth = direct_accelerations(positions, masses, 0.02)
                first, second = (
                    accelerations(positions, masses, 0.5, 0.02, moments=moments, program=self.program) for moments in (1, 2)
                )
                medians = [Errors.of(relative_errors(found, truth)).median for found in (first, second)]
                self.assertLess(medians[1], medians[0] / 2)
                pairs = [accelerations(positions, masses, 0, moments=moments, program=self.program) for moments in (1, 2)]
                np.testing.assert_array_equal(*pairs)
        with self.assertRaisesRegex(ProgramError, "A8 ratio above 1 with --moments 2"):
            accelerations([[0, 0, 0]], 1.0, 1.5, moments=2, program=self.program)

    def test_units_and_ranks_and_order_do_not_matter(self):
        positions, masses = SAMPLES["two clusters"](300, 2)
        first = accelerations(positions, masses, 0.5, 0.01, program=self.program)
        other = accelerations(positions * 3e19, masses * 2e33, 0.5, 3e17, G=6.674e-8, ranks=4, program=self.program)
        np.testing.assert_allclose(other, first * (6.674e-8 * 2e33 / 9e38), rtol=1e-9, atol=0)
        exact = accelerations(positions, masses, 0.5, 0.01, exact=True, program=self.program)
        np.testing.assert_array_equal(exact.accelerations(), first)
        self.assertTrue(all(isinstance(number, int) for number in exact.whole.ravel()))
        turned = accelerations(positions[::-1], masses[::-1], 0.5, 0.01, scale=exact.scale, program=self.program)
        np.testing.assert_array_equal(turned[::-1], first)

    def test_none_and_one(self):
        self.assertEqual(accelerations(np.zeros((0, 3)), 1.0, program=self.program).shape, (0, 3))
        self.assertEqual(accelerations([[1, 2, 3]], 1.0, program=self.program).tolist(), [[0.0, 0.0, 0.0]])

    def test_refusals_of_the_program(self):
        cases = {
            "H1 not an SDF file": (b"", []),
            "H11 column x is not whole": (HEAD.replace(b"int32_t x", b"float x"), []),
            "H13 too many rows 1048577": (HEAD.replace(b"[2]", b"[1048577]"), []),
            "B1 row 1 is cut short": (TWO_BODIES[:-1], []),
            "B4 row 0 mass out of range": (TWO_BODIES.replace(b"\x01\0\0\0\x04", b"\0\0\0\0\x04"), []),
            "A3 unknown option --no": (b"", ["--no"]),
        }
        for line, (data, more) in cases.items():
            with self.subTest(line), self.assertRaises(ProgramError) as caught:
                file_forces(data, Scale(), program=self.program, more=more)
            error = caught.exception
            self.assertEqual((error.line, error.code), (line, line.split()[0]))
            self.assertEqual(error.status, 2 if line[0] == "A" else 3)

    def test_too_many_bodies(self):
        with self.assertRaisesRegex(ProgramError, "H13 too many rows 1048577"):
            accelerations(SAMPLES["uniform box"](MAX_BODIES + 1, 1)[0], 1.0, program=self.program)


if __name__ == "__main__":
    unittest.main()
