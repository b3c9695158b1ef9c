import struct
import unittest

import numpy as np

from hotbodies import FormatError, Scale, read_forces

TEXT = b"# hot forces 1\n0 3145725 0 0\n1 -1048575 0 0\n# end 2\n"
HEAD = b"""# SDF
parameter byteorder = 0x78563412;
struct {
  int64_t ident_hi;
  uint64_t ident_lo;
  int64_t ax_hi;
  uint64_t ax_lo;
  int64_t ay_hi;
  uint64_t ay_lo;
  int64_t az_hi;
  uint64_t az_lo;
}[%d];
# SDF-EOH
"""


def row(*numbers):
    """A row of forces in SDF: each number as its high and its low half."""
    return b"".join(struct.pack("<qQ", number >> 64, number & (2**64 - 1)) for number in numbers)


class Text(unittest.TestCase):
    def test_numbers_and_units(self):
        found = read_forces(TEXT, Scale(0.5, 3.0, (0, 0, 0), 21))
        self.assertEqual(found.whole.tolist(), [[3145725, 0, 0], [-1048575, 0, 0]])
        self.assertEqual(found.idents.tolist(), [0, 1])
        unit = 10 * 3.0 / (0.5 / 256) ** 2 / 2**40
        np.testing.assert_allclose(found.accelerations(G=10), np.array([[3145725, 0, 0], [-1048575, 0, 0]]) * unit)

    def test_large_numbers_stay_exact(self):
        numbers = [2**80, -(2**64) - 1, 2**63]
        found = read_forces(b"# hot forces 1\n18446744073709551615 %d %d %d\n# end 1\n" % tuple(numbers))
        self.assertEqual(found.whole[0].tolist(), numbers)
        self.assertEqual(found.idents.tolist(), [2**64 - 1])
        self.assertEqual(found.idents.dtype, np.uint64)

    def test_no_bodies(self):
        for data in (b"# hot forces 1\n# end 0\n", HEAD % 0):
            found = read_forces(data)
            self.assertEqual((found.whole.shape, found.accelerations().shape), ((0, 3), (0, 3)))

    def test_what_is_cut_short_is_refused(self):
        for length in range(len(TEXT)):
            with self.subTest(length), self.assertRaises(FormatError):
                read_forces(TEXT[:length])
        for data in (TEXT + b"\n", TEXT.replace(b" 0 0\n1", b" 0\n1"), TEXT.replace(b"3145725", b"x"), b"# hot split 1\n"):
            with self.subTest(data), self.assertRaises(FormatError):
                read_forces(data)


class Sdf(unittest.TestCase):
    def test_bytes_by_hand(self):
        first = bytes(24 - 8) + bytes(8) + bytes.fromhex("fdff2f0000000000") + bytes(32)
        second = bytes(8) + bytes.fromhex("0100000000000000ffffffffffffffff0100f0ffffffffff") + bytes(32)
        data = HEAD % 2 + first + second
        self.assertEqual(read_forces(data).whole.tolist(), read_forces(TEXT).whole.tolist())
        self.assertEqual(read_forces(data).idents.tolist(), [0, 1])

    def test_numbers_beyond_64_bits(self):
        numbers = (-(2**64) - 1, 2**80, -(2**80))
        found = read_forces(HEAD % 2 + row(2**64 - 1, *numbers) + row(-1, 0, -1, 1))
        self.assertEqual(found.whole.tolist(), [list(numbers), [0, -1, 1]])
        self.assertEqual(found.idents.tolist(), [2**64 - 1, -1])

    def test_what_is_no_output_is_refused(self):
        whole = HEAD % 1 + row(0, 1, 2, 3)
        cases = [whole[:-1], whole + b"\0", whole.replace(b"az_lo", b"az"), whole.replace(b"uint64_t az", b"int64_t az")]
        for data in cases + [whole.replace(b"[1]", b"[]")]:
            with self.subTest(data), self.assertRaises(FormatError):
                read_forces(data)


if __name__ == "__main__":
    unittest.main()
