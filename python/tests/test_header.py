import unittest

import numpy as np

from hotbodies.header import PAGE, FormatError, header_text, read_header, read_rows

HEAD = b"# SDF\n%s\n# SDF-EOH\n"
EVERY_TYPE = """struct { char tag[3]; int8_t a; uint8_t b; unsigned char c; short d, e[2]; int16_t f;
unsigned short g; uint16_t h; int i; int32_t j; unsigned int k; uint32_t l; int64_t m; uint64_t n; float o; double p; }[];"""


def header_of(text):
    return read_header(HEAD % text.encode())


class Statements(unittest.TestCase):
    def test_values_of_every_spelling(self):
        spellings = {
            "parameter n = 0x1E;": 30,
            "int n = -0X10;": -16,
            "int n = +007;": 7,
            "float n = 21;": 21,
            "double n = .5;": 0.5,
            "double n = 1.;": 1.0,
            "double n = -2.5e-3;": -0.0025,
            "double n = 1E5;": 1e5,
            'parameter n = "two words";': "two words",
            "parameter n = word_1;": "word_1",
            'char n[] = "a\nb";': "a\nb",
            'char n[16] = "";': "",
            "/* int n = 1; */ int n = 2; # int n = 3;": 2,
            "unsigned int n=18446744073709551615;": 2**64 - 1,
        }
        for text, value in spellings.items():
            with self.subTest(text):
                found = header_of(text + "\nstruct { int x; }[];").values["n"]
                self.assertEqual((found, type(found)), (value, type(value)))

    def test_every_type_stands_packed(self):
        dtype = header_of(EVERY_TYPE).dtype
        self.assertEqual(dtype.itemsize, 3 + 3 + 6 + 6 + 16 + 16 + 12)
        self.assertEqual(dtype["e"], np.dtype(("<i2", (2,))))
        self.assertEqual([dtype.fields[name][1] for name in "acdfip"], [3, 5, 6, 12, 18, 54])

    def test_faults_are_named_by_their_place(self):
        faults = {
            "int x = ;": "syntax at byte 14",
            "long n = 1;": "unknown type at byte 6",
            "unsigned long n = 1;": "unknown type at byte 6",
            "int n = 12a;": "syntax at byte 14",
            "int n = 1; /* open": "syntax at byte 17",
            'parameter n = "open;': "syntax at byte 20",
            "int n = 1": "syntax at byte 16",
            "": "no struct",
            "int n = 1; float n = 2;": "n is there twice",
            "struct { int x, x; }[];": "column x is there twice",
            "struct { int x; }[]; struct { int y; }[];": "second struct at byte 27",
            "struct { int x; }[1.5];": "syntax",
            "parameter byteorder = 7; struct { int x; }[];": "byteorder is 7",
        }
        for text, wanted in faults.items():
            with self.subTest(text), self.assertRaisesRegex(FormatError, wanted):
                header_of(text)

    def test_where_a_header_ends(self):
        late = b"# SDF\nstruct {int x;\n## SDF-EOH\n}[];"
        self.assertEqual(read_header(HEAD % b"struct {int x;}[];").length, 35)
        with self.assertRaisesRegex(FormatError, "syntax at byte 21"):  # the line within the struct ends the header
            read_header(late)
        for data, wanted in ((b"", "not an SDF"), (b"#SDF", "not an SDF"), (b"# SDF\n# SDF-EOH", "no end")):
            with self.subTest(data), self.assertRaisesRegex(FormatError, wanted):
                read_header(data)
        with self.assertRaisesRegex(FormatError, "no struct"):
            read_header(b"# SDF-EOH\n")


class Rows(unittest.TestCase):
    def test_both_orders_of_bytes(self):
        for value, packed in ((0x78563412, b"\x01\x02\x03\x04"), (0x12345678, b"\x04\x03\x02\x01")):
            text = f"parameter byteorder = {value}; struct {{ int x; }}[1];"
            rows = read_rows(HEAD % text.encode() + packed)[1]
            self.assertEqual(rows["x"].tolist(), [0x04030201])

    def test_rows_are_counted(self):
        for size, data, wanted in (("", b"abc", "row 0 is cut"), ("2", b"abcd", "row 1 is cut"), ("0", b"a", "after the last")):
            text = f"struct {{ int x; }}[{size}];"
            with self.subTest(size), self.assertRaisesRegex(FormatError, wanted):
                read_rows(HEAD % text.encode() + data)


class Written(unittest.TestCase):
    def test_what_is_written_is_read(self):
        values = {"a": 1, "b": -(2**63), "c": 2**64 - 1, "d": 1.5e-300, "e": "word", "f": "two words", "g": 0.1}
        text = header_text(values, [("double", ["x", "y"]), ("int64_t", ["n"])], 0)
        header = read_header(text)
        self.assertEqual({name: header.values[name] for name in values}, values)
        self.assertEqual(header.dtype, np.dtype([("x", "<f8"), ("y", "<f8"), ("n", "<i8")]))
        self.assertEqual((header.rows, header.length % PAGE), (0, 0))

    def test_what_has_no_spelling_is_refused(self):
        for values in ({"a": float("nan")}, {"a": 'a"b'}, {"a b": 1}, {"byteorder": 1}, {"a": "x" * 5000}):
            with self.subTest(values), self.assertRaises(ValueError):
                header_text(values, [], 0)


if __name__ == "__main__":
    unittest.main()
