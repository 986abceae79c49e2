"""The word `image`: its forms, the files of numbers that it reads, and how it refuses."""

import array
import contextlib
import io
import os
import struct
import subprocess
import sys
import tempfile
import unittest
import unittest.mock

import support
from support import needs_numpy, numpy

from simdram.__main__ import status_of
from simdram.files import numbers
from simdram.files.image import Image
from simdram.launcher.faults import FileFault


class Tool(unittest.TestCase):
    """A folder, and the word in it."""

    def setUp(self):
        self.kept = tempfile.TemporaryDirectory()
        self.addCleanup(self.kept.cleanup)
        self.before = os.getcwd()
        os.chdir(self.kept.name)
        quiet = unittest.mock.patch.dict(os.environ, SIMDRAM_QUIET="1")
        quiet.start()
        self.addCleanup(quiet.stop)
        self.addCleanup(os.chdir, self.before)

    def did(self, *words):
        """The status, and what was said on standard error."""
        said = io.StringIO()
        with contextlib.redirect_stderr(said), contextlib.redirect_stdout(io.StringIO()):
            status = status_of(["image", *words])
        return status, said.getvalue()

    def write(self, name, text):
        with open(name, "wb") as file:
            file.write(text if isinstance(text, bytes) else text.encode())

    def values(self, name):
        return Image.load("m").get(name)

    def test_make_and_get(self):
        self.assertEqual(self.did("make", "m", "1x200x1", "a:8=3,10,15,200", "w:128/2"), (0, ""))
        self.assertEqual((self.values("a"), self.values("w")), ([3, 10, 15, 200], [0, 0]))
        for file, text in (("a.txt", b"3\n10\n15\n200\n"), ("a.csv", b"element,a\n0,3\n1,10\n2,15\n3,200\n")):
            self.assertEqual(self.did("get", "m", "a", file), (0, ""))
            with open(file, "rb") as found:
                self.assertEqual(found.read(), text)

    def test_put_reads_what_get_writes(self):
        for width in (1, 8, 33, 64, 65, 128):
            given = [0, 1, 2**width - 1, 2**width // 3]
            self.did("make", "m", "1x200x1", f"a:{width}=" + ",".join(map(str, given)))
            for file in ("f", "f.csv", "f.npy"):
                self.did("get", "m", "a", file)
                self.did("make", "m", "1x200x1", f"a:{width}/4")
                self.assertEqual(self.did("put", "m", "a", file), (0, ""))
                self.assertEqual(self.values("a"), given)

    def test_forms_of_text(self):
        self.did("make", "m", "1x96x1", "a:8/4")
        forms = [("f", "V,2,3,4"), ("f", "V 2\n3 4"), ("f.csv", "V,2\n3,4\n"), ("f.csv", "a\nV\n2\n3\n4\n"),
                 ("f.csv", "element,a\n0,V\n1,2\n2,3\n3,4\n"), ("f", "V, 2,\r\n3,4,\n")]
        for k, (file, text) in enumerate(forms):
            self.write(file, text.replace("V", str(k + 5)))
            self.assertEqual(self.did("put", "m", "a", file), (0, ""), text)
            self.assertEqual(self.values("a"), [k + 5, 2, 3, 4])

    def test_what_is_refused_says_which_file_and_why(self):
        self.did("make", "m", "1x96x1", "a:8/4")
        before = Image.load("m").file()
        for file, text, said in (
                ("f", "1,2,3", "f: count: it has 3 numbers, and a of m has 4"),
                ("f", "1 2\n-3 4", "f: range: value 3 of a is -3"),
                ("f", "1 2\n300 4", "f: range: value 3 of a is 300, and 8 bits hold 0 to 255"),
                ("f", "1 2\n3.5 4", "f: line 2 number: '3.5' is no number"),
                ("f", b"1 \xff", "f: line 1 number: a byte that is no"),
                ("f.csv", "element,a\n0,1\n2,3", "f.csv: line 3 element: '2,3' where `1,VALUE` is wanted"),
                ("f.csv", "x,y\n0,1", "f.csv: line 1 names: 'x,y'"),
                ("f.csv", "a\n1\nten", "f.csv: line 3 number: 'ten'"),
                ("f.npy", "1 2 3 4", "f.npy: array: no array file")):
            self.write(file, text)
            status, line = self.did("put", "m", "a", file)
            self.assertEqual((status, line[:len(said) + 9]), (2, f"simdram: {said}"))
            self.assertEqual(line.count("\n"), 1)
        for words, said in ((("put", "m", "a", "none"), "none: cannot read"),
                            (("get", "none", "a"), "none: cannot read"),
                            (("get", "m", "b"), "m: no object b: there are a"),
                            (("show", "f"), "f: byte 3 short: a field of 4")):
            status, line = self.did(*words)
            self.assertEqual((status, line[:len(said) + 9]), (2, f"simdram: {said}"))
        self.assertEqual(Image.load("m").file(), before)

    def test_words(self):
        for text, said in (("make m 1x96", "1x96 is not BANKSxROWSxWORDS"), ("make m 1x96x1 a:8", "a:8 is no NAME"),
                           ("make m 1x96x1 a:8=1,-2", "value 2 of a is -2"), ("make m 0x96x1", "0x96x1: a chip has"),
                           ("make m 1x96x1 a:8=256", "value 1 of a is 256"), ("make m 1x96x1 a:65/1", "no_rows"),
                           ("make m 1x96x1 a:8/65", "too_large"), ("make m 1x96x1 a:8/1 a:8/1", "exists"),
                           ("make m 1x96x1 a:8/0", "too_large"), ("make m 1x96x1 a:0/1", "bad_number"),
                           ("", "these words are none"), ("get m", "these words are none")):
            status, line = self.did(*text.split())
            self.assertEqual((status, line[:len(said) + 9]), (1, f"simdram: {said}"))
        self.assertFalse(os.path.exists("m"))
        self.assertEqual(self.did("--help"), (0, ""))

    def test_files_of_another_kind_stay(self):
        self.did("make", "m", "1x96x1", "a:8/4")
        self.write("text", "1 2 3 4")
        before = Image.load("m").file()
        for words, said in ((("make", "text", "1x96x1"), "text: an image is written there, but it holds text"),
                            (("get", "m", "a", "m"), "m: a text of numbers is written there, but it holds an image")):
            status, line = self.did(*words)
            self.assertEqual((status, line[:len(said) + 9]), (2, f"simdram: {said}"))
        self.assertEqual(Image.load("m").file(), before)
        self.assertEqual((self.did("put", "m", "a", "text"), self.did("get", "m", "a", "text")), ((0, ""), (0, "")))
        for name, other in (("m.ops", "op f(a: word) -> y: word { y = not(a); }\n"), ("hex", "53 44 # a note\n"), ("a.flips", "1 0 0 0\n")):
            self.write(name, other)
            self.assertEqual(self.did("get", "m", "a", name)[0], 2, name)
            with open(name, encoding="utf-8") as file:
                self.assertEqual(file.read(), other)
        for name in ("a.csv", "a.npy", "a.txt"):
            self.assertEqual([self.did("get", "m", "a", name) for _ in range(2)], [(0, ""), (0, "")], name)
        with contextlib.redirect_stderr(io.StringIO()):
            self.assertEqual(status_of(["image", "make", "text", "1x96x1", "--force"]), 0)
        self.assertEqual(Image.load("text").objects, [])

    def test_a_pipe_that_ends(self):
        self.did("make", "m", "8x100x64", "a:8/30000")
        line = f'"{sys.executable}" -m simdram image get m a | head -1'
        ended = subprocess.run(line, shell=True, capture_output=True, check=False,
                               env={**os.environ, "PYTHONPATH": str(support.TOP / "python")})
        self.assertEqual((ended.stdout, ended.stderr), (b"0\n", b""))


class Arrays(unittest.TestCase):
    """Array files, with and without NumPy."""

    def test_halves_and_orders_by_hand(self):
        def file(kind, order, shape, data):
            head = f"{{'descr': '{kind}', 'fortran_order': {order}, 'shape': {shape}, }}\n".encode()
            return b"\x93NUMPY\x01\x00" + struct.pack("<H", len(head)) + head + data

        halves = array.array("Q", [5, 0, 6, 1]).tobytes()
        self.assertEqual(numbers.of_array(file("<u8", False, (2, 2), halves), "f", 65, 2), [5, 6 + 2**64])
        self.assertEqual(numbers.of_array(file("<u8", False, (2, 2), halves), "f", 64, 4), [5, 0, 6, 1])
        first_axis_first = file("|i1", True, (2, 3), bytes([1, 4, 2, 5, 3, 255]))
        self.assertEqual(numbers.of_array(first_axis_first, "f", 8, 6), [1, 2, 3, 4, 5, -1])
        self.assertEqual(numbers.of_array(file(">u2", False, (1,), b"\1\2"), "f", 16, 1), [258])
        for kind, data in (("<f8", bytes(8)), ("|O", b""), ("<u8", bytes(7))):
            with self.assertRaisesRegex(FileFault, "f: array: "):
                numbers.of_array(file(kind, False, (1,), data), "f", 8, 1)

    @needs_numpy
    def test_arrays_of_numpy(self):
        with tempfile.TemporaryDirectory() as folder:
            path = f"{folder}/x.npy"
            for kind in ("bool", "u1", "i1", "u2", "i4", ">u4", "u8", "i8"):
                for shape in ((6,), (2, 3), (3, 1, 2), (6, 1)):
                    for order in "CF":
                        drawn = numpy.arange(6).reshape(shape) % (2 if kind == "bool" else 128)
                        given = numpy.asarray(drawn, dtype=kind, order=order)
                        numpy.save(path, given)
                        self.assertEqual(numbers.read(path, 8, 6), given.ravel().tolist())
            numpy.save(path, numpy.array(7))
            self.assertEqual(numbers.read(path, 8, 1), [7])
            for width in (5, 128):
                image = Image(1, 200, 1)
                image.add("a", width, 3)
                image.put("a", [1, 2, 2**width - 1])
                with open(path, "wb") as file:
                    file.write(numbers.file_of("a", *image.cells("a"), path))
                found = numpy.load(path)
                self.assertEqual((found.dtype, found.shape), (numpy.uint64, (3,) if width == 5 else (3, 2)))
                self.assertEqual(numbers.read(path, width, 3), [1, 2, 2**width - 1])


if __name__ == "__main__":
    unittest.main()
