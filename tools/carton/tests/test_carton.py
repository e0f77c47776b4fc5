"""Tests of carton.py: `python3 -m unittest` in this folder. With KEY set to a program, its prints of the examples are compared too, with
WIRAMBOLO_SO set to the shared object of the doors, weights from a shape."""
import collections
import contextlib
import ctypes
import hashlib
import io
import math
import os
import random
import re
import resource
import socket
import stat
import struct
import subprocess
import sys
import tempfile
import time
import types
import unittest
from pathlib import Path
from unittest import mock

HERE = Path(__file__).resolve().parent
COMMAND = HERE.parent / "carton.py"
EXAMPLES = HERE.parents[2] / "examples"
sys.path.insert(0, str(HERE.parent))
import carton  # noqa: E402

KEY_CASES = [f"m{n}" for n in range(1, 12)] + ["example"]


def carton_of(path):
    return carton.seal(carton.read_description(path).words)


def run(*words, **options):
    """The command with these words; what it writes is kept as bytes."""
    options = {"stdout": subprocess.PIPE, "stderr": subprocess.PIPE, **options}
    return subprocess.run([sys.executable, "-B", COMMAND, *words], **options)


def shell(line, folder):
    """A line of the shell in a folder, with the command as $CARTON."""
    return subprocess.run(["sh", "-c", line], cwd=folder, env={**os.environ, "CARTON": f"{sys.executable} -B {COMMAND}"}, capture_output=True, text=True)


class Described(unittest.TestCase):
    """A folder with descriptions of the test's own beside cell U."""

    def setUp(self):
        folder = tempfile.TemporaryDirectory()
        self.addCleanup(folder.cleanup)
        self.folder = Path(folder.name)
        (self.folder / "u.txt").write_text((EXAMPLES / "u.txt").read_text())

    def described(self, text):
        path = self.folder / "own.txt"
        path.write_text(text)
        return path

    def changed(self, text):
        """Cell U with these statements."""
        return self.described("from: u.txt\n" + text)

    def assert_error(self, path, expected):
        """No carton can be made of the description, with this in the message."""
        with self.assertRaises(carton.DescriptionError) as caught:
            carton.read_description(path)
        self.assertIn(expected, str(caught.exception))

    def assert_told(self, told, status, expected):
        """The command ended so, with this in its messages and no trace of Python."""
        message = told.stderr if isinstance(told.stderr, str) else told.stderr.decode()
        self.assertEqual(told.returncode, status, message)
        self.assertIn(expected, message)
        self.assertNotIn("Traceback", message)
        self.assertNotIn("Exception ignored", message)


# ---- bytes

def bits(x):
    return struct.unpack("<Q", struct.pack("<d", x))[0]


def hand_made_u():
    """Cell U's carton, word by word from document 01."""
    one, two, four = bits(1.0), bits(2.0), bits(4.0)
    words = [1, 1, 1, 3, 1, 1, 1, 3, bits(0.5), 0]  # edition, P, S, F, G, vectors, compact, weight, cutoff, temperature
    words += [1, 1, 1] + [1, 0, 0, 0, 1, 0, 0, 0, 1] + [0, 0, 0]  # mesh, q matrix, triplet
    words += [0, 0, 0] + [0, 0, 0] + [1, 0] + [0] + [0] + [four]  # address, vector, multiplicity, p2s, s2p, mass
    words += [0, 1, 2] + [one, two, four]  # bands, frequencies
    words += [one, 0, 0, 0, 0, 0] + [0, 0, one, 0, 0, 0] + [0, 0, 0, 0, one, 0]  # eigenvectors, a row for each component
    words += [0] + [1] + [0] * 27  # all-shortest, nonzero, slot flags
    words += [0, 0, 0, 0, 0, bits(16.0)] + [0] * 21 + [two] * 27 + [0] * 27  # force constants, weights
    assert len(words) == 170
    words += [0] * 19
    file = b""
    for block in range(3):
        content = b"".join(word.to_bytes(8, "little") for word in words[63 * block:63 * block + 63]) + block.to_bytes(4, "little")
        check = sum(int.from_bytes(content[at:at + 4], "little") for at in range(0, 508, 4)) & 0xFFFFFFFF
        file += content + check.to_bytes(4, "little")
    return file


# SHA-256 of the cartons that the encoder of tools/rust/oracle makes of the key cases; its test key_cases makes them again
ORACLE = {
    "m1": "ffde496be57e2c00c39be83f0ed18fbdd3b3bfebdfce70124fb1999810494110",
    "m2": "d153cdfd1470d23759d033eeda234a40ed9f7739037a7558a6c3fabdff0c47b2",
    "m3": "45e8258a222a1655065bdcdaaaf1e86e56e952be810151a38ea3087e84a0c718",
    "m4": "b66bec0d9c7b74c1c4835cbdedc0262f5210bbd1e5d666bea3197865422c3371",
    "m5": "5f4fa9ed8aeacb69dcc3a9e730154823e1fc0c259ed4883bdfd256ec2c3292a3",
    "m6": "43ee3384bb1aaa851403a96d1c856f960ed8fd4e8ea820cade94fb2149d7d6fd",
    "m7": "afd764442d6df779e4bef16ff6abcf3baebc5aca3865c106a29d61be7b4fd6f6",
    "m8": "4d85176fe571f6cd8fb9bbf2e2337c360dbef2a659f442d4d0311e5b32570f0c",
    "m9": "da23ca3a42a9bd857c0b2831b6d1f98d855e03b3848a4408c00af13fb50aa090",
    "m10": "88c2771d1ffef4ffd57f30601d31bb87e75a3684023ebd7de85a703d55b31f55",
    "m11": "cb4f8b72c1a12ce7d63e8fc339e3f88da330b9ac838c1ddf77db2efaa40de2e6",
    "example": "edd7e917d98f448143a3c14dd06ce438f6962fbd54bf353d9c33dd190b2ffa3e",
}


class Bytes(Described):
    def test_hand_made(self):
        self.assertEqual(carton_of(EXAMPLES / "u.txt"), hand_made_u())

    def test_oracle(self):
        for name in KEY_CASES:
            with self.subTest(name):
                self.assertEqual(hashlib.sha256(carton_of(EXAMPLES / f"{name}.txt")).hexdigest(), ORACLE[name])

    def test_values(self):
        """Decimals, bits, signs, repeats and commas."""
        words = carton.read_description(self.changed("weight: 0xffffffffffffffff\ncutoff: 0x3fe0000000000000\ntemperature: -0.0\nfrequencies: 1e-3, 2*+.5\nbands: 3*-2\n")).words
        self.assertEqual(words[7:10], [2**64 - 1, bits(0.5), 2**63])
        self.assertEqual(words[36:39], [2**64 - 2] * 3)
        self.assertEqual(words[39:42], [bits(0.001), bits(0.5), bits(0.5)])

    def test_commas(self):
        """A comma parts values where a blank or a sign stands beside it, and indices always."""
        plain = carton_of(self.changed("frequencies: 1 -2 4\nslot flags:\n    0 1 2 = 1\n"))
        for frequencies in ("1, -2, 4", "1,-2, 4", "1 ,-2 ,4", "1 , -2 , 4,", "1,\t-2,\n    4"):
            with self.subTest(frequencies):
                self.assertEqual(carton_of(self.changed(f"frequencies: {frequencies}\nslot flags:\n    0,1,2 = 1\n")), plain)

    def test_encoding(self):
        """A byte-order mark and line ends of any system change nothing, nor do characters in comments."""
        text = (EXAMPLES / "u.txt").read_bytes() + "# Zelle U, größer als −1\n".encode()
        for changed in (b"\xef\xbb\xbf" + text, text.replace(b"\n", b"\r\n"), text.replace(b"\n", b"\r")):
            (self.folder / "u.txt").write_bytes(changed)
            self.assertEqual(carton_of(self.folder / "u.txt"), hand_made_u())
            self.assertEqual(carton_of(self.changed("")), hand_made_u())

    def test_long_chain(self):
        """Descriptions that start from one another, more than Python nests calls."""
        for n in range(2000):
            (self.folder / f"c{n}.txt").write_text(f"from: {f'c{n - 1}' if n else 'u'}.txt\n")
        self.assertEqual(carton_of(self.folder / "c1999.txt"), hand_made_u())

    def test_defaults(self):
        """The choices and the flag tables may be left out."""
        text = (EXAMPLES / "u.txt").read_text()
        kept = [line for line in text.splitlines() if not line.startswith(("form", "anchoring", "symmetrized", "all-shortest", "nonzero", "slot flags"))]
        self.assertEqual(carton_of(self.described("\n".join(kept))), hand_made_u())


# ---- there and back

TWO_ATOMS = """
# two atoms in a supercell of four, full force constants, two grid points
form: full
anchoring: averaged
symmetrized: yes
weight: 2147483647
cutoff: 1e-3
temperature: 0x7ff8000000000001   # a NaN: `key` refuses it with 4
mesh: 2 1 1
q matrix: 1 0 0  0 1 0  0 0 1
triplet: 0 1 1
addresses:
    0 0 0
    1 0 -1
vectors: 0 0 0  0.1 0.2 0.3  -0.0 5e-324 1.7976931348623157e308
multiplicity: all 1 0
    3 1 = 2 1
p2s: 0 2
s2p: 0 0 2 2
masses: 28.0855 69.723
bands: 5 0 5
frequencies: 12*1.25
eigenvectors: all 0.5 -0.5
    1 5 5 = 0.1 0.2
slot flags: all 0
    2 5 5 = 255
force constants: all 0
    3 3 3 2 2 2 = -1e-9
first weights: all 1
second weights: all 0
"""


class RoundTrip(Described):
    def back(self, file):
        text, right = carton.show(file)
        self.assertTrue(right, text)
        return carton_of(self.described(text))

    def test_key_cases(self):
        for name in KEY_CASES:
            with self.subTest(name):
                file = carton_of(EXAMPLES / f"{name}.txt")
                self.assertEqual(self.back(file), file)

    def test_two_atoms(self):
        file = carton_of(self.described(TWO_ATOMS))
        self.assertEqual(len(file) // 512, 38)
        self.assertEqual(self.back(file), file)

    def test_no_bands(self):
        """Tables of no length: `key` refuses them with 1, and the carton is well made."""
        for text in ("bands:\n", "bands:\nshape: box\nwidth: 1\n"):
            file = carton_of(self.changed(text))
            self.assertEqual(self.back(file), file)

    def test_shape(self):
        """The weights come back, not the shape; infinite ones and NaNs too."""
        for width in ("0.3", "5e-324"):
            file = carton_of(self.changed(f"frequencies: 0.1 0.2 0.3\nshape: gaussian\nwidth: {width}\n"))
            self.assertEqual(self.back(file), file)


# ---- bad descriptions

ERRORS = [
    ("colour: 3\n", "own.txt:2: no table is named `colour`"),
    ("frequncies: 1 2 4\n", "is `frequencies` meant?"),
    ("cutoff 1\n", "own.txt:2: `cutoff 1`: a name, a colon and values were expected"),
    ("cutoff: 1\ncutoff: 2\n", "own.txt:3: cutoff: given twice, first in line 2"),
    ("cutoff: half\n", "own.txt:2: cutoff: `half`: a decimal"),
    ("cutoff: 1e999\n", "cutoff: `1e999`: a decimal"),
    ("cutoff: 0x3fe\n", "cutoff: `0x3fe`: a decimal"),
    ("cutoff: 1 2\n", "cutoff: 2 values where one was expected"),
    ("weight: 9223372036854775808\n", "weight: `9223372036854775808`: a whole number of 64 bits"),
    ("weight: 1.5\n", "weight: `1.5`: a whole number of 64 bits"),
    ("anchoring: none\n", "anchoring: `none`: plain or averaged was expected"),
    ("frequencies: 1 2\n", "own.txt:2: frequencies: 2 values where 3 were expected: 1 (G) · 3 (B)"),
    ("eigenvectors:\n    6*1\n", "eigenvectors: 6 values where 18 were expected: 1 (G) · 3 (B) · 3 (B) · 2 (real part, imaginary part)"),
    ("frequencies:\n    1 2\n    x\n", "own.txt:4: frequencies: value 2, `x`: a decimal"),
    ("frequencies: x*1\n", "frequencies: value 0, `x*1`: a repeated value, such as 27*0, was expected"),
    ("slot flags: all 256\n", "slot flags: value 0, `256`: a flag from 0 to 255 was expected"),
    ("slot flags:\n    0 3 1 = 1\n", "own.txt:3: slot flags: j 3: 0 to 2 was expected"),
    ("slot flags:\n    0 1 = 1\n", "own.txt:3: slot flags: `0 1` in front of the equals sign, where numbers for b, j, k were expected"),
    ("multiplicity: all 1\n", "multiplicity: 1 values where 2 (count, start) were expected for an entry"),
    ("multiplicity:\n    0 0 = 1 0 0\n", "multiplicity: 3 values where 2 (count, start) were expected for an entry"),
    ("first weights: 1 2 3\n    all 2\n", "own.txt:3: first weights: `all` behind other values"),
    ("first weights: all 2\n    1 2 3\n", "own.txt:3: first weights: values behind `all`"),
    ("triplet: = 0 0 0\n", "triplet: an equals sign, where the values alone were expected"),
    ("addresses: 0 0\n", "G, the number of grid points, is not given, and addresses does not list whole entries to count"),
    ("P: some\n", "P: `some`: a number of atoms of the primitive cell was expected"),
    ("P: 2\n", "multiplicity: 2 values where 4 were expected: 1 (S) · 2 (P) · 2 (count, start)"),
    ("masses: all 4\n", "own.txt:2: masses: P, the number of atoms of the primitive cell, is not given"),
    ("G: 9999999\n", "addresses: 29999997 values are more than 1000000: 9999999 (G) · 3 (direction 0, direction 1, direction 2)"),
    ("from: u.txt\n", "own.txt:2: from: given twice, first in line 1"),
    ("bands: 0 1 2\n    0 = 1 2\n", "own.txt:3: bands: 2 values where 1 were expected for an entry"),
    # many digits
    ("slot flags:\n    0 " + "9" * 5000 + " 1 = 1\n", "own.txt:3: slot flags: j 99999999999999999999: 0 to 2 was expected"),
    ("frequencies: " + "x" * 5000 + "\n", "value 0, `xxxxxxxxxxxxxxxxxxxxxxxxxxxxxxxxxxxxx...`: a decimal"),
    ("first weights: 9999999*1\n", "own.txt:2: first weights: more than 1000000 values"),
    # commas
    ("frequencies: 1,5 2 4\n", "own.txt:2: frequencies: value 0, `1,5`: a decimal comma is not taken: write `1.5`, or `1, 5` for 2 values"),
    ("frequencies:\n    1 2\n    -2,4\n", "own.txt:4: frequencies: value 2, `-2,4`: a decimal comma is not taken: write `-2.4`, or `-2, 4` for 2 values"),
    ("frequencies: 3*1,5\n", "frequencies: value 0, `3*1,5`: a decimal comma is not taken: write `3*1.5`, or `3*1, 5` for 2 values"),
    ("frequencies: 1,2,4\n", "frequencies: value 0, `1,2,4`: a comma between two digits needs a blank behind it: write `1, 2, 4` for 3 values"),
    ("frequencies: 1,,2 4\n", "frequencies: value 0, `1,,2`: a comma between two digits needs a blank behind it: write `1, 2` for 2 values"),
    ("bands: 0, 1,2\n", "bands: value 1, `1,2`: a comma between two digits needs a blank behind it: write `1, 2` for 2 values"),
    ("vectors: all 0,5 0\n", "vectors: value 0, `0,5`: a decimal comma is not taken: write `0.5`"),
    ("vectors:\n    0 = 0 0,5\n", "own.txt:3: vectors: value 1, `0,5`: a decimal comma is not taken: write `0.5`"),
    ("cutoff: 0,5\n", "cutoff: `0,5`: a decimal, such as 0.5 or -1e-3, or the 16 hexadecimal digits of its bits, such as 0x3fe0000000000000 was expected; a decimal comma is not taken: write `0.5`"),
    ("weight: 1,000\n", "a comma within a number is not taken"),
    ("P: 1,5\n", "P: `1,5`: a number of atoms of the primitive cell was expected"),
    # other digits, blanks and signs than those of ASCII
    ("frequencies: 1 ２ 4\n", "own.txt:2: frequencies: value 1, `２`: a decimal, such as 0.5"),
    ("frequencies: 1 ２ 4\n", "; U+FF12, FULLWIDTH DIGIT TWO, was found, and names and values are written in ASCII"),
    ("frequencies: 1 1e٣ 4\n", "frequencies: value 1, `1e٣`: a decimal"),
    ("bands: 0 1 ٢\n", "bands: value 2, `٢`: a whole number"),
    ("slot flags: all １\n", "slot flags: value 0, `１`: a flag"),
    ("frequencies: ３*1\n", "frequencies: value 0, `３*1`: a repeated value, such as 27*0, was expected; U+FF13"),
    ("slot flags:\n    0 １ 2 = 1\n", "own.txt:3: slot flags: `0 １ 2` in front of the equals sign, where numbers for b, j, k were expected; U+FF11"),
    ("weight: ３\n", "weight: `３`: a whole number"),
    ("P: １\n", "P: `１`: a number of atoms of the primitive cell was expected; U+FF11"),
    ("frequencies: 1\u00a0000 2\n", "frequencies: value 0, `1\\u00a0000`: a decimal"),
    ("frequencies: −1 2 4\n", "U+2212, MINUS SIGN, was found"),
    ("frequencies: 1\x0b2 4 5\n", "U+000B, a control character, was found"),
    ("cutoff\u00a0: 1\n", "no table is named `cutoff\\u00a0`; is `cutoff` meant?; U+00A0, NO-BREAK SPACE"),
    ("frequencies: 1_000 2 4\n", "frequencies: value 0, `1_000`: a decimal"),
    ("weight: 1_000\n", "weight: `1_000`: a whole number"),
    # which statement set a measure; {u} is the path of cell U
    ("frequencies: 1 2\n", "1 (G) · 3 (B); G = 1 is counted from addresses at {u}:18; B = 3·P; P = 1 is counted from masses at {u}:24"),
    ("P: 2\n", "2 (count, start); S = 1 is counted from s2p at {u}:23; P = 2 is stated at {own}:2"),
    ("masses: 4 4\n", "{u}:21: multiplicity: 2 values where 4 were expected: 1 (S) · 2 (P) · 2 (count, start); S = 1 is counted from s2p at {u}:23; P = 2 is counted from masses at {own}:2"),
    ("masses:\n    0 = 5\nfrequencies: 1 2\n", "P = 1 is counted from masses at {u}:24"),
    ("S: 02\n", "; S = 2 is stated at {own}:2; P = 1 is counted"),
    ("V: 2\n", "{u}:20: vectors: 3 values where 6 were expected: 2 (V) · 3 (direction 0, direction 1, direction 2); V = 2 is stated at {own}:2"),
    ("first weights: 1 2\n", "; F = 3 is counted from bands at {u}:26; B = 3·P; P = 1 is counted from masses at {u}:24"),
    ("nonzero: 1 1\n", "1 (R) · 1 (S) · 1 (S); R = P, as the form is compact, stated at {u}:4; P = 1 is counted from masses at {u}:24; S = 1 is counted from s2p at {u}:23"),
    ("form: full\nnonzero: 1 1\n", "; R = S, as the form is full, stated at {own}:2; S = 1 is counted from s2p at {u}:23"),
    ("G: 9999999\n", "; G = 9999999 is stated at {own}:2"),
    ("slot flags:\n    0 3 1 = 1\n", "j 3: 0 to 2 was expected; B = 3·P; P = 1 is counted from masses at {u}:24"),
    # the list is at fault, not the statement that changes an entry of it
    ("P: 2\nmultiplicity:\n    0 0 = 1 0\n", "{u}:21: multiplicity: 2 values where 4 were expected"),
    # a shape
    ("shape: box\n", "own.txt:2: shape: given without width: a shape and its width go together"),
    ("width: 1\n", "own.txt:2: width: given without shape: a shape and its width go together"),
    ("width: 1\nfirst weights: all 1\n", "own.txt:2: width: given without shape"),
    ("shape: cauchy\nwidth: 1\n", "own.txt:2: shape: `cauchy`: gaussian, lorentzian or box was expected"),
    ("shape: Box\nwidth: 1\n", "own.txt:2: shape: `Box`: gaussian, lorentzian or box was expected"),
    ("shape: box 1\nwidth: 1\n", "own.txt:2: shape: 2 values where one was expected"),
    ("shape: box\nwidth:\n", "own.txt:3: width: 0 values where one was expected"),
    ("shape: box\nwidth: wide\n", "own.txt:3: width: `wide`: a decimal"),
    ("shape: box\nwidth: 1e999\n", "own.txt:3: width: `1e999`: a decimal"),
    ("shape: box\nwidth: 0,5\n", "a decimal comma is not taken: write `0.5`"),
    ("shape: box\nwidth: 1\nslot flags: all 0\n", "own.txt:4: slot flags: given beside the shape at {own}:2, which stands in place of slot flags, first weights and second weights"),
    ("slot flags:\n    0 1 2 = 1\nwidth: 1\nshape: box\n", "own.txt:2: slot flags: given beside the shape at {own}:5"),
    ("shape: box\nwidth: 1\nfirst weights: all 2\n", "own.txt:4: first weights: given beside the shape at {own}:2"),
    ("shape: box\nwidth: 1\nsecond weights:\n    0 0 0 = 1\n", "own.txt:4: second weights: given beside the shape at {own}:2"),
    ("bands: 120000*0\nshape: box\nwidth: 1\n", "slot flags: 1080000 values are more than 1000000: 120000 (F) · 3 (B) · 3 (B)"),
    # what its door refuses: the lowest number that applies
    ("shape: box\nwidth: 0\n", "own.txt:3: width: `0`: a finite number above zero was expected; the door of weights from a shape refuses it with 13"),
    ("shape: gaussian\nwidth: -0.0\n", "own.txt:3: width: `-0.0`: a finite number above zero was expected; the door of weights from a shape refuses it with 13"),
    ("shape: lorentzian\nwidth: -5e-324\n", "width: `-5e-324`: a finite number above zero was expected; the door of weights from a shape refuses it with 13"),
    ("shape: box\nwidth: 0x7ff0000000000000\n", "width: `0x7ff0000000000000`: a finite number above zero was expected; the door of weights from a shape refuses it with 4"),
    ("shape: box\nwidth: 0xfff0000000000000\n", "width: `0xfff0000000000000`: a finite number above zero was expected; the door of weights from a shape refuses it with 4"),
    ("shape: box\nwidth: 0x7ff8000000000000\n", "width: `0x7ff8000000000000`: a finite number above zero was expected; the door of weights from a shape refuses it with 4"),
    ("shape: box\nwidth: 0\nfrequencies: 1 0x7ff0000000000000 4\n", "own.txt:4: frequencies: grid point 0, band 1, `0x7ff0000000000000`: a finite number was expected; the door of weights from a shape refuses it with 4"),
    ("shape: box\nwidth: 1\nbands: 0 3\nfrequencies: all 0x7ff8000000000000\n", "own.txt:4: bands: position 1, `3`: 0 to 2 was expected; the door of weights from a shape refuses it with 3; B = 3·P; P = 1 is counted from masses at {u}:24"),
    ("shape: box\nwidth: 1\nbands: -1\n", "bands: position 0, `-1`: 0 to 2 was expected; the door of weights from a shape refuses it with 3"),
    ("shape: box\nwidth: 1\ntriplet: 0 0 1\n", "own.txt:4: triplet: third point, `1`: 0 to 0 was expected; the door of weights from a shape refuses it with 3; G = 1 is counted from addresses at {u}:18"),
    ("shape: box\nwidth: 1\ntriplet: 0 -1 0\n", "triplet: second point, `-1`: 0 to 0 was expected"),
    ("shape: box\nwidth: 1\naddresses:\nfrequencies:\neigenvectors:\n", "{u}:17: triplet: first point, `0`: none is there; the door of weights from a shape refuses it with 3"),
]


class Errors(Described):
    def test_changes(self):
        for text, expected in ERRORS:
            with self.subTest(text):
                self.assert_error(self.changed(text), expected.replace("{u}", f"{self.folder}/u.txt").replace("{own}", f"{self.folder}/own.txt"))

    def test_line_with_no_name(self):
        self.assert_error(self.described("   1 2 3\n"), "own.txt:1: a line that goes on with the one above")

    def test_left_out(self):
        text = (EXAMPLES / "u.txt").read_text()
        self.assert_error(self.described(text.replace("cutoff: 0.5\n", "")), "own.txt: cutoff is not given")
        self.assert_error(self.described(text.replace("p2s: 0\n", "")), "own.txt: p2s is not given: 1 values were expected: 1 (P); P = 1 is counted from masses at")
        self.assert_error(self.described(text.replace("masses: 4\n", "")), "own.txt: P, the number of atoms of the primitive cell, is not given, and masses does not list")
        text = text.replace("form: compact\n", "").replace("nonzero: all 1", "nonzero: 1 1")
        self.assert_error(self.described(text), "; R = P, as the form is compact, by default; P = 1 is counted")

    def test_files(self):
        self.assert_error(self.described("\nfrom: nowhere.txt\n"), f"own.txt:2: from: {self.folder}/nowhere.txt: cannot be read: No such file or directory")
        self.assert_error(self.described("from: own.txt\n"), f"own.txt:1: from: {self.folder}/own.txt starts from itself")
        self.assert_error(self.described("from: u.txt\n    u.txt\n"), "own.txt:1: from: the name of one file was expected")
        (self.folder / "link.txt").symlink_to("own.txt")
        self.assert_error(self.described("from: link.txt\n"), "link.txt starts from itself")

    def test_encoding(self):
        path = self.folder / "own.txt"
        for encoding in ("utf-16", "utf-16-le", "utf-16-be"):
            text = "\ufeff" + (EXAMPLES / "u.txt").read_text() if encoding != "utf-16" else (EXAMPLES / "u.txt").read_text()
            path.write_bytes(text.encode(encoding))
            self.assert_error(path, "own.txt: is UTF-16: save it as UTF-8")
        path.write_bytes(b"# text\n" + "cutoff: 1".encode("utf-16-le"))
        self.assert_error(path, "own.txt:2: a byte 0, where a description, text in UTF-8, was expected")
        path.write_bytes(hand_made_u())
        self.assert_error(path, "or a carton?")
        path.write_bytes(b"\xef\xbb\xbffrom: u.txt\r\n\r\n# gr\xf6\xdfer\r\n")
        self.assert_error(path, "own.txt:3: byte 0xf6 is no UTF-8: save the description as UTF-8")

    def test_command(self):
        """The message goes to standard error, and nothing is written."""
        target = self.folder / "own.carton"
        told = run("make", self.changed("cutoff: half\n"), "-o", target)
        self.assert_told(told, 2, "cutoff: `half`")
        self.assertEqual((told.stdout, told.stderr.count(b"\n")), (b"", 1))
        self.assertFalse(target.exists())

    def test_pipe(self):
        """Where the carton should have gone to a program, its answer is said to be none."""
        told = run("make", self.changed("cutoff: half\n"))
        self.assert_told(told, 2, "such as `refused 10` of `key`, is no answer to the description")
        self.assertEqual(told.stdout, b"")

    def test_safe_command(self):
        """The README's line leaves no key of a misspelt description, and one of a right one."""
        line = "$CARTON make own.txt -o own.carton && cat < own.carton > own.key"
        self.changed("cutoff: half\n")
        self.assert_told(shell(line, self.folder), 2, "cutoff: `half`")
        self.assertFalse((self.folder / "own.key").exists())
        self.changed("cutoff: 0.5\n")
        self.assert_told(shell(line, self.folder), 0, "")
        self.assertEqual((self.folder / "own.key").read_bytes(), hand_made_u())


# ---- cartons that are damaged or too large

def with_word(place, word):
    words = carton.read_description(EXAMPLES / "u.txt").words + [0] * 19
    words[place] = word
    return carton.seal(words)


class Damage(Described):
    def assert_wrong(self, file, expected):
        text, right = carton.show(file)
        self.assertFalse(right)
        self.assertIn("## wrong, " + expected, text)

    def test_file(self):
        u = hand_made_u()
        self.assert_wrong(b"", "10: 0 bytes")
        self.assert_wrong(u[:-1], "10: 1535 bytes")
        self.assert_wrong(u * 33, "10: 99 blocks, where at most 96 were expected")

    def test_blocks(self):
        u = bytearray(hand_made_u())
        u[512] ^= 1
        self.assert_wrong(bytes(u), "11: block 1 has the check")
        u = hand_made_u()
        self.assert_wrong(u[:512] + u[1024:] + u[512:1024], "11: block 1 has the number 2")

    def test_heading(self):
        self.assert_wrong(with_word(0, 2), "12: edition 2, where 1 was expected")
        self.assert_wrong(with_word(6, 8), "12: flag bits 0000000000000008")
        self.assert_wrong(with_word(1, 2**63), "12: P below 0")
        self.assert_wrong(with_word(1, 4), "12: W is 9560")
        self.assert_wrong(with_word(4, 100), "12: 2546 words, as the measures have it, fill 41 blocks, and there are 3")
        self.assert_wrong(with_word(188, 1), "12: word 188, behind the tables, is 0000000000000001")
        self.assert_wrong(with_word(67, 256), "12: slot flags, b 0, j 1, k 2: 0000000000000100")
        self.assert_wrong(hand_made_u() + carton.seal([0]), "11: block 3 has the number 0")

    def test_too_large(self):
        """A carton that `key` does not take is made, with a note."""
        told = io.StringIO()
        arguments = type("Arguments", (), {"description": self.changed("G: 1000\naddresses: all 0 0 0\nfrequencies: all 1\neigenvectors: all 1 0\n"), "output": self.folder / "large.carton"})
        with contextlib.redirect_stderr(told):
            self.assertEqual(carton.make_command(arguments), 0)
        self.assertIn("`key` takes 96: it refuses this carton with 10", told.getvalue())


# ---- notes

class Notes(Described):
    def notes(self, text):
        return list(carton.notes_on(carton.read_description(self.changed(text))))

    def test_temperature(self):
        """Cell U's highest frequency is 4."""
        self.assertEqual(self.notes("temperature: 40\n"), [])
        self.assertEqual(self.notes("temperature: 0x4044000000000001\n"), [
            f"{self.folder}/own.txt:2: temperature: 40 is above ten times the highest frequency, 4; "
            "it is taken in the unit of the frequencies: for frequencies in THz, kelvin times 0.0208366"])
        self.assertEqual(len(self.notes("temperature: 300\nfrequencies: 0x7ff8000000000000 1 5\n")), 1)
        self.assertEqual(self.notes("temperature: 300\nfrequencies: 31 -5 2\n"), [])
        self.assertEqual(self.notes("temperature: 0x7ff8000000000000\n"), [])
        self.assertEqual(self.notes("temperature: 300\nfrequencies: all 0x7ff8000000000000\n"), [])
        self.assertEqual(len(self.notes("temperature: 1\nfrequencies: all -1\n")), 1)

    def test_addresses(self):
        three = "addresses: 0 0 0  1 2 -1  2 1 -4\nfrequencies: all 1\neigenvectors: all 1 0\n"
        self.assertEqual(self.notes(three + "mesh: 3 3 5\ntriplet: 0 1 2\n"), [])
        self.assertEqual(self.notes(three + "mesh: 3 3 5\ntriplet: 1 1 2\n"), [
            f"{self.folder}/own.txt:6: triplet: the addresses of its points add up to 4 5 -6; those of a physical triplet add up to multiples of the mesh, 3 3 5"])
        for direction, mesh in enumerate(("2 3 5", "3 2 5", "3 3 4")):
            with self.subTest(direction):
                self.assertEqual(len(self.notes(three + f"mesh: {mesh}\ntriplet: 0 1 2\n")), 1)

    def test_addresses_that_key_refuses(self):
        """A point that is none, or a mesh of no divisions: there is no sum to speak of."""
        for text in ("triplet: 0 0 1\n", "triplet: -1 0 0\nmesh: 2 1 1\naddresses: 1 0 0\n", "mesh: 0 1 1\n", "mesh: -2 1 1\naddresses: 1 0 0\n"):
            with self.subTest(text):
                self.assertEqual(self.notes(text), [])

    def test_infinite_weights(self):
        """Weights from a shape that `key` refuses; those that are typed are no concern."""
        self.assertEqual(self.notes("shape: box\nwidth: 0.5\n"), [])
        self.assertEqual(self.notes("frequencies: 0 1 4\nbands: 0 1\nshape: box\nwidth: 5e-324\n"), [
            f"{self.folder}/own.txt:5: width: a weight is infinite or a NaN in 5 of 18 slots, 0 0 0, 0 1 1, 0 2 2, 1 0 1, 1 1 0: `key` refuses this carton with 4"])
        self.assertEqual(self.notes("width: 1e-200\nfrequencies: all 0\nshape: lorentzian\n"), [
            f"{self.folder}/own.txt:2: width: a weight is infinite or a NaN in 27 of 27 slots, 0 0 0, 0 0 1, 0 0 2, 0 1 0, 0 1 1 and 22 more: `key` refuses this carton with 4"])
        self.assertEqual(self.notes("first weights: all 0x7ff0000000000000\n"), [])

    def test_replaced_flags(self):
        """Flags that a shape replaces, if they are other than all 0, as cell U's are."""
        base, between = self.folder / "base.txt", self.folder / "between.txt"
        between.write_text("from: base.txt\nshape: box\nwidth: 0.5\n")
        for flags in ("slot flags: all 1\n", "slot flags:\n    0 1 2 = 1\n", "slot flags: 26*0 1\n"):
            base.write_text("from: u.txt\n" + flags)
            for text, shape in ((between.read_text(), "own.txt:2"), ("from: between.txt\nwidth: 0.25\n", "between.txt:2"), ("from: between.txt\nshape: gaussian\n", "own.txt:2")):
                with self.subTest(flags + text):
                    notes = list(carton.notes_on(carton.read_description(self.described(text))))
                    self.assertEqual(notes, [f"{base}:2: slot flags: the shape at {self.folder}/{shape} gives others in their place"])

    def test_examples(self):
        """The examples are made without a note."""
        for path in sorted(EXAMPLES.glob("*.txt")):
            with self.subTest(path.name):
                self.assertEqual(list(carton.notes_on(carton.read_description(path))), [])

    def test_command(self):
        """A note goes to standard error, and the carton is the same."""
        told = run("make", self.changed("temperature: 300\n"))
        self.assert_told(told, 0, "carton: note: ")
        self.assertEqual(told.stdout, carton_of(self.folder / "own.txt"))

    def test_standard_error_closed(self):
        """Where nobody can be told, the note is not among the bytes."""
        self.changed("temperature: 300\n")
        for where in ("2>&-", "2>/dev/full"):
            with self.subTest(where):
                told = shell(f"$CARTON make own.txt > own.carton {where}", self.folder)
                self.assertEqual((told.returncode, told.stderr), (0, ""))
                self.assertEqual((self.folder / "own.carton").read_bytes(), carton_of(self.folder / "own.txt"))


# ---- weights from a shape

# width, distance and the value's bits, worked in whole numbers: inside, at the edge, beyond it, and where a number is too large or too small for an f64
VALUES = {
    "gaussian": [
        (0.5, 0.0, 0x3FE9884533D43651),
        (0.5, 0.5, 0x3FDEF8E58E331738),
        (0.5, -1.3, 0x3F9BD163452149B8),
        (0.5, 4.0, 0x3D06C0DF3A094836),
        (0.5, -4.0, 0x3D06C0DF3A094836),
        (0.5, 4.000000000000001, 0),
        (0.5, -4.000000000000001, 0),
        (0.5, 5.0, 0),
        (0.1, 0.3, 0x3FA6B0E98FCD5431),
        (0.1, 0.7, 0x3DD91BFCEFE51DD0),
        (0.1, 0.7999999999999999, 0x3D2C7117088B9A7A),
        (0.1, 0.8, 0x3D2C7117088B9A43),
        (0.1, 0.8000000000000002, 0),
        (0.3, 1.0, 0x3F750EA7E2AFD3E2),
        (1.9999999999999998, 15.999999999999998, 0x3CE6C0DF3A094836),
        (1.9999999999999998, 16.0, 0),
        (1e300, 1e300, 0x0184BDECF83E9CC6),
        (1.7976931348623157e308, 0.0, 0x00019884533D4365),
        (1.7976931348623157e308, 1.7976931348623157e308, 0x0000F7C72C7198BA),
        (1.7976931348623157e308, math.inf, 0),
        (1e-308, 5e-308, 0x7EABC0019E1188F1),
        (5e-324, 4e-323, 0x7FF0000000000000),
        (5e-324, 4.4e-323, 0),
    ],
    "lorentzian": [
        (0.5, 0.0, 0x3FE45F306DC9C883),
        (0.5, 0.5, 0x3FD45F306DC9C883),
        (0.5, 3.0, 0x3F919E6F12D8075D),
        (0.1, -0.7, 0x3FB04C26BE3B06D0),
        (0.1, 1e10, 0x3B780D0236478ACD),
        (1e-160, 3e-161, 0x610A96F1C5037204),
        (1e-200, 1e-200, 0x7FF0000000000000),
        (1e-200, 0.001, 0x178DBE13BC7E6746),
        (5e-324, 0.0, 0x7FF0000000000000),
        (5e-324, 1.0, 0),
        (1e154, 1e154, 0),
        (1.7976931348623157e308, 0.0, 0),
        (1.0, 1e200, 0),
        (1.0, -math.inf, 0),
    ],
    "box": [
        (0.25, 0.0, 0x4000000000000000),
        (0.25, 0.25, 0x4000000000000000),
        (0.25, -0.25, 0x4000000000000000),
        (0.25, 0.25000000000000006, 0),
        (0.25, -0.25000000000000006, 0),
        (0.25, -math.inf, 0),
        (0.3, 0.1, 0x3FFAAAAAAAAAAAAB),
        (0.3, 0.3, 0x3FFAAAAAAAAAAAAB),
        (0.3, 0.30000000000000004, 0),
        (5.562684646268003e-309, 0.0, 0x7FE0000000000000),
        (5e-324, 5e-324, 0x7FF0000000000000),
        (5e-324, 1e-323, 0),
        (1.7976931348623157e308, 0.0, 0),
    ],
}

# three grid points, of which the triplet takes the last first: f1 of the first, f2 of the second, f0 of the third
THREE_POINTS = "addresses: 0 0 0  1 0 0  2 0 0\nmesh: 3 1 1\ntriplet: 2 0 1\neigenvectors: all 1 0\n"
DECIMALS = THREE_POINTS + "bands: 1\nfrequencies: 0.7 1.9 3.1  1.1 2.3 3.7  9 3.3 0\n"
INFINITE, NAN = 0x7FF0000000000000, 0x7FF8000000000000
# a change to cell U, the number of its slots, and flag, first and second weight of each that is not flagged, by number; worked as the values above
SLOTS = [
    (DECIMALS + "shape: gaussian\nwidth: 0.2\n", 9, {
        0: (0, 0x3D75699A3EEDE709, 0),
        1: (0, 0x3FE4B90A6C86A62E, 0),
        2: (0, 0x3EA21193A3B725A1, 0x3FE4B90A6C86A62E),
        3: (0, 0x3FE4B90A6C86A62E, 0),
        4: (0, 0x3F14F340E80C4ECC, 0),
        5: (0, 0, 0x3D75699A3EEDE74A),
        6: (0, 0x3F14F340E80C4E82, 0xBE16EE6AC59D9E46),
    }),
    (DECIMALS + "shape: lorentzian\nwidth: 0.3\n", 9, {
        0: (0, 0x3FA4E4E9772ADACB, 0x3F71A1BEDD3C6D90),
        1: (0, 0x3FE0F9FDB0D2D1C5, 0x3F9CC1984713F2A8),
        2: (0, 0x3FB2CE0551A691AF, 0x3FE0E6536BADF4BB),
        3: (0, 0x3FE0F9FDB0D2D1C5, 0xBF834657935D8422),
        4: (0, 0x3FBB2995E7B7B605, 0x3F71A1BEDD3C6D96),
        5: (0, 0x3F922CF4F669CC96, 0x3FA3055AB6A2994A),
        6: (0, 0x3FBB2995E7B7B5FE, 0xBFA9BB8E0A727148),
        7: (0, 0x3F95BADE52F95E6A, 0xBF834657935D8426),
        8: (0, 0x3F7FB2651360F595, 0x3F7B6F6BB40DAA3F),
    }),
    # by hand: 12 = 4 + 8, 2 + 3 = 5 and 2 + 2 = 4
    (THREE_POINTS + "bands: 2 0\nfrequencies: 1 3 4  2 5 8  2 6 12\nshape: box\nwidth: 0.5\n", 18, {
        8: (0, bits(1.0), 0),
        13: (0, 0, bits(1.0)),
        15: (0, 0, bits(-1.0)),
    }),
    # two shapes that are alike leave no weight, and no flag
    ("frequencies: 1 100 10000\nbands: 0\nshape: box\nwidth: 2\n", 9, {0: (0, bits(0.25), 0), 4: (0, 0, 0), 8: (0, 0, 0)}),
    # infinite, and infinite less infinite
    ("frequencies: 0 1 4\nbands: 0 1\nshape: box\nwidth: 5e-324\n", 18, {
        0: (0, INFINITE, NAN),
        4: (0, 0, NAN),
        8: (0, 0, NAN),
        10: (0, INFINITE, INFINITE),
        12: (0, INFINITE, INFINITE + 2**63),
    }),
    # the sum of the first two is infinite, and so are eight widths
    ("frequencies: all 1.7976931348623157e308\nbands: 0\nshape: gaussian\nwidth: 1.7976931348623157e308\n", 9,
     dict.fromkeys(range(9), (0, 0x0000F7C72C7198BA, 0x8000F7C72C7198BA))),
]

# text of carton.py and a mistake in its place
MISTAKES = [
    # the Gaussian: its edge, its order of operations, its constant
    ("abs(d) > 8.0 * w", "abs(d) >= 8.0 * w"),
    ("abs(d) > 8.0 * w", "abs(d) > 7.0 * w"),
    ("abs(d) > 8.0 * w", "d > 8.0 * w"),
    ("1.0 / exponential(t * t / 2.0) * (GAUSSIAN_SCALE / w)", "1.0 / exponential(t * t / 2.0) * GAUSSIAN_SCALE / w"),
    ("1.0 / exponential(t * t / 2.0) * (GAUSSIAN_SCALE / w)", "GAUSSIAN_SCALE / w / exponential(t * t / 2.0)"),
    ("1.0 / exponential(t * t / 2.0)", "1.0 / math.exp(t * t / 2.0)"),
    ("1.0 / exponential(t * t / 2.0)", "1.0 / exponential(d * d / (w * w) / 2.0)"),
    ("0x3FD9884533D43651", "0x3FD9884533D43650"),
    # the exponential
    ("range(18, 0, -1)", "range(12, 0, -1)"),
    ("(x - k * LN_2_HIGH) - k * LN_2_LOW", "x - k * (LN_2_HIGH + LN_2_LOW)"),
    ("x > 709.0", "x > 1e400"),
    # the Lorentzian
    ("w / square if square > 0.0 else math.inf", "w / square"),
    ("(w / square if square > 0.0 else math.inf) * INVERSE_PI", "w * INVERSE_PI / square if square > 0.0 else math.inf"),
    ("square = d * d + w * w", "square = math.hypot(d, w) ** 2"),
    ("0x3FD45F306DC9C883", "0x3FD45F306DC9C882"),
    # the box
    ("abs(d) <= w", "abs(d) < w"),
    ("abs(d) <= w", "d <= w"),
    ("1.0 / (2.0 * w)", "0.5 / w"),
    # the slot
    ("(f0 - f1) - f2", "f0 - (f1 + f2)"),
    ("(f0 + f1) - f2", "f0 + (f1 - f2)"),
    ("(f0 - f1) + f2", "f0 - (f1 - f2)"),
    ("two - three", "three - two"),
    ("one == 0.0 and two == 0.0 and three == 0.0", "one == 0.0 and two - three == 0.0"),
    ("one == 0.0 and two == 0.0 and three == 0.0", "two == 0.0 and three == 0.0"),
    # the tables
    ("legs[0][band]", "legs[1][band]"),
    ("for f1 in legs[1] for f2 in legs[2]", "for f1 in legs[2] for f2 in legs[1]"),
    ("for f1 in legs[1] for f2 in legs[2]", "for f2 in legs[2] for f1 in legs[1]"),
    ('for band in tables["bands"]', 'for band in range(len(tables["bands"]))'),
    ('for point in tables["triplet"]]', 'for point in sorted(tables["triplet"])]'),
]


def mistaken(right, wrong):
    """carton.py with a mistake."""
    text = COMMAND.read_text()
    assert text.count(right) == 1, right
    module = types.ModuleType("mistaken")
    exec(compile(text.replace(right, wrong), "mistaken", "exec"), module.__dict__)
    return module


def slots_of(description):
    """Flag, first and second weight of each slot."""
    return list(zip(*(description.held[name] for name in ("slot flags", "first weights", "second weights"))))


class Shapes(Described):
    def wrong_answers(self, module):
        """The cases above in which a module answers otherwise."""
        for shape, values in VALUES.items():
            for width, distance, value in values:
                if module.word_of(module.SHAPES[shape](width, distance)) != value:
                    yield shape, width, distance
        for text, length, slots in SLOTS:
            if slots_of(module.read_description(self.changed(text))) != [slots.get(n, (1, 0, 0)) for n in range(length)]:
                yield text

    def test_answers(self):
        self.assertEqual(list(self.wrong_answers(carton)), [])

    def test_mistakes(self):
        """The cases find each mistake; an error of Python's is found too."""
        for right, wrong in MISTAKES:
            with self.subTest(wrong):
                module = mistaken(right, wrong)
                try:
                    self.assertNotEqual(next(self.wrong_answers(module), None), None)
                except (ArithmeticError, LookupError):
                    pass

    def test_rest(self):
        """Nothing else of the carton depends on the shape."""
        plain, shaped = (carton.read_description(self.changed(text)).held for text in ("", "shape: box\nwidth: 0.5\n"))
        self.assertEqual([name for name in plain if plain[name] != shaped[name]], ["slot flags", "first weights", "second weights"])
        self.assertEqual(list(plain), list(shaped))

    def test_layers(self):
        """A shape replaces the tables of the description that it starts from, and is changed as any statement is."""
        base = self.folder / "base.txt"
        slots = slots_of(carton.read_description(self.changed("shape: box\nwidth: 0.5\n")))
        for below, text in (("first weights: 27*1\nslot flags: all 1\n", "shape: box\nwidth: 0.5\n"), ("shape: gaussian\nwidth: 0.5\n", "shape: box\n"),
                            ("shape: box\nwidth: 4\n", "width: 0.5\n"), ("width: 0.5\n", "shape: box\n"), ("shape: box\n", "width: 0.5\n")):
            with self.subTest(below):
                base.write_text("from: u.txt\n" + below)
                self.assertEqual(slots_of(carton.read_description(self.described("from: base.txt\n" + text))), slots)

    def test_replaced_lists(self):
        """Tables that are replaced need not fit any more."""
        (self.folder / "base.txt").write_text("from: u.txt\nfirst weights: 27*1\nsecond weights: 27*1\nslot flags: 27*0\n")
        self.assertEqual(len(slots_of(carton.read_description(self.described("from: base.txt\nbands: 0 2\nshape: box\nwidth: 1\n")))), 18)

    def test_tables_above(self):
        """A table of these above a shape is turned away, whether it gives all or single entries."""
        (self.folder / "base.txt").write_text("from: u.txt\nshape: box\nwidth: 0.5\n")
        for text in ("slot flags: all 0\n", "first weights:\n    0 1 2 = 1\n", "second weights: all 0\nwidth: 1\n"):
            with self.subTest(text):
                self.assert_error(self.described("from: base.txt\n" + text), f"own.txt:2: {text.partition(':')[0]}: given beside the shape at {self.folder}/base.txt:2")

    def test_tables_between(self):
        """So too where the width alone is given above them."""
        (self.folder / "base.txt").write_text("from: u.txt\nshape: box\nwidth: 0.5\n")
        (self.folder / "flagged.txt").write_text("from: base.txt\nslot flags: all 1\n")
        self.assert_error(self.described("from: flagged.txt\nwidth: 1\n"), "flagged.txt:2: slot flags: given beside the shape")


# ---- weights from a shape, as the door works them

DOOR = "wirambolo_integration_weights_at_triplet"
# the numbers of the shapes from C
NUMBERS = {"gaussian": 0, "lorentzian": 1, "box": 2}
# a crystal of no interest around the numbers that weights are worked from
AROUND = """
S: 1
V: 1
weight: 1
cutoff: 0
temperature: 0
mesh: 1 1 1
q matrix: 1 0 0  0 1 0  0 0 1
addresses: all 0 0 0
vectors: all 0 0 0
multiplicity: all 1 0
p2s: all 0
s2p: 0
masses: all 1
eigenvectors: all 0 0
force constants: all 0
"""


class Set:
    """What the door is handed, from a source of random numbers; frequencies and width as bits."""

    def __init__(self, source):
        self.atoms, self.grid, self.shape = source.choice((1, 2)), source.randint(1, 3), source.choice(list(NUMBERS))
        bands = 3 * self.atoms
        self.bands = source.choices(range(bands), k=source.randint(1, bands))
        self.triplet = source.choices(range(self.grid), k=3)
        kind = source.choice((self.plain, self.coarse, self.small, self.large, self.any))
        self.frequencies = [bits(kind(source)) for _ in range(self.grid * bands)]
        self.width = source.choice((self.like, self.like, self.edge, self.edge, self.free))(source, kind)
        if source.random() < 0.1:
            self.damage(source)

    @staticmethod
    def plain(source):
        return source.uniform(-1.0, 20.0)

    @staticmethod
    def coarse(source):
        """Sums and differences are often alike."""
        return 0.5 * source.randint(-1, 12)

    @staticmethod
    def small(source):
        return source.choice((-1.0, 1.0)) * 2.0 ** -source.choice((1074, source.randint(500, 1074))) * source.randint(0, 7)

    @staticmethod
    def large(source):
        return source.choice((-1.0, 1.0)) * 2.0 ** source.choice((1023, source.randint(480, 1023))) * source.uniform(1.0, 1.99)

    @staticmethod
    def any(source):
        return source.choice((-1.0, 1.0)) * carton.number_of(source.randrange(INFINITE))

    def like(self, source, kind):
        """A width such as the frequencies are, or a part of it."""
        return max(bits(abs(kind(source)) / source.choice((1.0, 8.0, 100.0))), 1)

    def edge(self, source, _):
        """A slot's distance is the width or eight widths, or the next f64 to it."""
        f0, f1, f2 = (carton.number_of(source.choice(self.frequencies)) for _ in range(3))
        distance = abs(source.choice(((f0 - f1) - f2, (f0 + f1) - f2, (f0 - f1) + f2)))
        return min(max(bits(distance / source.choice((1.0, 8.0))) + source.choice((-1, 0, 1)), 1), INFINITE - 1)

    def free(self, source, _):
        return source.randrange(1, INFINITE)

    def damage(self, source):
        """One or two numbers that the door refuses."""
        for _ in range(source.choice((1, 1, 2))):
            what = source.choice(("triplet", "bands", "frequencies", "width"))
            if what == "width":
                self.width = source.choice((0, 2**63, bits(-1.0), 2**63 + 1, INFINITE, INFINITE + 2**63, NAN, NAN + 1))
            elif what == "frequencies":
                self.frequencies[source.randrange(len(self.frequencies))] = source.choice((INFINITE, INFINITE + 2**63, NAN))
            else:
                table, most = (self.triplet, self.grid) if what == "triplet" else (self.bands, 3 * self.atoms)
                table[source.randrange(len(table))] = source.choice((-1, most, 2**62))

    def text(self):
        """The description."""
        return (f"P: {self.atoms}\nF: {len(self.bands)}\nG: {self.grid}\ntriplet: {' '.join(map(str, self.triplet))}\nbands: {' '.join(map(str, self.bands))}\n"
                f"frequencies: {' '.join(f'0x{word:016x}' for word in self.frequencies)}\nshape: {self.shape}\nwidth: 0x{self.width:016x}\n" + AROUND)


def answer_of(door, handed):
    """The number that the door answers, and flag, first and second weight of each slot; any NaN as the one that carton.py writes."""
    numbers, slots = len(handed.frequencies), len(handed.bands) * (3 * handed.atoms)**2
    frequencies = (ctypes.c_double * numbers).from_buffer_copy(struct.pack(f"={numbers}Q", *handed.frequencies))
    bands = (ctypes.c_int64 * len(handed.bands))(*handed.bands)
    first, second, flags = (ctypes.c_double * slots)(*[7.0] * slots), (ctypes.c_double * slots)(*[7.0] * slots), (ctypes.c_uint8 * slots)(*[7] * slots)
    size = ctypes.c_size_t
    number = door(size(handed.atoms), size(len(bands)), size(handed.grid), ctypes.c_uint8(NUMBERS[handed.shape]), ctypes.c_double(carton.number_of(handed.width)),
                  (ctypes.c_int64 * 3)(*handed.triplet), bands, size(len(bands)), frequencies, size(numbers),
                  first, size(slots), second, size(slots), flags, size(slots))
    return number, list(zip(flags, map(carton.word_of, first), map(carton.word_of, second)))


@unittest.skipUnless(os.environ.get("WIRAMBOLO_SO"), "WIRAMBOLO_SO names no shared object of the doors")
class Door(Described):
    def setUp(self):
        super().setUp()
        self.door = getattr(ctypes.CDLL(os.path.abspath(os.environ["WIRAMBOLO_SO"])), DOOR)
        self.door.restype = ctypes.c_uint8

    def assert_alike(self, handed):
        """The description's tables are those that the door writes, or it is turned away with the door's number, which is given back."""
        number, slots = answer_of(self.door, handed)
        path = self.described(handed.text())
        if number == 0:
            self.assertEqual(slots_of(carton.read_description(path)), slots, handed.text())
        else:
            with self.assertRaises(carton.DescriptionError) as caught:
                carton.read_description(path)
            self.assertEqual(re.findall(carton.REFUSED + " ([0-9]+)", str(caught.exception)), [str(number)], handed.text())
        return number, slots

    def test_random(self):
        """2,500 descriptions, with all that can come out among them."""
        source, seen = random.Random(2026), collections.Counter()
        for _ in range(2500):
            handed = Set(source)
            number, slots = self.assert_alike(handed)
            seen[number] += 1
            if number == 0:
                seen[handed.shape, handed.atoms] += 1
                seen.update(name for name, at, word in (("flagged", 0, 1), ("infinite", 1, INFINITE), ("NaN", 2, NAN), ("zero", 2, 0)) for slot in slots if slot[at] == word)
        for name in (3, 4, 13):
            self.assertGreater(seen[name], 20, seen)
        for name in [(shape, atoms) for shape in NUMBERS for atoms in (1, 2)] + ["flagged", "infinite", "NaN", "zero"]:
            self.assertGreater(seen[name], 200, seen)


# ---- where a carton is written to

class Output(Described):
    def setUp(self):
        super().setUp()
        self.target = self.folder / "out.carton"
        self.other = with_word(7, 5)

    def make(self, target, **options):
        return run("make", self.changed(""), "-o", target, cwd=self.folder, **options)

    def assert_left(self, told, expected, path, before):
        """The command refused, and the file and the folder are as before."""
        self.assert_told(told, 2, expected)
        self.assertEqual(path.read_bytes(), before)
        self.assert_nothing_beside()

    def assert_nothing_beside(self):
        self.assertEqual([path.name for path in self.folder.iterdir() if path.name.startswith(".")], [])

    def assert_written(self, told, path):
        self.assert_told(told, 0, "")
        self.assertEqual(path.read_bytes(), hand_made_u())
        self.assert_nothing_beside()

    def test_descriptions(self):
        """No file that is read is written over: the description, those that it starts from, other spellings and links."""
        before = (self.folder / "u.txt").read_bytes()
        (self.folder / "soft").symlink_to("u.txt")
        os.link(self.folder / "u.txt", self.folder / "hard")
        for name in ("u.txt", "./u.txt", self.folder / "u.txt", f"../{self.folder.name}/u.txt", "soft", "hard"):
            with self.subTest(name):
                self.assert_left(self.make(name), f"{name}: is not written: the description is read from it", self.folder / "u.txt", before)
        self.assert_left(self.make("own.txt"), "own.txt: is not written: the description is read from it", self.folder / "own.txt", b"from: u.txt\n")

    def test_standard_input(self):
        """Nor is the file that standard input is, nor what it starts from."""
        self.changed("")
        for name in ("own.txt", "u.txt"):
            with self.subTest(name):
                before = (self.folder / name).read_bytes()
                told = shell(f"$CARTON make - -o {name} < own.txt", self.folder)
                self.assert_left(told, f"{name}: is not written: the description is read from it", self.folder / name, before)

    def test_standard_output(self):
        """Nor is standard output, where it goes behind a description."""
        self.changed("")
        self.assert_left(shell("$CARTON make own.txt >> u.txt", self.folder), "standard output: is not written: the description is read from it",
                         self.folder / "u.txt", (EXAMPLES / "u.txt").read_bytes())

    def test_other_files(self):
        """A file that is neither empty nor a carton is left alone."""
        u = hand_made_u()
        damaged = u[:600] + bytes([u[600] ^ 1]) + u[601:]
        for before in (b"notes", b"x" * 512, bytes(512), u[:-1], u + b"\n", damaged, u[512:], u[:512] + u[1024:], with_word(0, 2), u + carton.seal([0])):
            with self.subTest(before[:8]):
                self.target.write_bytes(before)
                self.assert_left(self.make("out.carton"), "out.carton: is not written: it exists and is no carton", self.target, before)

    def test_replaced(self):
        """A new file, an empty one, and cartons."""
        self.assert_written(self.make("out.carton"), self.target)
        for before in (b"", self.other, carton_of(self.described(TWO_ATOMS))):
            self.target.write_bytes(before)
            self.assert_written(self.make("out.carton"), self.target)

    def test_link(self):
        """The target of a link is written, also where there was none, and the link stays."""
        (self.folder / "link").symlink_to("out.carton")
        for _ in range(2):
            self.assert_written(self.make("link"), self.target)
            self.assertTrue((self.folder / "link").is_symlink())

    def test_permissions(self):
        """A new file has those of the umask, a replaced one keeps its own."""
        for mask, mode in ((0o022, 0o644), (0o077, 0o600)):
            self.assert_written(self.make("out.carton", preexec_fn=lambda mask=mask: os.umask(mask)), self.target)
            self.assertEqual(stat.S_IMODE(self.target.stat().st_mode), mode)
            self.target.unlink()
        self.target.write_bytes(self.other)
        self.target.chmod(0o640)
        self.assert_written(self.make("out.carton"), self.target)
        self.assertEqual(stat.S_IMODE(self.target.stat().st_mode), 0o640)

    @unittest.skipUnless(os.geteuid(), "root may write everything")
    def test_write_protected(self):
        self.target.write_bytes(self.other)
        self.target.chmod(0o444)
        self.assert_left(self.make("out.carton"), "out.carton: is not written: it is write-protected", self.target, self.other)

    def test_failed_write(self):
        """A file that cannot grow, as on a full disk: the carton that was there stays, and nothing else."""
        self.target.write_bytes(self.other)
        told = self.make("out.carton", preexec_fn=lambda: resource.setrlimit(resource.RLIMIT_FSIZE, (1000, 1000)))
        self.assert_left(told, "out.carton: cannot be written: File too large", self.target, self.other)

    def test_interrupted(self):
        """So too if the command is interrupted in the middle."""
        self.target.write_bytes(self.other)
        told = io.StringIO()
        words = ["carton.py", "make", str(self.changed("")), "-o", str(self.target)]
        with mock.patch.object(sys, "argv", words), mock.patch.object(os, "fsync", side_effect=KeyboardInterrupt), contextlib.redirect_stderr(told):
            self.assertEqual(carton.main(), 130)
        self.assertEqual(told.getvalue(), "carton: interrupted\n")
        self.assertEqual(self.target.read_bytes(), self.other)
        self.assert_nothing_beside()

    def test_no_file(self):
        """Folders, names that are none, and sockets."""
        (self.folder / "sub").mkdir()
        with socket.socket(socket.AF_UNIX) as end:
            end.bind(str(self.folder / "socket"))
        for name, expected in (("sub", "sub: is not written: it is a folder"), ("new/", "`new/`: is not written: the name of a file was expected"),
                               ("", "``: is not written: the name of a file was expected"), ("socket", "socket: is not written: it is no file"),
                               ("nowhere/out.carton", "nowhere/out.carton: cannot be written: No such file or directory")):
            with self.subTest(name):
                told = self.make(name)
                self.assert_told(told, 2, expected)
                self.assertEqual(told.stdout, b"")

    def test_devices(self):
        self.assert_told(self.make("/dev/null"), 0, "")
        self.assertTrue(stat.S_ISCHR(os.stat("/dev/null").st_mode))
        self.assert_told(self.make("/dev/full"), 2, "/dev/full: cannot be written: No space left on device")

    def test_pipes(self):
        """Standard output under its names, and a named pipe, which stays one."""
        for name in ("-", "/dev/stdout", "/dev/fd/1"):
            with self.subTest(name):
                told = self.make(name)
                self.assert_told(told, 0, "")
                self.assertEqual(told.stdout, hand_made_u())
        self.assertFalse((self.folder / "-").exists())
        self.changed("")
        self.assert_told(shell("(echo before; $CARTON make own.txt -o /dev/stdout) > both", self.folder), 0, "")
        self.assertEqual((self.folder / "both").read_bytes(), b"before\n" + hand_made_u())
        os.mkfifo(self.folder / "pipe")
        self.assert_told(shell("cat pipe > got & $CARTON make own.txt -o pipe && wait", self.folder), 0, "")
        self.assertEqual((self.folder / "got").read_bytes(), hand_made_u())


# ---- standard input and output

class Streams(Described):
    def setUp(self):
        super().setUp()
        self.changed("")
        (self.folder / "u.carton").write_bytes(hand_made_u())

    def test_executable(self):
        told = subprocess.run([COMMAND, "make", self.folder / "own.txt"], capture_output=True)
        self.assert_told(told, 0, "")
        self.assertEqual(told.stdout, hand_made_u())

    def test_input(self):
        """A description and a carton from standard input; `from` is seen from the current folder."""
        told = run("make", "-", input=b"from: u.txt\n", cwd=self.folder)
        self.assert_told(told, 0, "")
        self.assertEqual(told.stdout, hand_made_u())
        shown = run("show", "-", input=hand_made_u())
        self.assert_told(shown, 0, "")
        self.assertEqual(shown.stdout.decode(), carton.show(hand_made_u())[0])
        self.assertEqual(run("show", "-", input=b"").returncode, 1)

    def test_input_errors(self):
        self.assert_told(run("make", "-", input=b"from: u.txt\ncutoff: half\n", cwd=self.folder), 2, "standard input:2: cutoff: `half`")
        self.assert_told(run("make", "-", input=b"from: nowhere.txt\n", cwd=self.folder), 2, "standard input:1: from: nowhere.txt: cannot be read: No such file")
        self.assert_told(run("make", "-", input=b"from: u.txt\nP: 2\n", cwd=self.folder), 2, "P = 2 is stated at standard input:2")
        self.assert_told(run("make", "-", input=b"from: /dev/stdin\n"), 2, "standard input:1: from: /dev/stdin starts from itself")
        for words in ("make -", "show -"):
            self.assert_told(shell(f"$CARTON {words} <&-", self.folder), 2, "carton: standard input: cannot be read: Bad file descriptor")

    def test_file_of_that_name(self):
        """A file named `-` is read by another spelling, and by `from`."""
        (self.folder / "-").write_text("from: u.txt\n")
        for words in ("make ./-", "make - < own.txt"):
            self.described("from: -\n")
            told = shell(f"$CARTON {words} > out.carton", self.folder)
            self.assert_told(told, 0, "")
            self.assertEqual((self.folder / "out.carton").read_bytes(), hand_made_u())

    def test_unreadable(self):
        for words in (["make", "nowhere"], ["show", "nowhere"]):
            self.assert_told(run(*words, cwd=self.folder), 2, "carton: nowhere: cannot be read: No such file or directory")
        self.assert_told(run("make", self.folder), 2, f"{self.folder}: cannot be read: Is a directory")

    def test_output_errors(self):
        """Standard output that is full, closed, or a pipe that nobody reads."""
        self.changed("G: 5000\naddresses: all 0 0 0\nfrequencies: all 1\neigenvectors: all 1 0\n")
        (self.folder / "large.carton").write_bytes(carton_of(self.folder / "own.txt"))
        for words in ("make u.txt", "make own.txt", "show u.carton", "show large.carton"):
            for where, expected in ((">/dev/full", "No space left on device"), (">&-", "Bad file descriptor")):
                with self.subTest(words + where):
                    self.assert_told(shell(f"$CARTON {words} {where}", self.folder), 2, f"carton: standard output: cannot be written: {expected}")
            with self.subTest(words):
                end, start = os.pipe()
                os.close(end)
                told = run(*words.split(), cwd=self.folder, stdout=start)
                os.close(start)
                self.assert_told(told, 2, "carton: standard output: cannot be written: Broken pipe")

    def test_terminal(self):
        """A terminal is sent no carton, under any name."""
        control, terminal = os.openpty()
        self.addCleanup(os.close, control)
        self.addCleanup(os.close, terminal)
        for words in ([], ["-o", "-"], ["-o", "/dev/stdout"], ["-o", os.ttyname(terminal)]):
            told = run("make", self.folder / "own.txt", *words, stdout=terminal)
            self.assert_told(told, 2, "carton: a carton is no text: name a file with -o, or send it on to a program")


# ---- time

class Time(Described):
    def seconds(self, text):
        """The processor's time for a description's carton, the least of three."""
        path, times = self.changed(text), []
        for _ in range(3):
            start = time.process_time()
            carton_of(path)
            times.append(time.process_time() - start)
        return min(times)

    def test_linear(self):
        """Eight times as much takes some eight times as long, not 64: many lines, one long line, single entries, repeats, and weights from a shape."""
        texts = {
            "lines": lambda n: "vectors:\n" + "    0.5 0 0\n" * n,
            "one line": lambda n: "vectors: " + "0.5 0 0  " * n + "\n",
            "entries": lambda n: f"V: {n}\nvectors: all 0 0 0\n" + "".join(f"    {i} = 1 2 3\n" for i in range(n)),
            "repeats": lambda n: f"vectors: {30 * n}*0\n",
            "shape": lambda n: f"bands: {n // 16}*0\nshape: gaussian\nwidth: 1\n",
        }
        for name, text in texts.items():
            with self.subTest(name):
                self.assertLess(self.seconds(text(32000)), 24 * self.seconds(text(4000)))


# ---- the page

class Page(unittest.TestCase):
    def test_names(self):
        """Every name that a description may use stands in the page's tables."""
        rows = [line for line in (HERE.parent / "README.md").read_text().splitlines() if line.startswith("| `")]
        named = " ".join(row.split("|")[1] for row in rows)
        for name in carton.NAMES:
            if name != "from":
                self.assertIn(f"`{name}`", named)

    def test_shape(self):
        """The page shows the example of weights from a shape and its print."""
        page = (HERE.parent / "README.md").read_text()
        lines = [line for line in (EXAMPLES / "shape.txt").read_text().splitlines() if not line.startswith("#")]
        for text in ("\n".join(lines), SHAPE_PRINT.rstrip()):
            self.assertIn("\n\n    " + text.replace("\n", "\n    ") + "\n\n", page)


# ---- the prints of the key cases

ALL = [(b, j, k) for b in range(3) for j in range(3) for k in range(3)]
PERMUTED = [(0, 2, 1), (1, 0, 2), (1, 2, 0), (2, 0, 1), (2, 1, 0)]
ONE = {(0, 1, 2): 0.5}
# document 01's table: F, the strengths that are not 0.0, the flagged slots; or the refusal
PRINTS = {
    "m1": (3, ONE, []),
    "m2": (3, {}, []),
    "m3": (3, ONE, []),
    "m4": (3, {}, [(0, 1, 2)]),
    "m5": (3, dict.fromkeys(PERMUTED, 0.5 / 6), [(0, 1, 2)]),
    "m6": (3, ONE, []),
    "m7": (3, dict.fromkeys([(0, 1, 2), (1, 0, 2), (2, 1, 0)], 0.5), []),
    "m8": (3, {}, []),
    "m9": (2, {(0, 1, 2): 0.5, (1, 1, 2): 0.5}, []),
    "m10": 3,
    "m11": 8,
    "example": (3, ONE, [slot for slot in ALL if slot != (0, 1, 2)]),
}


def print_of(first, held, flagged):
    """The print in listing order. At temperature 0 a slot adds first weight · strength · weight, 2 · x · 3."""
    text, totals = f"bands {first}\n", [0.0] * first
    for b in range(first):
        for k in range(3):
            for j in range(3):
                if (b, j, k) not in flagged:
                    x = held.get((b, j, k), 0.0)
                    text += f"slot {b} {j} {k} {bits(x):016x}\n"
                    totals[b] += 2.0 * x * 3.0
    return text + "".join(f"total {b} {bits(total):016x}\n" for b, total in enumerate(totals))


# of shape.txt: 12 times the f64 nearest 1/√(2π), from 16 · 0.25 · 3, in the one slot with a strength
SHAPE_PRINT = """\
bands 3
slot 0 1 0 0000000000000000
slot 0 0 1 0000000000000000
slot 1 0 0 0000000000000000
slot 1 2 1 0000000000000000
slot 1 1 2 0000000000000000
slot 2 1 1 3fd0000000000000
total 0 0000000000000000
total 1 0000000000000000
total 2 40132633e6df28bd
"""


@unittest.skipUnless(os.environ.get("KEY"), "KEY names no program")
class Prints(Described):
    def print_by_key(self, path):
        return subprocess.run([os.environ["KEY"]], input=carton_of(path), capture_output=True).stdout.decode()

    def test_key_cases(self):
        for name, expected in PRINTS.items():
            with self.subTest(name):
                self.assertEqual(self.print_by_key(EXAMPLES / f"{name}.txt"), f"refused {expected}\n" if isinstance(expected, int) else print_of(*expected))

    def test_shape(self):
        self.assertEqual(self.print_by_key(EXAMPLES / "shape.txt"), SHAPE_PRINT)

    def test_infinite_weights(self):
        """As the note on them says."""
        self.assertEqual(self.print_by_key(self.changed("shape: box\nwidth: 5e-324\n")), "refused 4\n")


if __name__ == "__main__":
    unittest.main()
