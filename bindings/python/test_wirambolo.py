"""Tests of wirambolo.py: the key cases M1 to M11, weights from a shape, refusals, untouched buffers, and what may be lent.

    python3 -m unittest discover -s bindings/python
"""

import contextlib
import ctypes
import io
import math
import os
import struct
import unittest
from array import array
from pathlib import Path
from unittest import mock

import example
import wirambolo
from wirambolo import AT_FREQUENCY_POINT, AVERAGED, COMPACT, FULL, PER_SLOT, PLAIN, SYMMETRIZED, SYMMETRY_OFF
from wirambolo import Box, Gaussian, Lorentzian

JOINED = [parameter for parameter, _ in wirambolo.SIGNATURES["wirambolo_joined_at_triplet"]]
WRITTEN = ("strengths", "totals", "work")
SHAPES = (Gaussian, Lorentzian, Box)  # by their numbers


def bits(numbers):
    return struct.pack(f"<{len(numbers)}d", *numbers)


def repeated(count, x):
    return array("d", [x] * count)


def cell_u():
    """What the joined function takes for cell U. Strengths, totals and work at -1.0, and work two numbers longer than W."""
    constants = [0.0] * 27
    constants[5] = 16.0
    return {
        "atoms": 1,
        "supercell": 1,
        "first": 3,
        "grid": 1,
        "vectors_count": 1,
        "anchoring": PLAIN,
        "cutoff": 0.5,
        "form": COMPACT,
        "symmetry": SYMMETRY_OFF,
        "mesh": [1, 1, 1],
        "matrix": [1, 0, 0, 0, 1, 0, 0, 0, 1],
        "triplet": [0, 0, 0],
        "addresses": [0, 0, 0],
        "vectors": [0.0, 0.0, 0.0],
        "multiplicity": [1, 0],
        "p2s": [0],
        "s2p": [0],
        "masses": [4.0],
        "bands": [0, 1, 2],
        "frequencies": [1.0, 2.0, 4.0],
        "eigenvectors": [1.0 if n % 8 == 0 else 0.0 for n in range(18)],
        "shortest": [0],
        "nonzero": [1],
        "constants": constants,
        "flags": [0] * 27,
        "weight": 3,
        "temperature": 0.0,
        "first_weights": [2.0] * 27,
        "second_weights": [0.0] * 27,
        "strengths": repeated(27, -1.0),
        "totals": repeated(3, -1.0),
        "work": repeated(205, -1.0),
    }


def changed(table, place, value):
    table = list(table)
    table[place] = value
    return table


def holding(first, x, held):
    """0.0 in each slot but those listed."""
    strengths = [0.0] * wirambolo.slots(1, first)
    for b, j, k in held:
        strengths[wirambolo.slot(1, b, j, k)] = x
    return strengths


def key_cases():
    """Name, change to U, answer, strengths and totals after the call."""
    u = cell_u()
    flagged = changed(u["flags"], 5, 1)
    at_012 = holding(3, 0.5, [(0, 1, 2)])
    five = [(0, 2, 1), (1, 0, 2), (1, 2, 0), (2, 0, 1), (2, 1, 0)]
    bands_0_0 = {
        "first": 2,
        "bands": [0, 0],
        "flags": [0] * 18,
        "first_weights": [2.0] * 18,
        "second_weights": [0.0] * 18,
        "strengths": repeated(18, -1.0),
        "totals": repeated(2, -1.0),
    }
    averaged_48 = {"anchoring": AVERAGED, "constants": changed(u["constants"], 5, 48.0)}
    return [
        ("M1", {}, 0, at_012, [3.0, 0.0, 0.0]),
        ("M2", {"cutoff": 1.0}, 0, [0.0] * 27, [0.0] * 3),
        ("M3", {"cutoff": 0.75}, 0, at_012, [3.0, 0.0, 0.0]),
        ("M4", {"flags": flagged}, 0, holding(3, -1.0, [(0, 1, 2)]), [0.0] * 3),
        ("M5", {"flags": flagged, "symmetry": SYMMETRIZED}, 0, holding(3, 0.5 / 6.0, five), [0.5, 1.0, 1.0]),
        ("M6", {"anchoring": AVERAGED, "shortest": [1]}, 0, at_012, [3.0, 0.0, 0.0]),
        ("M7", averaged_48, 0, holding(3, 0.5, [(0, 1, 2), (1, 0, 2), (2, 1, 0)]), [3.0] * 3),
        ("M8", {"nonzero": [0]}, 0, [0.0] * 27, [0.0] * 3),
        ("M9", bands_0_0, 0, holding(2, 0.5, [(0, 1, 2), (1, 1, 2)]), [3.0] * 2),
        ("M10", {"multiplicity": [0, 0]}, 3, [-1.0] * 27, [-1.0] * 3),
        ("M11", {"temperature": -0.0}, 8, [-1.0] * 27, [-1.0] * 3),
    ]


def spread(seed, count):
    """Numbers between -1 and 1 with full mantissas, by the rule of bindings/rust/tests/common."""
    numbers = []
    for _ in range(count):
        seed = (seed * 6364136223846793005 + 1442695040888963407) % 2**64
        numbers.append((seed >> 11) / 2**52 - 1.0)
    return numbers


def positive(seed, count):
    return [abs(x) + 0.5 for x in spread(seed, count)]


def crystal():
    """The crystal of bindings/rust/tests/common: P = 2, S = 3, F = 4, G = 5, V = 7, so that no slice can stand in for another."""
    return {
        "atoms": 2,
        "supercell": 3,
        "first": 4,
        "grid": 5,
        "vectors_count": 7,
        "anchoring": AVERAGED,
        "cutoff": 0.625,
        "form": FULL,
        "symmetry": SYMMETRIZED,
        "mesh": [2, 3, 4],
        "matrix": [1, 0, -1, 2, 1, 0, 0, -3, 1],
        "triplet": [1, 2, 3],
        "addresses": [0, 0, 0, 1, 2, 3, -1, 0, 2, 1, 1, 1, 0, -2, 3],
        "vectors": spread(1, 21),
        "multiplicity": [1, 0, 2, 1, 3, 3, 1, 6, 2, 5, 1, 2],
        "p2s": [0, 2],
        "s2p": [0, 0, 2],
        "masses": positive(2, 2),
        "bands": [5, 0, 3, 3],
        "frequencies": positive(3, 30),
        "eigenvectors": spread(4, 360),
        "shortest": [int(n % 4 == 1) for n in range(18)],
        "nonzero": [int(n % 5 != 2) for n in range(27)],
        "constants": spread(5, 729),
        "flags": [int(n % 3 == 0) for n in range(144)],
        "weight": 2,
        "temperature": 1.75,
        "first_weights": positive(6, 144),
        "second_weights": spread(7, 144),
        "strengths": repeated(144, -1.0),
        "totals": repeated(4, -1.0),
        "work": repeated(wirambolo.work_length(2, 3) + 2, -1.0),
    }


def crystals():
    """In each of its settings, in the order of bindings/rust/tests/doors.rs."""
    for form in (COMPACT, FULL):
        for anchoring in (PLAIN, AVERAGED):
            for symmetry in (SYMMETRY_OFF, SYMMETRIZED):
                for temperature in (0.0, 1.75):
                    cell = crystal()
                    cell.update(form=form, anchoring=anchoring, symmetry=symmetry, temperature=temperature)
                    if form == COMPACT:
                        cell["nonzero"] = cell["nonzero"][:18]
                        cell["constants"] = cell["constants"][: 27 * 18]
                    yield cell


def digest(texts):
    """FNV-1a, 64 bits."""
    state = 0xCBF29CE484222325
    for text in texts:
        for byte in text:
            state = (state ^ byte) * 0x100000001B3 % 2**64
    return state


# ---- weights from a shape, by the formulas in include/wirambolo.h. Python's floats are f64, and each operation is rounded once; worked in
# fractions, with each result rounded to the nearest f64, the bits were the same.

def of_bits(bits):
    return struct.unpack("<d", struct.pack("<Q", bits))[0]


def bits_of(x):
    """Every NaN counts as one."""
    return 0x7FF8000000000000 if x != x else struct.unpack("<Q", struct.pack("<d", x))[0]


def exponential(x):
    """Document 01's, of an argument of at least 0."""
    if x > 709.0:
        return math.inf
    k = float(int(x * of_bits(0x3FF71547652B82FE)))
    r = (x - k * of_bits(0x3FE62E42FEE00000)) - k * of_bits(0x3DEA39EF35793C76)
    p = 1.0
    for n in range(18, 0, -1):
        p = 1.0 + p * (r / float(n))
    return p * 2.0**k


def shape_at(shape, d):
    w = shape.width
    if isinstance(shape, Gaussian):
        if abs(d) > 8.0 * w:
            return 0.0
        t = d / w
        return (1.0 / exponential((t * t) / 2.0)) * (of_bits(0x3FD9884533D43651) / w)
    if isinstance(shape, Lorentzian):
        below = d * d + w * w
        return (w / below if below > 0.0 else math.inf) * of_bits(0x3FD45F306DC9C883)
    return 1.0 / (2.0 * w) if abs(d) <= w else 0.0


def slot_weights(shape, f0, f1, f2):
    """The first weight, the second and the flag."""
    x, y, z = (shape_at(shape, d) for d in ((f0 - f1) - f2, (f0 + f1) - f2, (f0 - f1) + f2))
    return x, y - z, int(x == 0.0 and y == 0.0 and z == 0.0)


def slots_of(set_of_weights):
    """Slot by slot, in the order of their numbers."""
    count = wirambolo.bands(set_of_weights["atoms"])
    legs = [set_of_weights["frequencies"][g * count :][:count] for g in set_of_weights["triplet"]]
    return [
        slot_weights(set_of_weights["shape"], legs[0][band], f1, f2)
        for band in set_of_weights["bands"] for f1 in legs[1] for f2 in legs[2]
    ]


def to_weigh(cell, shape, weight=-1.0, flag=170):
    """What weights from a shape takes of a cell, with something in both weights and the flags."""
    slots = wirambolo.slots(cell["atoms"], cell["first"])
    return {
        **{name: cell[name] for name in ("atoms", "first", "grid", "triplet", "bands", "frequencies")},
        "shape": shape,
        "first_weights": repeated(slots, weight),
        "second_weights": repeated(slots, weight),
        "flags": bytearray([flag] * slots),
    }


class Tests(unittest.TestCase):
    @classmethod
    def setUpClass(cls):
        cls.library = wirambolo.load()

    def joined(self, **change):
        """The answer to U with a change, and what is left."""
        return self.worked({**cell_u(), **change})

    def worked(self, cell):
        answer = 0
        try:
            self.library.joined_at_triplet(**cell)
        except wirambolo.Refused as refused:
            answer = refused.number
        return answer, cell

    def untouched(self, answer, cell):
        """Turned away so, and no buffer changed."""
        cell = {**cell, **{name: array("d", cell[name]) for name in WRITTEN}}
        before = {name: bits(cell[name]) for name in WRITTEN}
        self.assertEqual(self.worked(cell)[0], answer)
        for name in WRITTEN:
            self.assertEqual(bits(cell[name]), before[name], name)

    def test_key_cases(self):
        for name, change, wanted, strengths, totals in key_cases():
            with self.subTest(name):
                answer, left = self.joined(**change)
                self.assertEqual(answer, wanted)
                self.assertEqual(bits(left["strengths"]), bits(strengths))
                self.assertEqual(bits(left["totals"]), bits(totals))
                used = 0 if wanted else wirambolo.work_length(1, 1)
                self.assertEqual(bits(left["work"]), bits([0.0] * used + [-1.0] * (205 - used)))

    def test_key(self):
        """What the example prints, and its exit status: its set, and one with more first bands than bands."""
        wanted = (Path(__file__).resolve().parents[1] / "key.txt").read_text(encoding="utf-8")
        for first, text, status in ((3, wanted, 0), (4, "refused 1\n", 1)):
            printed = io.StringIO()
            with mock.patch.object(example, "FIRST", first), contextlib.redirect_stdout(printed):
                self.assertEqual(example.main(), status)
            self.assertEqual(printed.getvalue(), text)

    def test_refusals(self):
        u = cell_u()
        nan = math.nan
        cases = [
            (1, {"atoms": 0}),
            (1, {"grid": 2**64 - 1}),
            (2, {"work": repeated(202, -1.0)}),
            (2, {"totals": repeated(4, -1.0)}),
            (2, {"vectors": []}),
            (3, {"triplet": [0, 0, 1]}),
            (4, {"second_weights": changed(u["second_weights"], 26, nan)}),
            (4, {"masses": [0.0], "constants": changed(u["constants"], 26, nan)}),
            (5, {"mesh": [1, 1, 4097]}),
            (6, {"masses": [-0.0]}),
            (7, {"cutoff": -0.5}),
            (8, {"weight": 0}),
            (9, {"addresses": [1, 0, 0], "vectors": [200000.0, 0.0, 0.0]}),
            (255, {"form": 2}),
            (255, {"anchoring": 255, "atoms": 0}),
        ]
        for answer, change in cases:
            with self.subTest(answer=answer, change=change.keys()):
                self.untouched(answer, {**u, **change})

    def test_lengths(self):
        """One entry less in each slice, and one more but for work."""
        for name in JOINED:
            whole = crystal()[name]
            if not hasattr(whole, "__len__") or name in ("mesh", "matrix", "triplet"):
                continue
            shorter = -3 if name == "work" else -1
            self.untouched(2, {**crystal(), name: whole[:shorter]})
            if name != "work":
                self.untouched(2, {**crystal(), name: whole + whole[:1]})
        self.assertEqual(self.worked(crystal())[0], 0)

    def test_arrays(self):
        """Mesh, matrix and triplet of another length are handed to no function, whatever else is wrong."""
        for name, length in (("mesh", 3), ("matrix", 9), ("triplet", 3)):
            for wrong in (0, length - 1, length + 1, 16):
                for make in (list, lambda numbers: array("q", numbers)):
                    cell = {**crystal(), "form": 2, name: make([1] * wrong)}
                    message = f"^{name}: {length} numbers are wanted, not {wrong}$"
                    with self.subTest(name=name, wrong=wrong), self.assertRaisesRegex(ValueError, message):
                        self.worked(cell)
        rows = memoryview(array("q", crystal()["matrix"])).cast("B").cast("q", shape=[3, 3])
        self.assertEqual(self.worked({**crystal(), "matrix": rows})[0], 0)

    def test_doors_agree(self):
        """Joined is one triplet and totals alone; a list of two is each of them."""
        for cell in crystals():
            joined = self.worked({**cell, "strengths": cell["strengths"][:]})[1]
            strengths = [parameter for parameter, _ in wirambolo.SIGNATURES["wirambolo_get_interaction_at_triplet"]]
            one = {name: cell[name] for name in strengths}
            one["strengths"] = cell["strengths"][:]
            self.library.get_interaction_at_triplet(**one)
            self.assertEqual(bits(one["strengths"]), bits(joined["strengths"]))

            alone = {name: cell[name] for name in ("atoms", "first", "grid", "triplet", "frequencies", "cutoff", "flags")}
            alone.update({name: cell[name] for name in ("weight", "temperature", "first_weights", "second_weights")})
            alone.update(weights=PER_SLOT, strengths=joined["strengths"], totals=repeated(4, -1.0))
            self.library.imag_self_energy_at_triplet(**alone)
            self.assertEqual(bits(alone["totals"]), bits(joined["totals"]))

            both = {**one, "list": 2, "triplets": [0, 4, 2] + cell["triplet"], "strengths": repeated(288, -1.0)}
            del both["triplet"]
            both["flags"] = [1] * 144 + cell["flags"]
            self.library.get_interaction(**both)
            self.assertEqual(bits(both["strengths"][144:]), bits(joined["strengths"]))

    def test_oracle_bits(self):
        """Strengths and totals have the bits that the oracle (tools/rust/oracle) leaves, by the digest of bindings/rust/tests/doors.rs."""
        lefts = [self.worked(cell)[1] for cell in crystals()]
        texts = [bits(left[name]) for left in lefts for name in ("strengths", "totals")]
        self.assertEqual(digest(texts), 0xDB59CC90D6CF1DAD)

    def weighed(self, set_of_weights):
        """The answer; what is left stands in the set."""
        try:
            self.library.integration_weights_at_triplet(**set_of_weights)
        except wirambolo.Refused as refused:
            return refused.number
        return 0

    def test_weights_by_bits(self):
        """Every line of bindings/weights.txt: shape, width, the three frequencies of a slot, and what it is left, numbers by their bits.
        The formulas give it, and the library leaves it in each slot of a set whose bands have all one frequency at a leg's grid point."""
        lines = (Path(__file__).resolve().parents[1] / "weights.txt").read_text(encoding="utf-8").splitlines()
        self.assertEqual(len(lines), 31)
        for line in lines:
            with self.subTest(line):
                number, *numbers, flag = line.split(" ")
                width, f0, f1, f2, first, second = (int(text, 16) for text in numbers)
                shape = SHAPES[int(number)](of_bits(width))
                x, y, mark = slot_weights(shape, of_bits(f0), of_bits(f1), of_bits(f2))
                wanted = [(first, second, int(flag))]
                self.assertEqual([(bits_of(x), bits_of(y), mark)], wanted)
                cell = {"atoms": 1, "first": 2, "grid": 3, "triplet": [2, 0, 1], "bands": [2, 0]}
                cell["frequencies"] = [of_bits(f) for f in (f1, f2, f0) for _ in range(3)]
                left = to_weigh(cell, shape)
                self.assertEqual(self.weighed(left), 0)
                found = zip(map(bits_of, left["first_weights"]), map(bits_of, left["second_weights"]), left["flags"])
                self.assertEqual(list(found), wanted * 18)

    def test_weights_of_the_crystal(self):
        """Every slot, whatever stands in the buffers before, and by the digests of bindings/rust/tests/weights.rs and bindings/c/test.c."""
        for shape, wanted in (
            (Gaussian(0.1), 0x1766C9332BEE884B),
            (Lorentzian(0.1), 0x8452CA4E237460CD),
            (Box(0.7), 0xB15286598BA3D741),
        ):
            for weight, flag in ((-1.0, 0), (math.nan, 255)):
                left = to_weigh(crystal(), shape, weight, flag)
                first, second, flags = zip(*slots_of(left))
                self.assertEqual(digest([bits(first), bits(second), bytes(flags)]), wanted)
                self.assertEqual(self.weighed(left), 0)
                self.assertEqual(bits(left["first_weights"]), bits(first))
                self.assertEqual(bits(left["second_weights"]), bits(second))
                self.assertEqual(left["flags"], bytes(flags))

    def test_weights_into_totals(self):
        """The joined function takes them as they are, but for those that are not finite."""
        for kind in SHAPES:
            weights = to_weigh(crystal(), kind(0.7))
            self.assertEqual(self.weighed(weights), 0)
            lent = {name: weights[name] for name in ("first_weights", "second_weights", "flags")}
            answer, left = self.worked({**crystal(), **lent})
            self.assertEqual(answer, 0)
            self.assertNotEqual(bits(left["totals"]), bits(self.worked(crystal())[1]["totals"]))

            weights = to_weigh({**crystal(), "frequencies": [0.0] * 30}, kind(5e-324))
            self.assertEqual(self.weighed(weights), 0)
            self.assertEqual(set(weights["first_weights"]), {math.inf})
            self.assertTrue(all(x != x for x in weights["second_weights"]))
            self.untouched(4, {**crystal(), "first_weights": weights["first_weights"]})
            self.untouched(4, {**crystal(), "second_weights": weights["second_weights"]})

    def test_weights_refused(self):
        cell = crystal()
        frequencies = cell["frequencies"]
        cases = [
            (1, 0.1, {"atoms": 9}),
            (1, 0.1, {"first": 7}),
            (1, 0.1, {"grid": 0}),
            (3, 0.1, {"triplet": [1, 5, 3]}),
            (3, 0.1, {"bands": [5, 0, 6, 3]}),
            (4, 0.1, {"frequencies": changed(frequencies, 29, math.nan)}),
            (4, 0.0, {"frequencies": changed(frequencies, 29, math.inf)}),
            (4, math.nan, {}),
            (4, -math.inf, {}),
            (13, 0.0, {}),
            (13, -0.0, {}),
            (13, -1.0, {}),
        ]
        whole = to_weigh(cell, None)
        for name in ("bands", "frequencies", "first_weights", "second_weights", "flags"):
            cases += [(2, 0.1, {name: whole[name][:-1]}), (2, 0.1, {name: whole[name] + whole[name][:1]})]
        written = ("first_weights", "second_weights", "flags")
        for kind in SHAPES:
            for answer, width, change in cases:
                with self.subTest(kind=kind, answer=answer, width=width, change=change.keys()):
                    left = {**to_weigh(cell, kind(width)), **change}
                    before = [bytes(left[name]) for name in written]
                    self.assertEqual(self.weighed(left), answer)
                    self.assertEqual([bytes(left[name]) for name in written], before)
        with self.assertRaisesRegex(wirambolo.Refused, "^refused 13, width: "):
            self.library.integration_weights_at_triplet(**to_weigh(cell, Box(0.0)))

    def test_shapes(self):
        """What is no shape, or has no width, is told of by name; a number that is not known is the library's to refuse."""
        for shape in (0, "box", 0.1, None, Box, wirambolo.Shape(0.1)):
            with self.subTest(shape=shape), self.assertRaisesRegex(TypeError, "^shape: "):
                self.weighed(to_weigh(crystal(), shape))
        for width in (None, "0.1", [0.1]):
            with self.subTest(width=width), self.assertRaisesRegex(TypeError, "^width: "):
                self.weighed(to_weigh(crystal(), Box(width)))
        with self.assertRaisesRegex(OverflowError, "^width: "):
            self.weighed(to_weigh(crystal(), Box(10**400)))
        with self.assertRaisesRegex(TypeError, r"unknown \['width'\]"):
            self.weighed({**to_weigh(crystal(), Box(0.1)), "width": 0.1})
        with self.assertRaisesRegex(TypeError, r"missing \['shape'\]"):
            self.weighed({name: value for name, value in to_weigh(crystal(), None).items() if name != "shape"})

        class Other(Box):
            number = 3

        left = to_weigh({**crystal(), "atoms": 0}, Other(math.nan))
        left["flags"] = bytearray(b"\xaa" * 144)
        self.assertEqual(self.weighed(left), 255)
        self.assertEqual(left["flags"], b"\xaa" * 144)
        Other.number = 256
        with self.assertRaisesRegex(OverflowError, "^shape: "):
            self.weighed(left)

    def test_flags_that_are_written(self):
        """Bytes that can be written, and lent once."""
        for flags in (array("B", [170] * 144), memoryview(bytearray(144)).cast("?"), (ctypes.c_uint8 * 144)()):
            left = {**to_weigh(crystal(), Box(0.7)), "flags": flags}
            self.assertEqual(self.weighed(left), 0)
            self.assertEqual([int(flag) for flag in flags], [flag for _, _, flag in slots_of(left)])
        for flags in ([0] * 144, bytes(144), repeated(144, 0.0)):
            with self.subTest(flags=type(flags)), self.assertRaisesRegex(TypeError, "^flags: "):
                self.weighed({**to_weigh(crystal(), Box(0.7)), "flags": flags})
        weights = repeated(144, -1.0)
        for name in ("second_weights", "frequencies"):
            with self.subTest(name=name), self.assertRaisesRegex(ValueError, "share memory"):
                self.weighed({**to_weigh(crystal(), Box(0.7)), "first_weights": weights, name: weights})

    def test_frequency_point(self):
        totals = array("d", [-1.0] * 3)
        strengths = [0.25] * 27
        self.library.imag_self_energy_at_triplet(
            atoms=1, first=3, grid=1, weights=AT_FREQUENCY_POINT, triplet=[0, 0, 0], frequencies=[1.0, 2.0, 4.0],
            cutoff=0.5, flags=[0] + [1] * 8, strengths=strengths, weight=3, temperature=0.0,
            first_weights=[2.0] * 9, second_weights=[0.0] * 9, totals=totals,
        )
        self.assertEqual(list(totals), [1.5, 1.5, 1.5])

    def test_values_that_do_not_fit(self):
        """ctypes would take 256 as the choice 0, and -1 as a measure."""
        too_great = [("form", 256), ("atoms", -1), ("atoms", 2**64), ("weight", 2**63), ("symmetry", -1), ("cutoff", 10**400)]
        too_great += [("flags", [256] * 27), ("bands", [2**63, 0, 0]), ("masses", [10**400])]
        for name, value in too_great:
            with self.subTest(name=name, value=value), self.assertRaisesRegex(OverflowError, f"^{name}: "):
                self.joined(**{name: value})

    def test_values_of_another_type(self):
        for name, value in (
            ("bands", [0.0, 1.0, 2.0]),
            ("weight", 3.0),
            ("masses", array("f", [4.0])),
            ("masses", ["4.0"]),
            ("masses", 4.0),
            ("p2s", b"\0" * 8),
            ("cutoff", "0.5"),
            ("cutoff", b"0.5"),
            ("cutoff", bytearray(b"0.5")),
            ("temperature", None),
        ):
            with self.subTest(name=name, value=value), self.assertRaisesRegex(TypeError, f"^{name}: "):
                self.joined(**{name: value})

    def test_names(self):
        for change in ({"colour": 1}, {"mesh_length": 3}):
            with self.assertRaises(TypeError):
                self.joined(**change)
        short = cell_u()
        del short["work"]
        with self.assertRaises(TypeError):
            self.library.joined_at_triplet(**short)

    def test_what_is_written(self):
        """A buffer that can be written, and lent once."""
        for strengths in ([-1.0] * 27, bytes(216), memoryview(array("d", [-1.0] * 27)).toreadonly()):
            with self.assertRaises(TypeError):
                self.joined(strengths=strengths)
        room = array("d", [-1.0] * 240)
        view = memoryview(room)
        for change in (
            {"strengths": view[:27], "work": view[26:235]},
            {"totals": view[:3], "work": view[:205]},
            {"work": view[:205], "first_weights": view[204:231]},
        ):
            with self.subTest(change=change.keys()), self.assertRaises(ValueError):
                self.joined(**change)
        # side by side, and read twice
        weights = array("d", [2.0] * 27)
        answer, _ = self.joined(strengths=view[:27], work=view[27:230], first_weights=weights, second_weights=weights)
        self.assertEqual(answer, 0)
        self.assertEqual(room[5], 0.5)
        self.assertEqual(list(room[230:]), [-1.0] * 10)

    def test_buffers(self):
        """Buffers of other makers and shapes, in the caller's memory."""
        flat = array("d", [-1.0] * 27)
        square = memoryview(flat).cast("B").cast("d", shape=[3, 9])
        work = (ctypes.c_double * 203)(*[-1.0] * 203)
        lent = {"bands": (ctypes.c_int64 * 3)(0, 1, 2), "flags": bytes(27), "shortest": memoryview(bytearray(1)).cast("?")}
        answer, _ = self.joined(strengths=square, work=work, **lent)
        self.assertEqual(answer, 0)
        self.assertEqual(bits(flat), bits(holding(3, 0.5, [(0, 1, 2)])))
        self.assertEqual(bits(list(work)), bits([0.0] * 203))
        with self.assertRaises(TypeError):
            self.joined(strengths=memoryview(array("d", [-1.0] * 54))[::2])

    def test_alignment(self):
        """A buffer that begins between two numbers is turned away, whether it is read or written; a copy is aligned."""
        for name, value in cell_u().items():
            if name in ("shortest", "nonzero", "flags") or not hasattr(value, "__len__"):
                continue
            code = "q" if isinstance(value[0], int) else "d"
            shifted = memoryview(bytearray(1) + array(code, value).tobytes())[1:].cast(code)
            with self.subTest(name=name), self.assertRaisesRegex(TypeError, f"^{name}: "):
                self.joined(**{name: shifted})
            if name not in WRITTEN:
                self.assertEqual(self.joined(**{name: shifted.toreadonly()})[0], 0)
        # An empty buffer has no numbers that could be unaligned.
        self.assertEqual(self.joined(vectors=memoryview(bytearray(1))[1:].cast("d"))[0], 2)

    def test_load(self):
        """By a name without a folder, in the current folder; and what is no file."""
        path = Path(os.environ.get("WIRAMBOLO_SO") or wirambolo.DEFAULT).resolve()
        before = os.getcwd()
        try:
            os.chdir(path.parent)
            self.library = wirambolo.load(path.name)
            with mock.patch.dict(os.environ, WIRAMBOLO_SO=path.name):
                self.library = wirambolo.load()
        finally:
            os.chdir(before)
        self.assertEqual(self.joined()[0], 0)
        for missing in (path.parent, path.parent / "nothing.so"):
            with self.assertRaises(FileNotFoundError):
                wirambolo.load(missing)

    def test_work_length(self):
        self.assertEqual(wirambolo.work_length(1, 1), 203)
        self.assertEqual(wirambolo.work_length(8, 64), 75712)


if __name__ == "__main__":
    unittest.main()
