"""Three-phonon interaction strengths and band totals: the five functions of wirambolo_c, through ctypes.

The shared object is made from the static library by one command, at the top of the repository:

    mkdir -p target/shared
    gcc -shared -o target/shared/libwirambolo.so \\
        -Wl,--whole-archive target/staticlib/libwirambolo_c.a -Wl,--no-whole-archive

`load()` opens it there, or where the environment variable WIRAMBOLO_SO says. The five functions are then methods of what
it gives, and take their parameters by name:

    library = wirambolo.load()
    library.joined_at_triplet(atoms=1, supercell=1, ..., strengths=strengths, totals=totals, work=work)

What each parameter holds, its length and its limits stand in include/wirambolo.h. A slice for reading is a list or tuple of
numbers, or anything with a contiguous and aligned buffer of the right type (array.array, bytes, a numpy array); no length is handed
over, it is that of the slice. mesh, matrix and triplet are such slices of 3, 9 and 3 numbers. A slice that is written is such a buffer:
array.array('d', ...) or a numpy array of f64; flags that are written a bytearray or a numpy array of bytes. A shape is handed over with its
width, as Gaussian(width), Lorentzian(width) or Box(width).

A set that is turned away raises Refused, whose `number` is the answer; nothing is changed then. What cannot be handed over, a mesh of two
numbers too, raises TypeError, OverflowError or ValueError, which names the parameter. During a call no other thread may change the
slices. The machine must round to nearest and keep subnormal numbers, as it does when Python starts.
"""

import array
import ctypes
import operator
import os
import sys
from pathlib import Path

# ---- the five functions, as crates/wirambolo_c/src/lib.rt declares them

_MEASURES = [
    ("atoms", "usize"),
    ("supercell", "usize"),
    ("first", "usize"),
    ("grid", "usize"),
    ("vectors_count", "usize"),
]
_SETTINGS = [
    ("anchoring", "u8"),
    ("cutoff", "f64"),
    ("form", "u8"),
    ("symmetry", "u8"),
    ("mesh", "&[i64; 3]"),
    ("matrix", "&[i64; 9]"),
]
_TRIPLET = [("triplet", "&[i64; 3]")]
_LIST = [("list", "usize"), ("triplets", "&[i64]")]
_TABLES = [
    ("addresses", "&[i64]"),
    ("vectors", "&[f64]"),
    ("multiplicity", "&[i64]"),
    ("p2s", "&[i64]"),
    ("s2p", "&[i64]"),
    ("masses", "&[f64]"),
    ("bands", "&[i64]"),
    ("frequencies", "&[f64]"),
    ("eigenvectors", "&[f64]"),
    ("shortest", "&[u8]"),
    ("nonzero", "&[u8]"),
    ("constants", "&[f64]"),
    ("flags", "&[u8]"),
]
_BATH = [
    ("weight", "i64"),
    ("temperature", "f64"),
    ("first_weights", "&[f64]"),
    ("second_weights", "&[f64]"),
]
_STRENGTHS = [("strengths", "&mut [f64]")]
_TOTALS = [("totals", "&mut [f64]")]
_WORK = [("work", "&mut [f64]")]

SIGNATURES = {
    "wirambolo_get_interaction_at_triplet": _MEASURES + _SETTINGS + _TRIPLET + _TABLES + _STRENGTHS + _WORK,
    "wirambolo_get_interaction": _MEASURES + _SETTINGS + _LIST + _TABLES + _STRENGTHS + _WORK,
    "wirambolo_imag_self_energy_at_triplet": [
        ("atoms", "usize"),
        ("first", "usize"),
        ("grid", "usize"),
        ("weights", "u8"),
        ("triplet", "&[i64; 3]"),
        ("frequencies", "&[f64]"),
        ("cutoff", "f64"),
        ("flags", "&[u8]"),
        ("strengths", "&[f64]"),
    ] + _BATH + _TOTALS,
    "wirambolo_joined_at_triplet":
        _MEASURES + _SETTINGS + _TRIPLET + _TABLES + _BATH + _STRENGTHS + _TOTALS + _WORK,
    "wirambolo_integration_weights_at_triplet": [
        ("atoms", "usize"),
        ("first", "usize"),
        ("grid", "usize"),
        ("shape", "u8"),
        ("width", "f64"),
        ("triplet", "&[i64; 3]"),
        ("bands", "&[i64]"),
        ("frequencies", "&[f64]"),
        ("first_weights", "&mut [f64]"),
        ("second_weights", "&mut [f64]"),
        ("flags", "&mut [u8]"),
    ],
}

# ---- choices

PLAIN, AVERAGED = 0, 1  # anchoring
COMPACT, FULL = 0, 1  # form
SYMMETRY_OFF, SYMMETRIZED = 0, 1  # symmetry
PER_SLOT, AT_FREQUENCY_POINT = 0, 1  # weights


class Shape:
    """What stands for the delta function of energy conservation, with its width: a Gaussian, a Lorentzian or a Box."""

    def __init__(self, width):
        self.width = width


class Gaussian(Shape):
    """Of a width; 0.0 at more than eight times the width."""

    number = 0


class Lorentzian(Shape):
    """Of a half-width."""

    number = 1


class Box(Shape):
    """Of a half-width."""

    number = 2


# ---- answers

REFUSALS = {
    1: "measure: a measure is beyond its limits",
    2: "length: a slice has the wrong length, or the work buffer is too short",
    3: "index: a grid point, supercell atom, band or range of vectors is not there",
    4: "not finite: a number handed in for reading is infinite or a NaN",
    5: "mesh: an address, mesh size or entry of the q matrix is beyond its limits",
    6: "mass: a mass is zero or below",
    7: "cutoff: the cutoff is below zero",
    8: "bath: the weight is beyond its limits, or the temperature has its sign bit set",
    9: "phase: a phase is beyond ±1,048,576 or not finite",
    13: "width: the width is zero or below",
    255: "unreadable: a choice is a number that is not known",
}


class Refused(Exception):
    """The set is turned away with `number`, and nothing is changed."""

    def __init__(self, number):
        super().__init__(f"refused {number}, {REFUSALS.get(number, 'unknown')}")
        self.number = number


# ---- lengths

def bands(atoms):
    """B = 3·P."""
    return 3 * atoms


def slots(atoms, first):
    """F·B·B: flags, strengths, first and second weights of one triplet."""
    return first * bands(atoms) ** 2


def slot(atoms, b, j, k):
    """(b·B + j)·B + k: the number of slot (b, j, k)."""
    return (b * bands(atoms) + j) * bands(atoms) + k


def work_length(atoms, supercell):
    """W = 135·P³ + 54·P² + 6·P·S + 8·P: the least length of the work buffer."""
    return 135 * atoms**3 + 54 * atoms**2 + 6 * atoms * supercell + 8 * atoms


# ---- ctypes

_TYPES = {"usize": ctypes.c_size_t, "u8": ctypes.c_uint8, "i64": ctypes.c_int64, "f64": ctypes.c_double}
# of array.array, and of the buffers that are taken as they are
_TYPECODES = {"u8": "B", "i64": "q", "f64": "d"}
_FORMATS = {"u8": ("B", "b", "?"), "i64": ("q", "l"), "f64": ("d",)}
_NATIVE = "@=<" if sys.byteorder == "little" else "@=>!"


def _entry(kind):
    """The type of the entries of a slice or an array; None of a single value."""
    return kind[kind.index("[") + 1 : -1].split(";")[0] if kind.startswith("&") else None


def _fixed(kind):
    """The length of an array, which its type has; None of a slice, whose length is handed over."""
    return int(kind[kind.index(";") + 1 : -1]) if ";" in kind else None


def parameters(name):
    """What the function takes, in order: name and type. A slice is a pointer and then its length, an array a pointer."""
    all_of_it = []
    for parameter, kind in SIGNATURES[name]:
        entry = _entry(kind)
        if entry is None:
            all_of_it.append((parameter, _TYPES[kind]))
        elif _fixed(kind) is not None:
            all_of_it.append((parameter, ctypes.POINTER(_TYPES[entry] * _fixed(kind))))
        else:
            all_of_it.append((parameter, ctypes.POINTER(_TYPES[entry])))
            all_of_it.append((parameter + "_length", ctypes.c_size_t))
    return all_of_it


def declare(shared_object):
    """Tells ctypes the types of the five functions."""
    for name in SIGNATURES:
        function = getattr(shared_object, name)
        function.argtypes = [kind for _, kind in parameters(name)]
        function.restype = ctypes.c_uint8


def _converted(parameter, convert, value):
    """What `convert` makes of the value. Its errors name the parameter."""
    try:
        return convert(value)
    except OverflowError as error:
        raise OverflowError(f"{parameter}: {error}") from None
    except TypeError as error:
        raise TypeError(f"{parameter}: {error}") from None


def _single(parameter, kind, value):
    """The value, if it fits: ctypes would cut off what does not. Text is no number."""
    if kind == "f64":
        return _converted(parameter, ctypes.c_double, value).value
    value = _converted(parameter, operator.index, value)
    if _TYPES[kind](value).value != value:
        raise OverflowError(f"{parameter}: {value} is no {kind}")
    return value


def _shape(value):
    """The two parameters that a shape stands for."""
    if not isinstance(value, (Gaussian, Lorentzian, Box)):
        raise TypeError("shape: a Gaussian, a Lorentzian or a Box is wanted")
    return {"shape": value.number, "width": value.width}


def _slice(parameter, kind, value):
    """The slice or array as an array of ctypes: the caller's own memory if it is written."""
    entry = _entry(kind)
    written = kind.startswith("&mut")
    try:
        view = memoryview(value)
    except TypeError:
        if written:
            raise TypeError(f"{parameter}: a buffer is wanted, such as array.array('{_TYPECODES[entry]}', ...)") from None
        view = memoryview(_converted(parameter, lambda numbers: array.array(_TYPECODES[entry], numbers), value))
    size = ctypes.sizeof(_TYPES[entry])
    if view.format.lstrip(_NATIVE) not in _FORMATS[entry] or view.itemsize != size or not view.c_contiguous:
        raise TypeError(f"{parameter}: a contiguous buffer of {entry} is wanted")
    if written and view.readonly:
        raise TypeError(f"{parameter}: the buffer is only for reading")
    length = view.nbytes // size
    if _fixed(kind) not in (None, length):
        raise ValueError(f"{parameter}: {_fixed(kind)} numbers are wanted, not {length}")
    kind_of_array = _TYPES[entry] * length
    # A copy is aligned. An empty buffer may begin anywhere.
    if view.readonly or view.nbytes == 0:
        return kind_of_array.from_buffer_copy(view)
    lent = kind_of_array.from_buffer(view)
    if ctypes.addressof(lent) % ctypes.alignment(lent) != 0:
        raise TypeError(f"{parameter}: the buffer is not aligned for {entry}")
    return lent


def _range(lent):
    start = ctypes.addressof(lent)
    return start, start + ctypes.sizeof(lent)


def _check_apart(lent):
    """Memory that is written must be lent once. `lent`: parameter, whether written, array."""
    for n, (parameter, written, one) in enumerate(lent):
        for other_parameter, other_written, other in lent[:n]:
            (start, end), (other_start, other_end) = _range(one), _range(other)
            if (written or other_written) and max(start, other_start) < min(end, other_end):
                raise ValueError(f"{other_parameter} and {parameter} share memory")


class Library:
    """The five functions of a shared object. They may be called from several threads, each with its own written slices."""

    def __init__(self, path):
        # A name without a folder would be looked for among the system's libraries.
        self._shared_object = ctypes.CDLL(os.path.abspath(path))
        declare(self._shared_object)

    def get_interaction_at_triplet(self, **arguments):
        """The strengths of one triplet."""
        self._call("wirambolo_get_interaction_at_triplet", arguments)

    def get_interaction(self, **arguments):
        """The strengths of a list of triplets."""
        self._call("wirambolo_get_interaction", arguments)

    def imag_self_energy_at_triplet(self, **arguments):
        """The totals of one triplet, from its strengths."""
        self._call("wirambolo_imag_self_energy_at_triplet", arguments)

    def joined_at_triplet(self, **arguments):
        """The strengths and the totals of one triplet."""
        self._call("wirambolo_joined_at_triplet", arguments)

    def integration_weights_at_triplet(self, **arguments):
        """The weights and the flags of one triplet, from a shape, which holds its width."""
        self._call("wirambolo_integration_weights_at_triplet", arguments)

    def _call(self, name, arguments):
        wanted = [parameter for parameter, _ in SIGNATURES[name] if parameter != "width"]
        if set(wanted) != set(arguments):
            missing = [p for p in wanted if p not in arguments]
            unknown = [p for p in arguments if p not in wanted]
            raise TypeError(f"{name}: missing {missing}, unknown {unknown}")
        if "shape" in arguments:
            arguments = {**arguments, **_shape(arguments["shape"])}
        values = []
        lent = []
        for parameter, kind in SIGNATURES[name]:
            value = arguments[parameter]
            if kind.startswith("&"):
                one = _slice(parameter, kind, value)
                lent.append((parameter, kind.startswith("&mut"), one))
                values += [one] if _fixed(kind) is not None else [one, len(one)]
            else:
                values.append(_single(parameter, kind, value))
        _check_apart(lent)
        number = getattr(self._shared_object, name)(*values)
        if number != 0:
            raise Refused(number)


DEFAULT = Path(__file__).resolve().parents[2] / "target" / "shared" / "libwirambolo.so"


def load(path=None):
    """The library at `path`, else at WIRAMBOLO_SO, else in target/shared of the repository."""
    if path is None:
        path = os.environ.get("WIRAMBOLO_SO") or DEFAULT
    if not Path(path).is_file():
        raise FileNotFoundError(
            f"{path} is not there. Build the static library with `tools/build wirambolo_c` and make the shared object"
            " by the command at the top of bindings/python/wirambolo.py, or name it in WIRAMBOLO_SO."
        )
    return Library(path)
