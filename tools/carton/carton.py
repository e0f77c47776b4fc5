#!/usr/bin/env python3
"""Carton files from readable descriptions, and back.

    carton.py make DESCRIPTION [-o FILE]    write the carton of a description
    carton.py show FILE                     print a carton as a description, and what is wrong with it

`-` in place of DESCRIPTION or FILE is standard input. README.md in this folder says how a description is written. Nothing but
Python 3.8 or later is needed.
"""
import argparse
import codecs
import collections
import contextlib
import difflib
import math
import os
import re
import stat
import struct
import sys
import tempfile
import unicodedata
from pathlib import Path

BLOCK_BYTES = 512
BLOCK_WORDS = 63
EDITION = 1
# what `key` takes at most
MOST_BLOCKS = 96
MOST_WORK = 6144
# a description that asks for more is surely a slip
MOST_WORDS = 1_000_000
# Boltzmann's constant over Planck's: what 1 K is in THz
KELVIN_IN_THZ = "0.0208366"
# in place of a file's name: standard input, or behind -o standard output
STANDARD = "-"

# ---- what a carton holds, in file order

MEASURES = {
    "P": "atoms of the primitive cell",
    "S": "supercell atoms",
    "F": "first bands",
    "G": "grid points",
    "V": "vectors",
}

# the words where a bit of the flag bits is 0 and where it is 1, the bit's number, and the default
Choice = collections.namedtuple("Choice", "off on bit default")
CHOICES = {
    "form": Choice("full", "compact", 0, "compact"),
    "anchoring": Choice("plain", "averaged", 1, "plain"),
    "symmetrized": Choice("no", "yes", 2, "no"),
}

SCALARS = {"weight": "integer", "cutoff": "number", "temperature": "number"}

# name; kind of its values; the indices of an entry, each with its size; the values of an entry; the default, if any
Table = collections.namedtuple("Table", "name kind indices parts default")
XYZ = ("direction 0", "direction 1", "direction 2")
SLOT = (("b", "F"), ("j", "B"), ("k", "B"))
TABLES = [
    Table("mesh", "integer", (), XYZ, None),
    Table("q matrix", "integer", (("row", 3),), ("column 0", "column 1", "column 2"), None),
    Table("triplet", "integer", (), ("first point", "second point", "third point"), None),
    Table("addresses", "integer", (("grid point", "G"),), XYZ, None),
    Table("vectors", "number", (("vector", "V"),), XYZ, None),
    Table("multiplicity", "integer", (("supercell atom", "S"), ("atom", "P")), ("count", "start"), None),
    Table("p2s", "integer", (("atom", "P"),), ("",), None),
    Table("s2p", "integer", (("supercell atom", "S"),), ("",), None),
    Table("masses", "number", (("atom", "P"),), ("",), None),
    Table("bands", "integer", (("position", "F"),), ("",), None),
    Table("frequencies", "number", (("grid point", "G"), ("band", "B")), ("",), None),
    Table("eigenvectors", "number", (("grid point", "G"), ("component", "B"), ("band", "B")), ("real part", "imaginary part"), None),
    Table("all-shortest", "flag", (("atom", "P"), ("j", "S"), ("k", "S")), ("",), 0),
    Table("nonzero", "flag", (("row", "R"), ("j", "S"), ("k", "S")), ("",), 1),
    Table("slot flags", "flag", SLOT, ("",), 0),
    Table("force constants", "number", (("row", "R"), ("j", "S"), ("k", "S"), ("l", 3), ("m", 3), ("n", 3)), ("",), None),
    Table("first weights", "number", SLOT, ("",), None),
    Table("second weights", "number", SLOT, ("",), None),
]
BY_NAME = {table.name: table for table in TABLES}
# a measure that is not given is counted from this table
COUNTED_FROM = {"P": "masses", "S": "s2p", "F": "bands", "G": "addresses", "V": "vectors"}
# what a description may give in place of these tables
SHAPE_NAMES = ("shape", "width")
WORKED = ("slot flags", "first weights", "second weights")
NAMES = ["from", *MEASURES, *CHOICES, *SCALARS, *SHAPE_NAMES, *BY_NAME]


class CartonError(Exception):
    """What ends the command with a message."""


class DescriptionError(CartonError):
    """A description that no carton can be made of."""

    def __init__(self, path, line, text):
        super().__init__(f"{place_text(path, line)}: {text}")


class FileError(CartonError):
    """A file that cannot be read, or is not written."""


# ---- words for messages

def place_text(path, line=None):
    name = "standard input" if path == STANDARD else path
    return f"{name}:{line}" if line else f"{name}"


def quoted(text):
    """A piece of a description, no longer than a message takes, and printable."""
    text = text if len(text) <= 40 else text[:37] + "..."
    return "`" + "".join(c if c.isprintable() else f"\\u{ord(c):04x}" for c in text) + "`"


def reason(problem):
    """What the system says of a file, without its number and the name."""
    return problem.strerror or str(problem)


# ---- sizes and places

class Sizes(dict):
    """The measures by their letters, with B and R; `origins` says for each what set it, in the order to be told."""

    def __init__(self, measures, compact):
        super().__init__(measures)
        self.rows = "P" if compact else "S"
        self["B"], self["R"] = 3 * measures["P"], measures[self.rows]
        self.origins = {}

    def set_by(self, measures, form):
        """Takes what set the measures and the form."""
        self.origins = {letter: [text] for letter, text in measures.items()}
        self.origins["B"] = ["B = 3·P"] + self.origins["P"]
        self.origins["R"] = [f"R = {self.rows}, as {form}"] + self.origins[self.rows]

    def origin_text(self, *sizes):
        """What set these sizes, to stand behind a message."""
        texts = [text for size in sizes for text in self.origins.get(size, [])]
        return "".join(f"; {text}" for text in dict.fromkeys(texts))


def size_of(sizes, size):
    return sizes[size] if isinstance(size, str) else size


def entries_of(table, sizes):
    return math.prod(size_of(sizes, size) for _, size in table.indices)


def words_needed(table, sizes):
    return entries_of(table, sizes) * len(table.parts)


def index_at(table, sizes, entry):
    """The indices of an entry, by its number."""
    index = []
    for _, size in reversed(table.indices):
        index.append(entry % size_of(sizes, size))
        entry //= size_of(sizes, size)
    return tuple(reversed(index))


def place_at(table, sizes, word):
    """Where a word of a table stands, in words."""
    index = index_at(table, sizes, word // len(table.parts))
    names = [f"{name} {i}" for (name, _), i in zip(table.indices, index)]
    part = table.parts[word % len(table.parts)]
    return ", ".join(names + [part] if part else names)


def product_text(table, sizes):
    """The length of a table as its factors, 1 (G) · 3 (B) · 2 (real part, imaginary part), and what set them."""
    factors = [f"{size_of(sizes, size)} ({size})" if isinstance(size, str) else f"{size} ({name})" for name, size in table.indices]
    if len(table.parts) > 1:
        factors.append(f"{len(table.parts)} ({', '.join(table.parts)})")
    return " · ".join(factors) + sizes.origin_text(*(size for _, size in table.indices))


def work_length(sizes):
    """Document 01's W."""
    p, s = sizes["P"], sizes["S"]
    return 135 * p**3 + 54 * p**2 + 6 * p * s + 8 * p


# ---- one value as a word of 64 bits, and back

# digits are ASCII: \d would take those of every script
DECIMAL = re.compile(r"[+-]?([0-9]+(\.[0-9]*)?|\.[0-9]+)([eE][+-]?[0-9]+)?")
INTEGER = re.compile(r"[+-]?[0-9]{1,19}")
BITS = re.compile(r"0x[0-9a-fA-F]{16}")
FLAG = re.compile(r"[0-9]{1,3}")
COUNT = re.compile(r"[0-9]{1,7}")
INDEX = re.compile(r"[0-9]+")
EXPECTED = {
    "integer": "a whole number of 64 bits, such as -3, or the 16 hexadecimal digits of its bits, such as 0xfffffffffffffffd",
    "number": "a decimal, such as 0.5 or -1e-3, or the 16 hexadecimal digits of its bits, such as 0x3fe0000000000000",
    "flag": "a flag from 0 to 255",
}


def word_from(kind, text):
    """The word of a value, or None if it is not one of its kind."""
    if kind == "flag":
        return int(text) if FLAG.fullmatch(text) and int(text) < 256 else None
    if BITS.fullmatch(text):
        return int(text, 16)
    if kind == "integer":
        if not INTEGER.fullmatch(text) or not -(2**63) <= int(text) < 2**63:
            return None
        return int(text) % 2**64
    if not DECIMAL.fullmatch(text) or math.isinf(float(text)):
        return None
    return word_of(float(text))


def word_of(x):
    """The bits of a number; of any NaN those that `key` prints."""
    return 0x7FF8000000000000 if math.isnan(x) else struct.unpack("<Q", struct.pack("<d", x))[0]


def integer_of(word):
    return word - 2**64 if word >= 2**63 else word


def number_of(word):
    return struct.unpack("<d", struct.pack("<Q", word))[0]


def text_from(kind, word):
    """A word as a value of its kind: the shortest decimal that gives the same bits, and bits for what has no decimal."""
    if kind == "integer":
        return str(integer_of(word))
    if kind == "flag":
        return str(word)
    x = number_of(word)
    if not math.isfinite(x):
        return f"0x{word:016x}"
    return str(int(x)) if x == int(x) and abs(x) < 1e15 and word != 2**63 else repr(x)


# ---- what may stand wrong in a value

# what parts values: blanks are plain blanks and tabs, so that any other one is seen
CHUNK = re.compile(r"[^ \t]+")
VALUE = re.compile(r"[^ \t,]+")
TIGHT_COMMA = re.compile(r"[0-9],+[0-9]")


def comma_text(kind, chunk, several):
    """What to write where a comma stands between two digits without a blank, in a place for several values or for one."""
    values, decimal = VALUE.findall(chunk), chunk.replace(",", ".", 1)
    parted = f"{quoted(', '.join(values))} for {len(values)} values"
    if kind == "number" and DECIMAL.fullmatch(decimal.rpartition("*")[2]):
        return f"a decimal comma is not taken: write {quoted(decimal)}" + (f", or {parted}" if several else "")
    return f"a comma between two digits needs a blank behind it: write {parted}" if several else "a comma within a number is not taken"


def strange_text(text):
    """Names the first character of a text that is not ASCII, to stand behind a message."""
    found = next((c for c in text if c != "\t" and not " " <= c <= "~"), None)
    if found is None:
        return ""
    return f"; U+{ord(found):04X}, {unicodedata.name(found, 'a control character')}, was found, and names and values are written in ASCII"


def misfit_text(kind, value):
    """Why a single value is not one of its kind."""
    comma = "; " + comma_text(kind, value, several=False) if TIGHT_COMMA.search(value) else ""
    return f"{quoted(value)}: {EXPECTED[kind]} was expected{comma}{strange_text(value)}"


# ---- reading a description

class Statement:
    """A name, and the lines of its values with their numbers."""

    def __init__(self, path, line, name):
        self.path, self.line, self.name, self.lines = path, line, name, []

    def error(self, text, line=None):
        return DescriptionError(self.path, line or self.line, f"{self.name}: {text}")

    def place(self):
        return place_text(self.path, self.line)


def read_file(name):
    """The bytes of a file, and what tells it from every other file under any name. The word `-` is standard input."""
    standard = name == STANDARD
    try:
        with open(0 if standard else name, "rb", closefd=not standard) as stream:
            return stream.read(), identity(os.fstat(stream.fileno()))
    except OSError as problem:
        raise FileError(f"{place_text(name)}: cannot be read: {reason(problem)}") from None


def identity(status):
    return status.st_dev, status.st_ino


def text_of(path, file):
    """The text of a description: UTF-8, with or without a byte-order mark."""
    if file.startswith((codecs.BOM_UTF16_LE, codecs.BOM_UTF16_BE)):
        raise DescriptionError(path, None, "is UTF-16: save it as UTF-8")
    zero = file.find(b"\0")
    if zero >= 0:
        raise DescriptionError(path, line_at(file, zero), "a byte 0, where a description, text in UTF-8, was expected; is this UTF-16, or a carton?")
    file = file[len(codecs.BOM_UTF8):] if file.startswith(codecs.BOM_UTF8) else file
    try:
        return file.decode("utf-8")
    except UnicodeDecodeError as problem:
        raise DescriptionError(path, line_at(file, problem.start), f"byte 0x{file[problem.start]:02x} is no UTF-8: save the description as UTF-8") from None


def lines_of(text):
    """The lines of a text, ended as on any system."""
    return text.replace("\r\n", "\n").replace("\r", "\n").split("\n")


def line_at(file, place):
    """The number of the line that a byte stands in."""
    return len(lines_of(file[:place].decode("latin-1")))


def statements_of(path, text):
    """The statements of a description, by name."""
    found, current = {}, None
    for number, line in enumerate(lines_of(text), 1):
        line = line.split("#", 1)[0].rstrip(" \t")
        if not line:
            continue
        if line[0] not in " \t":
            current, line = statement_at(path, number, line)
            if current.name in found:
                raise current.error(f"given twice, first in line {found[current.name].line}")
            found[current.name] = current
        if current is None:
            raise DescriptionError(path, number, "a line that goes on with the one above was found where a name was expected")
        line = line.strip(" \t")
        if line:
            current.lines.append((number, line))
    return found


def statement_at(path, number, line):
    """The statement that begins with a line, and what stands behind its name."""
    name, colon, rest = line.partition(":")
    name = name.strip(" \t")
    if not colon:
        raise DescriptionError(path, number, f"{quoted(name)}: a name, a colon and values were expected, or a blank in front where the line goes on with the one above{strange_text(name)}")
    if name not in NAMES:
        near = difflib.get_close_matches(name, NAMES, 1)
        names = f"; is `{near[0]}` meant?" if near else f"; the names are {', '.join(NAMES)}"
        raise DescriptionError(path, number, f"no table is named {quoted(name)}{names}{strange_text(name)}")
    return Statement(path, number, name), rest


def layers_of(path):
    """The statements of a description behind those of the ones that it starts from; and the files that were read."""
    file, here = read_file(path)
    layers, files = [statements_of(path, text_of(path, file))], {here}
    while "from" in layers[-1]:
        statement = layers[-1].pop("from")
        path, file, here = base_of(statement)
        if here in files:
            raise statement.error(f"{path} starts from itself")
        files.add(here)
        layers.append(statements_of(path, text_of(path, file)))
    return layers[::-1], files


def base_of(statement):
    """The description that a statement starts from: its path, its bytes, and what tells the file."""
    if len(statement.lines) != 1:
        raise statement.error("the name of one file was expected")
    path = Path(statement.path).parent / statement.lines[0][1]
    try:
        return path, *read_file(path)
    except FileError as problem:
        raise statement.error(problem) from None


def single(statement):
    """The one value of a statement."""
    values = [value for _, line in statement.lines for value in CHUNK.findall(line)]
    if len(values) != 1:
        raise statement.error(f"{len(values)} values where one was expected")
    return values[0]


def one_of(statement, words):
    """The one value of a statement, which is one of these words."""
    value = single(statement)
    if value not in words:
        raise statement.error(f"{quoted(value)}: {', '.join(words[:-1])} or {words[-1]} was expected{strange_text(value)}")
    return value


def single_word(statement, kind):
    """The word of the one value of a statement."""
    value = single(statement)
    word = word_from(kind, value)
    if word is None:
        raise statement.error(misfit_text(kind, value))
    return word


def choice_of(said, name):
    choice = CHOICES[name]
    value = one_of(said[name], (choice.off, choice.on)) if name in said else choice.default
    return value == choice.on


def scalar_of(said, name, path):
    if name not in said:
        raise DescriptionError(path, None, f"{name} is not given: {EXPECTED[SCALARS[name]]} was expected")
    return single_word(said[name], SCALARS[name])


class Contents:
    """What a description says of a table: a list of values or one entry for all, and then single entries."""

    def __init__(self, table):
        self.table, self.values, self.fill, self.changes = table, None, None, []
        # the last statement, and the one with the list or the entry for all
        self.statement = self.listed = None

    def take(self, statement):
        """One more statement: it begins the table anew, unless it gives single entries alone."""
        self.statement = statement
        if not statement.lines or any("=" not in line for _, line in statement.lines):
            self.values, self.fill, self.changes, self.listed = None, None, [], statement
        for number, line in statement.lines:
            if "=" in line:
                self.changes.append((statement, number, line))
            elif CHUNK.match(line).group() == "all":
                self.take_all(statement, number, line)
            elif self.fill is not None:
                raise statement.error("values behind `all`: single entries, as `0 1 2 = 1`, were expected", number)
            else:
                self.values = self.words(statement, number, line, self.values)
        if self.values is None and self.fill is None and not self.changes:
            self.values = []

    def take_all(self, statement, number, line):
        if self.values is not None or self.fill is not None:
            raise statement.error("`all` behind other values", number)
        self.fill = self.words(statement, number, line[len("all"):])
        self.expect_parts(statement, number, self.fill)

    def expect_parts(self, statement, number, words):
        parts = self.table.parts
        if len(words) != len(parts):
            names = f" ({', '.join(parts)})" if len(parts) > 1 else ""
            raise statement.error(f"{len(words)} values where {len(parts)}{names} were expected for an entry", number)

    def words(self, statement, number, line, words=None):
        """The words of a line of values, put behind those that were read before it."""
        words = [] if words is None else words
        for chunk in CHUNK.findall(line):
            if TIGHT_COMMA.search(chunk):
                raise statement.error(f"value {len(words)}, {quoted(chunk)}: {comma_text(self.table.kind, chunk, several=True)}", number)
            for text in VALUE.findall(chunk):
                self.put(statement, number, text, words)
        return words

    def put(self, statement, number, text, words):
        """One value, which may be a repeated one, behind the words."""
        times, star, value = text.rpartition("*")
        if star and not COUNT.fullmatch(times):
            raise statement.error(f"value {len(words)}, {quoted(text)}: a repeated value, such as 27*0, was expected{strange_text(times)}", number)
        word = word_from(self.table.kind, value)
        if word is None:
            raise statement.error(f"value {len(words)}, {misfit_text(self.table.kind, value)}", number)
        times = int(times) if star else 1
        if len(words) + times > MOST_WORDS:
            raise statement.error(f"more than {MOST_WORDS} values", number)
        words.extend([word] * times)

    def is_any_set(self):
        """Whether a value other than 0 is given, or single entries, which are not looked at."""
        return any(self.values or self.fill or []) or bool(self.changes)

    def count(self):
        """How many entries are listed, or None where the list is not whole."""
        parts = len(self.table.parts)
        return None if self.values is None or len(self.values) % parts else len(self.values) // parts

    def resolve(self, sizes, path):
        """The words of the table."""
        table, needed = self.table, words_wanted(self.table, sizes, path)
        if self.fill is not None:
            words = self.fill * entries_of(table, sizes)
        elif self.values is not None:
            words = list(self.values)
            if len(words) != needed:
                raise self.listed.error(f"{len(words)} values where {needed} were expected: {product_text(table, sizes)}")
        elif table.default is not None:
            words = [table.default] * needed
        else:
            raise DescriptionError(path, None, f"{table.name} is not given: {needed} values were expected: {product_text(table, sizes)}")
        for statement, number, line in self.changes:
            self.change(words, sizes, statement, number, line)
        return words

    def change(self, words, sizes, statement, number, line):
        """One entry: its indices, an equals sign, its values."""
        parts = len(self.table.parts)
        left, _, right = line.partition("=")
        entry = self.entry_at(sizes, statement, number, left)
        values = self.words(statement, number, right)
        self.expect_parts(statement, number, values)
        words[entry * parts:(entry + 1) * parts] = values

    def entry_at(self, sizes, statement, number, left):
        """The number of the entry that the indices in front of an equals sign name."""
        names = [name for name, _ in self.table.indices]
        if not names:
            raise statement.error("an equals sign, where the values alone were expected", number)
        index = VALUE.findall(left)
        if len(index) != len(names) or not all(map(INDEX.fullmatch, index)):
            raise statement.error(f"{quoted(left.strip())} in front of the equals sign, where numbers for {', '.join(names)} were expected{strange_text(left)}", number)
        entry = 0
        for (name, size), text in zip(self.table.indices, index):
            length = size_of(sizes, size)
            # no size has so many digits, and the conversion of many takes long
            if len(text) > 19 or int(text) >= length:
                allowed = f"0 to {length - 1} was expected" if length else "the table is empty"
                raise statement.error(f"{name} {text[:20]}: {allowed}{sizes.origin_text(size)}", number)
            entry = entry * length + int(text)
        return entry


def words_wanted(table, sizes, path):
    """The number of words of a table that a description asks for."""
    needed = words_needed(table, sizes)
    if needed > MOST_WORDS:
        raise DescriptionError(path, None, f"{table.name}: {needed} values are more than {MOST_WORDS}: {product_text(table, sizes)}")
    return needed


def measure_of(said, letter, contents, path):
    """A measure, and what set it: a statement of its own, or the table that it is counted from."""
    statement = said.get(letter)
    if statement is None:
        table = contents[COUNTED_FROM[letter]]
        count = counted(table, letter, path)
        return count, f"{letter} = {count} is counted from {table.table.name} at {table.listed.place()}"
    value = single(statement)
    if not COUNT.fullmatch(value):
        raise statement.error(f"{quoted(value)}: a number of {MEASURES[letter]} was expected{strange_text(value)}")
    return int(value), f"{letter} = {int(value)} is stated at {statement.place()}"


def counted(table, letter, path):
    """The entries that a table lists."""
    count = table.count()
    if count is None:
        text = f"{letter}, the number of {MEASURES[letter]}, is not given, and {table.table.name} does not list whole entries to count"
        raise table.statement.error(text) if table.statement else DescriptionError(path, None, text)
    return count


def form_text(said, compact):
    """What set the form."""
    word = CHOICES["form"].on if compact else CHOICES["form"].off
    return f"the form is {word}, " + (f"stated at {said['form'].place()}" if "form" in said else "by default")


# ---- weights from a shape
#
# What the door wirambolo_integration_weights_at_triplet writes, bit for bit: each operation is rounded once, left to right, as Python works.

# 1/π and 1/√(2π)
INVERSE_PI = number_of(0x3FD45F306DC9C883)
GAUSSIAN_SCALE = number_of(0x3FD9884533D43651)
# 1/ln 2, and ln 2 in two parts
LOG2_E = number_of(0x3FF71547652B82FE)
LN_2_HIGH = number_of(0x3FE62E42FEE00000)
LN_2_LOW = number_of(0x3DEA39EF35793C76)


def exponential(x):
    """Document 01's exponential, of a number of at least 0."""
    if x > 709.0:
        return math.inf
    k = int(x * LOG2_E)
    r = (x - k * LN_2_HIGH) - k * LN_2_LOW
    p = 1.0
    for n in range(18, 0, -1):
        p = 1.0 + p * (r / n)
    return p * math.ldexp(1.0, k)


def gaussian(w, d):
    if abs(d) > 8.0 * w:
        return 0.0
    t = d / w
    return 1.0 / exponential(t * t / 2.0) * (GAUSSIAN_SCALE / w)


def lorentzian(w, d):
    square = d * d + w * w
    # of small numbers both squares are 0.0: IEEE 754 has an infinite quotient then, and Python an error
    return (w / square if square > 0.0 else math.inf) * INVERSE_PI


def box(w, d):
    return 1.0 / (2.0 * w) if abs(d) <= w else 0.0


# the shape at distance d, of width w, which is finite and above zero
SHAPES = {"gaussian": gaussian, "lorentzian": lorentzian, "box": box}
Shape = collections.namedtuple("Shape", "at width")
REFUSED = "the door of weights from a shape refuses it with"


def shape_of(said):
    """The shape that a description gives, or None."""
    given = [name for name in SHAPE_NAMES if name in said]
    if not given:
        return None
    if len(given) == 1:
        missing = next(name for name in SHAPE_NAMES if name not in said)
        raise said[given[0]].error(f"given without {missing}: a shape and its width go together")
    for name in WORKED:
        if name in said:
            raise said[name].error(f"given beside the shape at {said['shape'].place()}, which stands in place of {', '.join(WORKED[:-1])} and {WORKED[-1]}")
    return Shape(SHAPES[one_of(said["shape"], tuple(SHAPES))], number_of(single_word(said["width"], "number")))


def expect_accepted(shape, sizes, tables, said):
    """Turns away what the door refuses, as there are no weights then; the number is the door's, the lowest that applies. The limits of the
    measures, number 1, are left to `key`."""
    for name, size in (("triplet", "G"), ("bands", "B")):
        allowed = f"0 to {sizes[size] - 1} was expected" if sizes[size] else "none is there"
        expect_all(name, lambda word, size=size: word < sizes[size], f"{allowed}; {REFUSED} 3{sizes.origin_text(size)}", sizes, tables, said)
    expect_all("frequencies", lambda word: math.isfinite(number_of(word)), f"a finite number was expected; {REFUSED} 4", sizes, tables, said)
    if not (math.isfinite(shape.width) and shape.width > 0.0):
        number = 13 if math.isfinite(shape.width) else 4
        raise said["width"].error(f"{quoted(single(said['width']))}: a finite number above zero was expected; {REFUSED} {number}")


def expect_all(name, fits, text, sizes, tables, said):
    """Turns away a number of a table that does not fit, with this text behind it."""
    table = BY_NAME[name]
    for place, word in enumerate(tables[name]):
        if not fits(word):
            raise said[name].error(f"{place_at(table, sizes, place)}, {quoted(text_from(table.kind, word))}: {text}")


def slot_of(shape, f0, f1, f2):
    """The flag, the first and the second weight of a slot whose bands have these frequencies."""
    one, two, three = (shape.at(shape.width, d) for d in ((f0 - f1) - f2, (f0 + f1) - f2, (f0 - f1) + f2))
    return int(one == 0.0 and two == 0.0 and three == 0.0), one, two - three


def worked_tables(shape, sizes, tables):
    """The words of the tables that a shape stands in place of."""
    bands = sizes["B"]
    legs = [[number_of(word) for word in tables["frequencies"][point * bands:(point + 1) * bands]] for point in tables["triplet"]]
    slots = [slot_of(shape, legs[0][band], f1, f2) for band in tables["bands"] for f1 in legs[1] for f2 in legs[2]]
    return {
        "slot flags": [flag for flag, _, _ in slots],
        "first weights": [word_of(first) for _, first, _ in slots],
        "second weights": [word_of(second) for _, _, second in slots],
    }


# ---- a description as a carton

# the words of the carton, without the zeros behind them; the sizes; the words of each single value and table by its name; the last statement
# of each name; the slot flags, not all 0, that gave way to those of a shape; what tells the files that were read
Description = collections.namedtuple("Description", "words sizes held said replaced files")


def merged(layers):
    """What the layers say together: the contents of each table, the last statement of each name, and the flags that gave way."""
    contents, said, replaced = {table.name: Contents(table) for table in TABLES}, {}, None
    for layer in layers:
        if "shape" in layer:
            # it stands in place of what the layers before say of these tables
            replaced = contents["slot flags"].statement if contents["slot flags"].is_any_set() else replaced
            contents.update((name, Contents(BY_NAME[name])) for name in WORKED)
            said = {name: statement for name, statement in said.items() if name not in WORKED}
        said.update(layer)
        for name, statement in layer.items():
            if name in contents:
                contents[name].take(statement)
    return contents, said, replaced


def resolved(contents, said, sizes, path):
    """The words of each table, in file order."""
    shape = shape_of(said)
    if shape is None:
        return {table.name: contents[table.name].resolve(sizes, path) for table in TABLES}
    for name in WORKED:
        words_wanted(BY_NAME[name], sizes, path)
    tables = {table.name: contents[table.name].resolve(sizes, path) for table in TABLES if table.name not in WORKED}
    expect_accepted(shape, sizes, tables, said)
    tables.update(worked_tables(shape, sizes, tables))
    return {table.name: tables[table.name] for table in TABLES}


def read_description(path):
    """The carton that a description asks for."""
    layers, files = layers_of(path)
    contents, said, replaced = merged(layers)
    on = {name: choice_of(said, name) for name in CHOICES}
    measured = {letter: measure_of(said, letter, contents, path) for letter in MEASURES}
    sizes = Sizes({letter: value for letter, (value, _) in measured.items()}, on["form"])
    sizes.set_by({letter: origin for letter, (_, origin) in measured.items()}, form_text(said, on["form"]))
    held = {name: [scalar_of(said, name, path)] for name in SCALARS}
    held.update(resolved(contents, said, sizes, path))
    words = [EDITION, *(sizes[letter] for letter in MEASURES), sum(on[name] << choice.bit for name, choice in CHOICES.items())]
    for part in held.values():
        words += part
    return Description(words, sizes, held, said, replaced, files)


# ---- blocks

def check_of(block):
    """The sum modulo 2^32 of the first 127 four-byte words, the block number among them."""
    return sum(struct.unpack("<127I", block[:508])) % 2**32


def seal(words):
    """The blocks of these words: zeros to the end of the last one, number and check on each."""
    parts = []
    for number, start in enumerate(range(0, len(words), BLOCK_WORDS)):
        part = words[start:start + BLOCK_WORDS]
        block = struct.pack("<63QI", *part, *[0] * (BLOCK_WORDS - len(part)), number)
        parts += block, struct.pack("<I", check_of(block))
    return b"".join(parts)


def is_carton(stream):
    """Whether a file is a carton: whole blocks, at least one, each with its number and check, and the edition in front."""
    place = 0
    for block in iter(lambda: stream.read(BLOCK_BYTES), b""):
        if len(block) < BLOCK_BYTES or struct.unpack("<2I", block[504:]) != (place, check_of(block)):
            return False
        if place == 0 and struct.unpack("<Q", block[:8]) != (EDITION,):
            return False
        place += 1
    return place > 0


# ---- notes: what is worth a look in a carton that is well made

def notes_on(description):
    yield from size_notes(description)
    yield from temperature_notes(description)
    yield from address_notes(description)
    yield from shape_notes(description)


def size_notes(description):
    """What `key` says of a carton that is too large for it."""
    blocks, work = -(-len(description.words) // BLOCK_WORDS), work_length(description.sizes)
    if blocks > MOST_BLOCKS:
        yield f"{blocks} blocks, and `key` takes {MOST_BLOCKS}: it refuses this carton with 10"
    elif work > MOST_WORK:
        yield f"W is {work}, and `key` takes {MOST_WORK}: it refuses this carton with 12"


def temperature_notes(description):
    """A temperature that may be in kelvin."""
    temperature = number_of(description.held["temperature"][0])
    highest = max(filter(lambda x: not math.isnan(x), map(number_of, description.held["frequencies"])), default=math.inf)
    if temperature > 10 * highest:
        yield (f"{description.said['temperature'].place()}: temperature: {temperature:g} is above ten times the highest frequency, {highest:g}; "
               f"it is taken in the unit of the frequencies: for frequencies in THz, kelvin times {KELVIN_IN_THZ}")


def address_notes(description):
    """A triplet whose q do not add up to a reciprocal lattice vector."""
    mesh, points, addresses = ([integer_of(word) for word in description.held[name]] for name in ("mesh", "triplet", "addresses"))
    if min(mesh) < 1 or min(points) < 0 or max(points) >= description.sizes["G"]:
        return
    sums = [sum(addresses[3 * point + d] for point in points) for d in range(3)]
    if any(total % size for total, size in zip(sums, mesh)):
        yield (f"{description.said['triplet'].place()}: triplet: the addresses of its points add up to {' '.join(map(str, sums))}; "
               f"those of a physical triplet add up to multiples of the mesh, {' '.join(map(str, mesh))}")


def shape_notes(description):
    """Flags that gave way to those of a shape, and weights from it that are beyond an f64."""
    if "shape" not in description.said:
        return
    if description.replaced:
        yield f"{description.replaced.place()}: slot flags: the shape at {description.said['shape'].place()} gives others in their place"
    weights = zip(description.held["first weights"], description.held["second weights"])
    slots = [n for n, pair in enumerate(weights) if not all(math.isfinite(number_of(word)) for word in pair)]
    if slots:
        table = BY_NAME["first weights"]
        names = ", ".join(" ".join(map(str, index_at(table, description.sizes, n))) for n in slots[:5])
        more = f" and {len(slots) - 5} more" if len(slots) > 5 else ""
        yield (f"{description.said['width'].place()}: width: a weight is infinite or a NaN in {len(slots)} of {entries_of(table, description.sizes)} slots, "
               f"{names}{more}: `key` refuses this carton with 4")


# ---- showing a carton

class Shown:
    """The lines of a carton as a description; what is wrong stands in comments with two marks."""

    def __init__(self):
        self.lines, self.right = [], True

    def say(self, text):
        self.lines.append(text)

    def wrong(self, number, text):
        self.right = False
        self.say(f"## wrong, {number}: {text}")


def show(file):
    """A carton as text, and whether it is whole. The numbers of what is wrong are those that `key` refuses it with."""
    shown = Shown()
    blocks = [file[at:at + BLOCK_BYTES] for at in range(0, len(file) - len(file) % BLOCK_BYTES, BLOCK_BYTES)]
    shown.say(f"# {len(file)} bytes, {len(blocks)} blocks")
    if not file or len(file) % BLOCK_BYTES:
        shown.wrong(10, f"{len(file)} bytes, where a multiple of {BLOCK_BYTES} was expected, and not 0")
    if len(blocks) > MOST_BLOCKS:
        shown.wrong(10, f"{len(blocks)} blocks, where at most {MOST_BLOCKS} were expected")
    for place, block in enumerate(blocks):
        show_block(shown, place, block)
    words = [word for block in blocks for word in struct.unpack("<63Q", block[:504])]
    if words:
        show_words(shown, words, len(blocks))
    return "\n".join(shown.lines) + "\n", shown.right


def show_block(shown, place, block):
    number, check = struct.unpack("<2I", block[504:])
    if number != place:
        shown.wrong(11, f"block {place} has the number {number}")
    if check != check_of(block):
        shown.wrong(11, f"block {place} has the check {check:08x}, where {check_of(block):08x} was expected")
    if number == place and check == check_of(block):
        shown.say(f"# block {place}: number {number} and check {check:08x} are right")


def show_words(shown, words, blocks):
    """The heading, and the tables if they can be told apart."""
    if words[0] != EDITION:
        shown.wrong(12, f"edition {words[0]}, where {EDITION} was expected")
    if words[6] >= 8:
        shown.wrong(12, f"flag bits {words[6]:016x}, where bits 0 to 2 alone were expected")
    measures = dict(zip(MEASURES, words[1:6]))
    shown.say("")
    for letter, value in measures.items():
        shown.say(f"{letter}: {text_from('integer', value)}  # {MEASURES[letter]}")
    for name, choice in CHOICES.items():
        shown.say(f"{name}: {choice.on if words[6] >> choice.bit & 1 else choice.off}")
    for (name, kind), word in zip(SCALARS.items(), words[7:10]):
        shown.say(f"{name}: {text_from(kind, word)}")
    below = [letter for letter, value in measures.items() if value >= 2**63]
    if below:
        shown.wrong(12, f"{', '.join(below)} below 0: the tables are not shown")
        return
    sizes = Sizes(measures, bool(words[6] & 1))
    needed = 10 + sum(words_needed(table, sizes) for table in TABLES)
    if work_length(sizes) > MOST_WORK:
        shown.wrong(12, f"W is {work_length(sizes)}, where at most {MOST_WORK} was expected")
    if -(-needed // BLOCK_WORDS) != blocks:
        shown.wrong(12, f"{needed} words, as the measures have it, fill {-(-needed // BLOCK_WORDS)} blocks, and there are {blocks}")
    if needed > len(words):
        shown.say("# the tables are not shown: they do not fit")
        return
    at = 10
    for table in TABLES:
        length = words_needed(table, sizes)
        show_table(shown, table, sizes, words[at:at + length])
        at += length
    for place, word in enumerate(words[at:], at):
        if word:
            shown.wrong(12, f"word {place}, behind the tables, is {word:016x}, where 0 was expected")


def show_table(shown, table, sizes, words):
    if table.kind == "flag":
        for place, word in enumerate(words):
            if word > 255:
                shown.wrong(12, f"{table.name}, {place_at(table, sizes, place)}: {word:016x}, where {EXPECTED['flag']} was expected")
    parts = len(table.parts)
    values = [text_from(table.kind, word) for word in words]
    entries = [" ".join(values[at:at + parts]) for at in range(0, len(values), parts)]
    layout = ": ".join(filter(None, [", ".join(name for name, _ in table.indices), ", ".join(table.parts)]))
    usual, times = collections.Counter(entries).most_common(1)[0] if entries else ("", 0)
    if len(entries) > 3 and 2 * times > len(entries):
        shown.say(f"{table.name}: all {usual}  # {layout}")
        for number, entry in enumerate(entries):
            if entry != usual:
                shown.say(f"    {' '.join(map(str, index_at(table, sizes, number)))} = {entry}")
        return
    row = 1 if parts > 1 and len(table.indices) < 2 else size_of(sizes, table.indices[-1][1])
    if len(entries) <= row:
        shown.say(f"{table.name}: {'  '.join(entries)}  # {layout}")
        return
    shown.say(f"{table.name}:  # {layout}")
    for at in range(0, len(entries), row):
        shown.say(f"    {'  '.join(entries[at:at + row])}")


# ---- writing a carton

TERMINAL = "a carton is no text: name a file with -o, or send it on to a program"


def write_standard(file, read=()):
    """Writes bytes to standard output, whole, unless that is a file that the description was read from."""
    try:
        status = os.fstat(1)
        if stat.S_ISREG(status.st_mode) and identity(status) in read:
            raise FileError("standard output: is not written: the description is read from it")
        with open(1, "wb", closefd=False) as stream:
            stream.write(file)
    except OSError as problem:
        raise FileError(f"standard output: cannot be written: {reason(problem)}") from None


def write_carton(name, file, read):
    """Writes a carton to the file of a name, in place of nothing but an empty file or another carton."""
    try:
        status = status_of(name)
        if status is None or stat.S_ISREG(status.st_mode):
            expect_replaceable(name, status, read)
            replace_file(os.path.realpath(name), file, status)
        elif stat.S_ISCHR(status.st_mode) or stat.S_ISFIFO(status.st_mode):
            write_through(name, file)
        else:
            raise FileError(f"{name}: is not written: it is {'a folder' if stat.S_ISDIR(status.st_mode) else 'no file, pipe or terminal'}")
    except OSError as problem:
        raise FileError(f"{name}: cannot be written: {reason(problem)}") from None


def status_of(name):
    """The status of the file of a name, or None where there is none."""
    if not os.path.basename(name):
        raise FileError(f"{quoted(name)}: is not written: the name of a file was expected")
    try:
        return os.stat(name)
    except FileNotFoundError:
        return None


def expect_replaceable(name, status, read):
    """Turns away a file that the description was read from, or that is neither empty nor a carton."""
    if status is None:
        return
    if identity(status) in read:
        raise FileError(f"{name}: is not written: the description is read from it")
    if not os.access(name, os.W_OK):
        raise FileError(f"{name}: is not written: it is write-protected")
    with open(name, "rb") as stream:
        if status.st_size and not is_carton(stream):
            raise FileError(f"{name}: is not written: it exists and is no carton; name another file, or remove it first")


def replace_file(path, file, status):
    """Writes a file beside and then gives it its name, so that what was there stays until the new one is whole."""
    handle, beside = tempfile.mkstemp(prefix=".carton-", dir=os.path.dirname(path))
    try:
        with open(handle, "wb") as stream:
            stream.write(file)
            stream.flush()
            os.fsync(handle)
        os.chmod(beside, stat.S_IMODE(status.st_mode) if status else 0o666 & ~umask())
        os.replace(beside, path)
    except BaseException:
        with contextlib.suppress(OSError):
            os.unlink(beside)
        raise


def umask():
    mask = os.umask(0)
    os.umask(mask)
    return mask


def write_through(name, file):
    """Writes to a pipe or a device that takes bytes one after the other, such as /dev/null."""
    with open(name, "wb") as stream:
        if stream.isatty():
            raise FileError(TERMINAL)
        stream.write(file)


# ---- the command

def tell(text):
    """A line to standard error; where that is closed or full, there is nobody to be told."""
    with contextlib.suppress(OSError):
        if sys.stderr is not None:
            print(f"carton: {text}", file=sys.stderr, flush=True)


def goes_on(arguments):
    """Whether the carton goes to standard output."""
    return arguments.output in (None, STANDARD, "/dev/stdout")


def make_command(arguments):
    description = read_description(arguments.description)
    for note in notes_on(description):
        tell(f"note: {note}")
    file = seal(description.words)
    if not goes_on(arguments):
        write_carton(arguments.output, file, description.files)
    elif os.isatty(1):
        raise FileError(TERMINAL)
    else:
        write_standard(file, description.files)
    return 0


def show_command(arguments):
    file, _ = read_file(arguments.file)
    text, right = show(file)
    write_standard(text.encode())
    return 0 if right else 1


def parser_of_command():
    parser = argparse.ArgumentParser(prog="carton.py", description="Carton files from readable descriptions, and back.")
    commands = parser.add_subparsers(dest="command", required=True)
    make = commands.add_parser("make", help="write the carton of a description")
    make.add_argument("description", help="a file, or - for standard input")
    make.add_argument("-o", "--output", metavar="FILE", help="where to: a new file, an empty one or a carton, which is replaced; standard output if not given")
    make.set_defaults(run=make_command)
    shows = commands.add_parser("show", help="print a carton as a description, and what is wrong with it; status 1 if something is")
    shows.add_argument("file", help="a file, or - for standard input")
    shows.set_defaults(run=show_command)
    return parser


def main():
    arguments = parser_of_command().parse_args()
    try:
        return arguments.run(arguments)
    except CartonError as problem:
        tell(problem)
        if arguments.command == "make" and goes_on(arguments) and not os.isatty(1):
            tell("no whole carton went to standard output: what a program behind it prints, such as `refused 10` of `key`, is no answer to the description")
        return 2
    except KeyboardInterrupt:
        tell("interrupted")
        return 130


if __name__ == "__main__":
    sys.exit(main())
