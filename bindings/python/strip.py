"""Path strips: read, write, draw and check sheets with the proved library, tell their minimum width and their
totals at other widths, and read and write coordinate files, which hold drawings.

    >>> import strip
    >>> sheet = bytes([0x53, 0x50, 0x31, 5, 2, 2, 1, 0, 1, 2, 1, 1, 1, 0, 1, 2, 1, 0])
    >>> drawing = strip.draw(sheet)
    >>> drawing.total, drawing.places
    (1, [0, 1, 0])
    >>> strip.check(sheet, drawing.places, drawing.certificate)
    True
    >>> strip.narrowest(sheet)
    Narrowest(width=1, total=1)
    >>> strip.totals(sheet, [5, 0])
    [1, None]
    >>> counts, edges = strip.sizes(strip.read(sheet))
    >>> file = strip.write_drawing(strip.drawing_numbers(counts, drawing.places))
    >>> file.hex(" ")
    '53 44 31 02 02 00 01 01 00'
    >>> strip.read_drawing(file)
    [2, 2, 0, 1, 1, 0]
    >>> strip.draw(sheet[:2])
    Traceback (most recent call last):
    strip.Refusal: refused 1 at 2

Every sheet and every file is allowed: one that has no answer raises Refusal, whose text says in a sentence why. It
is any bytes-like object, of which the bytes count, not the elements; anything else raises TypeError. A number that
its type cannot hold raises OverflowError.

The shared library is the file that STRIP_LIBRARY names; without it, the one that make builds in the repository
of this file, and where that is not there, the one that is installed.
"""

import ctypes
import functools
import os
from array import array
from typing import Iterable, List, NamedTuple, Optional, Tuple

__version__ = "0.7.0"

# What a program can use.
__all__ = [
    # generated from strip.h, names of constants: begin
    "MAX_SHEET_BYTES",
    "MAX_NUMBERS",
    "MAX_PLACES",
    "MAX_LIST",
    "MAX_DRAWING_NUMBERS",
    "MAX_DRAWING_BYTES",
    "MAX_WIDTHS",
    "NO_TOTAL",
    "STACK_BYTES",
    # generated from strip.h, names of constants: end
    # generated from strip.h, names of refusals: begin
    "INPUT_ENDED",
    "NOT_A_SHEET",
    "NUMBER_FORM",
    "OUTSIDE_LIMITS",
    "SEPARATIONS_CROSSED",
    "SOMETHING_FOLLOWS",
    "SLICE_SHORT",
    "NO_DRAWING",
    "NO_WIDTH",
    "MANY_WIDTHS",
    # generated from strip.h, names of refusals: end
    "Drawing",
    "Narrowest",
    "Refusal",
    "check",
    "draw",
    "drawing_numbers",
    "narrowest",
    "read",
    "read_drawing",
    "sizes",
    "totals",
    "version",
    "write",
    "write_drawing",
]

# generated from strip.h, constants: begin
# No sheet has more bytes.
MAX_SHEET_BYTES = 5121
# The greatest count of numbers in a sheet's number list.
MAX_NUMBERS = 2559
# The greatest count of places in a drawing: one for each node.
MAX_PLACES = 256
# The greatest count of numbers in a list: one for each edge and two for each node.
MAX_LIST = 1024
# The greatest count of numbers in the list of a coordinate file: the count of layers, one for
# each layer and one for each node.
MAX_DRAWING_NUMBERS = 321
# No coordinate file has more bytes.
MAX_DRAWING_BYTES = 645
# The greatest count of widths in a list of widths.
MAX_WIDTHS = 64
# Stands among totals for a width at which the sheet has no drawing. No total is as great.
NO_TOTAL = 4294967295
# The stack that any of the functions needs, in bytes.
STACK_BYTES = 53248
# generated from strip.h, constants: end

# The numbers of the refusals.
# generated from strip.h, refusals: begin
# The input ends before the sheet or file does. The offset is the input's length.
INPUT_ENDED = 1
# The first three bytes are not those of the format. They are 53 50 31 in a sheet, 53 44 31 in
# a coordinate file. Both readers meet it, each with the other's bytes too. The offset is 0.
NOT_A_SHEET = 2
# A number is not in the fewest bytes, or takes more than two. The offset is that of the
# number's first byte.
NUMBER_FORM = 3
# A number lies outside its limits. The offset is that of the number's first byte; of a width
# in a list of widths, its index there.
OUTSIDE_LIMITS = 4
# A maximum separation is set and is below its minimum separation. The offset is that of the
# maximum's first byte.
SEPARATIONS_CROSSED = 5
# Something follows the last edge of a sheet, or the last node of a coordinate file. The
# offset is that of the first byte too many.
SOMETHING_FOLLOWS = 6
# A slice is too short for what is to be read or written there. The slice for totals is too
# short if it has fewer elements than there are widths. The offset is 0.
SLICE_SHORT = 7
# No drawing exists. The offset is 0.
NO_DRAWING = 8
# No width from 0 to 4,095 has a drawing. The offset is 0.
NO_WIDTH = 10
# There are more than 64 widths. The offset is 0.
MANY_WIDTHS = 11
# generated from strip.h, refusals: end

# What each refusal means.
_TEXTS = {
    # generated from strip.h, texts of refusals: begin
    INPUT_ENDED: "The input ends before the sheet or file does",
    NOT_A_SHEET: "The first three bytes are not those of the format",
    NUMBER_FORM: "A number is not in the fewest bytes, or takes more than two",
    OUTSIDE_LIMITS: "A number lies outside its limits",
    SEPARATIONS_CROSSED: "A maximum separation is set and is below its minimum separation",
    SOMETHING_FOLLOWS: "Something follows the last edge of a sheet, or the last node of a coordinate file",
    SLICE_SHORT: "A slice is too short for what is to be read or written there",
    NO_DRAWING: "No drawing exists",
    NO_WIDTH: "No width from 0 to 4,095 has a drawing",
    MANY_WIDTHS: "There are more than 64 widths",
    # generated from strip.h, texts of refusals: end
}


class Refusal(Exception):
    """Why there is no answer: the number of the refusal, and where: the offset of a byte, from 0 (in write and
    write_drawing: the index of a number; for a width of totals: its index in the list of widths)."""

    def __init__(self, number: int, offset: int):
        super().__init__(number, offset)
        self.number = number
        self.offset = offset

    def __str__(self) -> str:
        """The refusal as the program place prints it."""
        return f"refused {self.number} at {self.offset}"

    @property
    def text(self) -> str:
        """What the refusal means, in a sentence without its full stop."""
        return _TEXTS.get(self.number, "No refusal has this number")


class Drawing(NamedTuple):
    """The leftmost drawing of least total, with a certificate that no total is smaller."""

    # the lengths of the edges, added, where parallel edges (those with the same two ends) count once
    total: int
    # a place for each node, layer by layer, each from left to right
    places: List[int]
    # document 01's pull list: of parallel edges the first carries the pull, and each later one's is 0
    certificate: List[int]


class Narrowest(NamedTuple):
    """The minimum width of a sheet, the least at which it has a drawing, and the least total at that width."""

    width: int
    total: int


def read(sheet: bytes) -> List[int]:
    """The number list of a sheet."""
    numbers = (_U16 * MAX_NUMBERS)()
    count = _call("strip_read", _bytes(sheet), numbers)
    return numbers[:count]


def write(numbers: Iterable[int]) -> bytes:
    """The sheet of a number list."""
    sheet = (_U8 * MAX_SHEET_BYTES)()
    count = _call("strip_write", _numbers(numbers), sheet)
    return bytes(sheet[:count])


def draw(sheet: bytes) -> Drawing:
    """The leftmost drawing of least total."""
    counts, edges = sizes(read(sheet))
    places, certificate = (_U16 * MAX_PLACES)(), (_I32 * MAX_LIST)()
    total = _call("strip_draw", _bytes(sheet), places, certificate)
    nodes = sum(counts)
    return Drawing(total, places[:nodes], certificate[: edges + 2 * nodes])


def check(sheet: bytes, places: Iterable[int], certificate: Iterable[int]) -> bool:
    """Whether the certificate shows that the places are a drawing of least total.

    The pull of the first of parallel edges is -1, 0 or 1, or any number where one of them is straight; where a
    later one's is not 0 the answer is False."""
    return _call("strip_check", _bytes(sheet), _numbers(places), _signed(certificate)) == 1


def narrowest(sheet: bytes) -> Narrowest:
    """The minimum width of a sheet, whatever its own width is, and the least total there."""
    total, width = _answer("strip_narrowest", _bytes(sheet))
    return Narrowest(width, total)


def totals(sheet: bytes, widths: Iterable[int]) -> List[Optional[int]]:
    """The least total of a sheet at each of up to MAX_WIDTHS widths, in their order, whatever its own width is;
    None for a width at which it has no drawing."""
    elements = _words(widths)
    entries = (_U32 * len(elements))()
    count = _call("strip_totals", _bytes(sheet), elements, entries)
    return [None if entry == NO_TOTAL else entry for entry in entries[:count]]


def read_drawing(file: bytes) -> List[int]:
    """The number list of a coordinate file: the count of layers, then for each layer its count of nodes and its
    places."""
    numbers = (_U16 * MAX_DRAWING_NUMBERS)()
    count = _call("strip_read_drawing", _bytes(file), numbers)
    return numbers[:count]


def write_drawing(numbers: Iterable[int]) -> bytes:
    """The coordinate file of such a number list."""
    file = (_U8 * MAX_DRAWING_BYTES)()
    count = _call("strip_write_drawing", _numbers(numbers), file)
    return bytes(file[:count])


def drawing_numbers(counts: List[int], places: List[int]) -> List[int]:
    """The number list of a drawing's coordinate file, by the count of nodes in each layer and all places.

    Counts that do not add up to the count of places raise ValueError."""
    if any(count < 0 for count in counts) or sum(counts) != len(places):
        raise ValueError(f"counts {counts} do not fit {len(places)} places")
    numbers, at = [len(counts)], 0
    for count in counts:
        numbers += [count, *places[at : at + count]]
        at += count
    return numbers


def sizes(numbers: List[int]) -> Tuple[List[int], int]:
    """How many nodes each layer of a sheet has, and how many edges the sheet has, by its number list."""
    counts, at = [], 2
    for _ in range(numbers[1]):
        counts.append(numbers[at])
        at += 2 * numbers[at] - 1
    return counts, numbers[at]


# The elements of slices.
_U8, _U16, _U32, _I32 = ctypes.c_uint8, ctypes.c_uint16, ctypes.c_uint32, ctypes.c_int32


def _slice(element: type) -> Tuple[type, type]:
    """The types of a slice in C: a pointer and a count."""
    return ctypes.POINTER(element), ctypes.c_size_t


# The functions, each with the type of its result and those of what it takes.
_FUNCTIONS = {
    # generated from strip.h, functions: begin
    "strip_read": [ctypes.c_uint64, *_slice(ctypes.c_uint8), *_slice(ctypes.c_uint16)],
    "strip_write": [ctypes.c_uint64, *_slice(ctypes.c_uint16), *_slice(ctypes.c_uint8)],
    "strip_draw": [ctypes.c_uint64, *_slice(ctypes.c_uint8), *_slice(ctypes.c_uint16), *_slice(ctypes.c_int32)],
    "strip_check": [ctypes.c_uint64, *_slice(ctypes.c_uint8), *_slice(ctypes.c_uint16), *_slice(ctypes.c_int32)],
    "strip_narrowest": [ctypes.c_uint64, *_slice(ctypes.c_uint8)],
    "strip_totals": [ctypes.c_uint64, *_slice(ctypes.c_uint8), *_slice(ctypes.c_uint32), *_slice(ctypes.c_uint32)],
    "strip_read_drawing": [ctypes.c_uint64, *_slice(ctypes.c_uint8), *_slice(ctypes.c_uint16)],
    "strip_write_drawing": [ctypes.c_uint64, *_slice(ctypes.c_uint16), *_slice(ctypes.c_uint8)],
    "strip_version": [ctypes.c_uint32],
    # generated from strip.h, functions: end
}


def version() -> Tuple[int, int, int]:
    """The version of the shared library: MAJOR, MINOR and PATCH."""
    return _parts(_library().strip_version())


def _parts(number: int) -> Tuple[int, int, int]:
    """The parts of a version that is told in one number."""
    return number >> 16, number >> 8 & 0xFF, number & 0xFF


def _bytes(source: bytes) -> ctypes.Array:
    """A slice of the bytes of a sheet or a coordinate file: those of its memory, whatever its elements are."""
    view = memoryview(source).cast("B")
    return (_U8 * len(view)).from_buffer_copy(view)


def _numbers(numbers: Iterable[int]) -> ctypes.Array:
    """A slice of 16-bit numbers."""
    elements = array("H", iter(numbers))
    return (_U16 * len(elements)).from_buffer(elements)


def _words(numbers: Iterable[int]) -> ctypes.Array:
    """A slice of 32-bit numbers."""
    elements = array("I", iter(numbers))
    return (_U32 * len(elements)).from_buffer(elements)


def _signed(numbers: Iterable[int]) -> ctypes.Array:
    """A slice of signed 32-bit numbers."""
    elements = array("i", iter(numbers))
    return (_I32 * len(elements)).from_buffer(elements)


def _call(name: str, *slices: ctypes.Array) -> int:
    """The value of an answer."""
    value, _ = _answer(name, *slices)
    return value


def _answer(name: str, *slices: ctypes.Array) -> Tuple[int, int]:
    """The value and the second value of an answer, which is second * 2**48 + refusal * 2**32 + value."""
    arguments = [argument for part in slices for argument in (part, len(part))]
    rest, value = divmod(getattr(_library(), name)(*arguments), 2**32)
    second, number = divmod(rest, 2**16)
    if number != 0:
        raise Refusal(number, value)
    return value, second


@functools.lru_cache(maxsize=None)
def _library() -> ctypes.CDLL:
    """The shared library with the types of its functions. One of another MAJOR or MINOR raises ImportError."""
    built = os.path.join(os.path.dirname(os.path.abspath(__file__)), "../../target/lib/libstrip.so.0")
    installed = "libstrip.so.0"
    path = os.environ.get("STRIP_LIBRARY") or (built if os.path.exists(built) else installed)
    library = ctypes.CDLL(path)
    # a library without this function is older than every version of it
    told = _parts(library.strip_version()) if hasattr(library, "strip_version") else (0, 0, 0)
    if told[:2] != tuple(map(int, __version__.split(".")[:2])):
        raise ImportError(f"{path} has version {'.'.join(map(str, told))}, and strip.py is {__version__}")
    for name, (result, *parameters) in _FUNCTIONS.items():
        function = getattr(library, name)
        function.restype, function.argtypes = result, parameters
    return library
