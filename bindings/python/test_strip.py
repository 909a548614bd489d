"""Tests of the module strip: python3 -m unittest discover --start-directory bindings/python"""

import ctypes
import doctest
import inspect
import os
import subprocess
import sys
import unittest
from array import array

import strip

# Document 01's first sheet, with its number list, places and pull list.
SHEET = bytes([0x53, 0x50, 0x31, 5, 2, 2, 1, 0, 1, 2, 1, 1, 1, 0, 1, 2, 1, 0])
NUMBERS = [5, 2, 2, 1, 0, 1, 2, 1, 1, 1, 0, 1, 2, 1, 0]
PLACES = [0, 1, 0]
CERTIFICATE = [1, -1, 0, 1, 0, 0, 0, 0]

# The coordinate file of its drawing, with its number list.
FILE = bytes([0x53, 0x44, 0x31, 2, 2, 0, 1, 1, 0])
DRAWING = [2, 2, 0, 1, 1, 0]


def one_over_three(kind):
    """Document 01's one node over three: an edge to the first, and two parallel edges to the third, of which the
    second has this kind."""
    return strip.write([2, 2, 1, 3, 1, 0, 1, 0, 3, 1, 1, 1, 0, 1, 1, 3, 0, 1, 1, 3, kind])


def stair(kind):
    """Document 01's stair: three layers of two nodes, and an edge from each right node to the left one below; the
    second has this kind. Its width is 0, at which it has no drawing."""
    return strip.write([0, 3] + [2, 1, 0] * 3 + [2, 1, 2, 1, 0, 2, 2, 1, kind])


def load_tests(loader, tests, pattern):
    """The examples of the module's text are tests too."""
    tests.addTests(doctest.DocTestSuite(strip))
    return tests


class Answers(unittest.TestCase):
    """What the functions return."""

    def test_read(self):
        self.assertEqual(strip.read(SHEET), NUMBERS)
        self.assertEqual(strip.sizes(NUMBERS), ([2, 1], 2))

    def test_write(self):
        self.assertEqual(strip.write(NUMBERS), SHEET)
        self.assertEqual(strip.write(iter([300, 1, 1, 0])), bytes([0x53, 0x50, 0x31, 0xAC, 0x02, 1, 1, 0]))

    def test_draw(self):
        drawing = strip.draw(SHEET)
        self.assertEqual((drawing.total, drawing.places), (1, PLACES))
        self.assertEqual(len(drawing.certificate), len(CERTIFICATE))
        self.assertIs(strip.check(SHEET, drawing.places, drawing.certificate), True)

    def test_check(self):
        self.assertIs(strip.check(SHEET, PLACES, CERTIFICATE), True)
        self.assertIs(strip.check(SHEET, PLACES + [9], CERTIFICATE + [9]), True)
        self.assertIs(strip.check(SHEET, PLACES, [0] * 8), False)
        self.assertIs(strip.check(SHEET, [0, 2, 0], CERTIFICATE), False)

    def assert_traced(self, sheet, places, pushes, carried, *spread):
        """The sheet is drawn there with total 2, and the later parallel edge's pull is 0. With these pushes the carried
        pulls get a yes, and spread ones a no."""
        drawing = strip.draw(sheet)
        self.assertEqual((drawing.total, drawing.places, drawing.certificate[2]), (2, places, 0))
        self.assertIs(strip.check(sheet, drawing.places, drawing.certificate), True)
        self.assertIs(strip.check(sheet, places, carried + pushes), True)
        for pulls in spread:
            self.assertIs(strip.check(sheet, places, pulls + pushes), False)

    def test_parallel_edges(self):
        """Parallel edges count once, and the first of them carries the pull."""
        sheet = one_over_three(0)
        self.assert_traced(sheet, [0, 0, 1, 2], [0, 0, 0, 1, 0, 1, 0, 0], [-1, 1, 0], [-1, 0, 1])
        self.assertEqual(strip.narrowest(sheet), strip.Narrowest(2, 2))

    def test_parallel_edges_with_a_straight_one(self):
        """Where the later one is straight, the first one's pull is free, and the later one's is 0."""
        sheet, pushes = one_over_three(1), [0, 1, 1, 2, 0, 2, 0, 0]
        self.assert_traced(sheet, [2, 0, 1, 2], pushes, [-1, 2, 0], [-1, 1, 1], [-1, 0, 2])

    def test_narrowest(self):
        self.assertEqual(strip.narrowest(SHEET), (1, 1))
        self.assertEqual(strip.narrowest(SHEET).width, 1)
        for width in (0, 1, 4095):
            self.assertEqual(strip.narrowest(strip.write([width, 1, 3, 1, 0, 2, 0, 0])), strip.Narrowest(3, 0))
        least = [4095, 2] + [2, 4095, 0] * 2 + [1, 1, 1, 2, 0]
        self.assertEqual(strip.narrowest(strip.write(least)), strip.Narrowest(4095, 4095))

    def test_totals(self):
        """Each entry is for its own width, in the order of the list."""
        self.assertEqual(strip.totals(SHEET, [5, 0]), [1, None])
        self.assertEqual(strip.totals(stair(0), [0, 1, 2, 3, 4]), [None, 2, 1, 0, 0])
        self.assertEqual(strip.totals(stair(1), [0, 1, 2, 3, 4]), [None, None, 1, 0, 0])
        self.assertEqual(strip.totals(stair(0), [4095, 2, 0, 1, 2, 0]), [0, 1, None, 2, 1, None])
        crossing = strip.write([4095, 2] + [2, 1, 0] * 2 + [2, 1, 1, 2, 1, 1, 2, 1, 1])
        self.assertEqual(strip.totals(crossing, range(4032, 4096)), [None] * strip.MAX_WIDTHS)

    def test_totals_are_those_of_drawings(self):
        """Each entry is the total of the sheet that is written with this width."""
        widths = list(range(strip.MAX_WIDTHS))
        for sheet in (SHEET, stair(0), stair(1), one_over_three(0), one_over_three(1)):
            least = strip.narrowest(sheet)
            totals = strip.totals(sheet, widths)
            self.assertEqual(totals[: least.width + 1], [None] * least.width + [least.total])
            for width in widths[least.width :]:
                drawn = strip.draw(strip.write([width] + strip.read(sheet)[1:]))
                self.assertEqual(totals[width], drawn.total)

    def test_lists_of_widths(self):
        """Any iterable of numbers is a list of widths, also one without a width."""
        for widths in ((2, 1), range(2, 0, -1), iter([2, 1]), bytes([2, 1]), array("H", [2, 1]), {2: 0, 1: 0}):
            self.assertEqual(strip.totals(stair(0), widths), [1, 2])
        self.assertEqual(strip.totals(stair(0), []), [])
        self.assertEqual(strip.totals(stair(0), iter(())), [])

    def test_read_drawing(self):
        self.assertEqual(strip.read_drawing(FILE), DRAWING)
        self.assertEqual(strip.read_drawing(b"SD1\x01\x03\x0a\x05\x80\x01"), [1, 3, 10, 15, 143])
        self.assertEqual(strip.read_drawing(b"SD1\x01\x02\x00\xff\x1f"), [1, 2, 0, 4095])

    def test_write_drawing(self):
        self.assertEqual(strip.write_drawing(DRAWING), FILE)
        self.assertEqual(strip.write_drawing(iter([1, 3, 10, 15, 143])), b"SD1\x01\x03\x0a\x05\x80\x01")
        self.assertEqual(strip.write_drawing(bytes([1, 1, 0])), b"SD1\x01\x01\x00")

    def test_drawing_numbers(self):
        self.assertEqual(strip.drawing_numbers([2, 1], PLACES), DRAWING)
        self.assertEqual(strip.drawing_numbers([1, 3], [7, 2, 4, 8]), [2, 1, 7, 3, 2, 4, 8])
        counts, _ = strip.sizes(strip.read(SHEET))
        self.assertEqual(strip.drawing_numbers(counts, strip.draw(SHEET).places), DRAWING)

    def test_longest_file(self):
        """As many layers and nodes as a file can have, with places up to the greatest."""
        places = [place for at in range(64) for place in (at, 1000, 2000, 4032 + at)]
        numbers = strip.drawing_numbers([4] * 64, places)
        self.assertEqual(len(numbers), strip.MAX_DRAWING_NUMBERS)
        self.assertEqual(strip.read_drawing(strip.write_drawing(numbers)), numbers)
        layer = strip.drawing_numbers([64], list(range(4032, 4096)))
        self.assertEqual(strip.write_drawing(layer), b"SD1\x01\x40\xc0\x1f" + b"\x01" * 63)

    def test_longest(self):
        """As many nodes and edges as a sheet can have."""
        layer = [64] + [1, 0] * 63
        edges = [number for at in range(512) for number in (1 + at % 3, 1 + at % 64, 1 + at // 8, 0)]
        sheet = strip.write([4095, 4] + layer * 4 + [512] + edges)
        self.assertEqual(len(strip.read(sheet)), strip.MAX_NUMBERS)
        drawing = strip.draw(sheet)
        self.assertEqual(len(drawing.places), strip.MAX_PLACES)
        self.assertEqual(len(drawing.certificate), strip.MAX_LIST)
        self.assertTrue(strip.check(sheet, drawing.places, drawing.certificate))
        self.assertEqual(strip.narrowest(sheet).width, 63)
        self.assertEqual(strip.totals(sheet, [62, 4095]), [None, drawing.total])

    def test_wide_elements(self):
        """The bytes of the memory count, whatever the elements are."""
        wide = array("H")
        wide.frombytes(SHEET)
        self.assertEqual(len(wide), len(SHEET) // 2)
        self.assertEqual(strip.draw(wide), strip.draw(SHEET))
        self.assertEqual(strip.read(memoryview(SHEET).cast("H")), NUMBERS)
        self.assertEqual(strip.narrowest(memoryview(SHEET).cast("B", [2, 9])), (1, 1))
        self.assertEqual(strip.totals(wide, [1, 0]), [1, None])
        self.assertIs(strip.check(wide, PLACES, CERTIFICATE), True)
        file = (ctypes.c_uint16 * 4).from_buffer_copy(b"SD1\x01\x02\x00\xff\x1f")
        self.assertEqual(strip.read_drawing(file), [1, 2, 0, 4095])

    def test_any_bytes(self):
        for kind in (bytearray, memoryview):
            self.assertEqual(strip.draw(kind(SHEET)).places, PLACES)
            self.assertEqual(strip.narrowest(kind(SHEET)), (1, 1))
            self.assertEqual(strip.totals(kind(SHEET), [1]), [1])
            self.assertEqual(strip.read_drawing(kind(FILE)), DRAWING)


def totals_at_none(sheet):
    """The totals of a sheet at no width."""
    return strip.totals(sheet, [])


def totals_at_many(sheet):
    """The totals of a sheet at more widths than there may be, the first of which is too great."""
    return strip.totals(sheet, [4096] + [0] * strip.MAX_WIDTHS)


class Refusals(unittest.TestCase):
    """What is refused, and what no call takes."""

    def refused(self, number, offset, call, *arguments):
        with self.assertRaises(strip.Refusal) as caught:
            call(*arguments)
        refusal = caught.exception
        self.assertEqual((refusal.number, refusal.offset), (number, offset))
        self.assertEqual(str(refusal), f"refused {number} at {offset}")
        self.assertNotEqual(refusal.text, strip.Refusal(99, 0).text)

    def test_sheets(self):
        for call in (strip.read, strip.draw, strip.narrowest, totals_at_none, totals_at_many):
            self.refused(strip.INPUT_ENDED, 0, call, b"")
            self.refused(strip.NOT_A_SHEET, 0, call, b"SP2")
            self.refused(strip.NUMBER_FORM, 3, call, b"SP1\x80\x00")
            self.refused(strip.OUTSIDE_LIMITS, 4, call, b"SP1\x05\x00")
            self.refused(strip.SEPARATIONS_CROSSED, 7, call, b"SP1\x05\x01\x02\x03\x02")
            self.refused(strip.SOMETHING_FOLLOWS, 7, call, b"SP1\x00\x01\x01\x00\x00")
        self.refused(strip.NO_DRAWING, 0, strip.draw, b"SP1\x00\x01\x02\x01\x00\x00")
        self.refused(strip.NO_WIDTH, 0, strip.narrowest, b"SP1\x00\x01\x03\xff\x1f\x00\xff\x1f\x00\x00")

    def test_widths(self):
        """The length of the list is tested before its widths, and then the first width that is too great is told."""
        self.refused(strip.MANY_WIDTHS, 0, totals_at_many, SHEET)
        self.refused(strip.MANY_WIDTHS, 0, strip.totals, SHEET, [1] * 65)
        self.assertEqual(strip.totals(SHEET, [1] * 64), [1] * 64)
        for width in (4096, 65535, 65536 + 5, 2**31, strip.NO_TOTAL):
            self.refused(strip.OUTSIDE_LIMITS, 0, strip.totals, SHEET, [width])
            self.refused(strip.OUTSIDE_LIMITS, 2, strip.totals, SHEET, [0, 4095, width, 4096])
            self.refused(strip.OUTSIDE_LIMITS, 63, strip.totals, SHEET, [1] * 63 + [width])

    def test_numbers(self):
        self.refused(strip.INPUT_ENDED, 0, strip.write, [])
        self.refused(strip.OUTSIDE_LIMITS, 0, strip.write, [65535])
        self.refused(strip.INPUT_ENDED, 2, strip.write, bytes([5, 1]))
        self.refused(strip.SOMETHING_FOLLOWS, 15, strip.write, NUMBERS + [0])

    def test_files(self):
        for call in (strip.read, strip.draw, strip.narrowest, totals_at_none):
            self.refused(strip.NOT_A_SHEET, 0, call, FILE)
        self.refused(strip.NOT_A_SHEET, 0, strip.read_drawing, SHEET)
        for file in (b"", b"S", b"SD", b"XX", b"SD1\x02\x01\x00", b"SD1\x01\x02\x00\x80"):
            self.refused(strip.INPUT_ENDED, len(file), strip.read_drawing, file)
        self.refused(strip.NUMBER_FORM, 6, strip.read_drawing, b"SD1\x01\x02\x00\x81\x00")
        self.refused(strip.OUTSIDE_LIMITS, 7, strip.read_drawing, b"SD1\x01\x02\xff\x1f\x01")
        self.refused(strip.OUTSIDE_LIMITS, 6, strip.read_drawing, b"SD1\x01\x02\x00\x00")
        self.refused(strip.OUTSIDE_LIMITS, 6, strip.read_drawing, b"SD1\x01\x02\x00\x80\x20")
        self.refused(strip.SOMETHING_FOLLOWS, 9, strip.read_drawing, FILE + b"\n")

    def test_drawings(self):
        self.refused(strip.INPUT_ENDED, 0, strip.write_drawing, [])
        self.refused(strip.INPUT_ENDED, 3, strip.write_drawing, [1, 2, 5])
        self.refused(strip.OUTSIDE_LIMITS, 0, strip.write_drawing, [65])
        self.refused(strip.OUTSIDE_LIMITS, 3, strip.write_drawing, [1, 2, 5, 5])
        self.refused(strip.OUTSIDE_LIMITS, 2, strip.write_drawing, [1, 1, 4096])
        nodes = strip.drawing_numbers([64] * 4, list(range(64)) * 4)[1:]
        self.refused(strip.OUTSIDE_LIMITS, 261, strip.write_drawing, [5] + nodes + [1, 0])
        self.refused(strip.SOMETHING_FOLLOWS, 6, strip.write_drawing, DRAWING + [0])

    def test_slices(self):
        self.refused(strip.SLICE_SHORT, 0, strip.check, SHEET, PLACES[:2], CERTIFICATE)
        self.refused(strip.SLICE_SHORT, 0, strip.check, SHEET, PLACES, CERTIFICATE[:7])

    def test_types(self):
        for numbers in ([-1], [65536]):
            self.assertRaises(OverflowError, strip.write, numbers)
            self.assertRaises(OverflowError, strip.write_drawing, numbers)
            self.assertRaises(OverflowError, strip.check, SHEET, numbers, CERTIFICATE)
        self.assertRaises(OverflowError, strip.check, SHEET, PLACES, [2**31])
        for width in (-1, 2**32, 2**64):
            self.assertRaises(OverflowError, strip.totals, SHEET, [1, width])
        for call in (strip.read, strip.draw, strip.narrowest, totals_at_none, strip.read_drawing):
            for source in ("SP1", list(SHEET), 5, None, memoryview(SHEET)[::2]):
                self.assertRaises(TypeError, call, source)
        self.assertRaises(TypeError, strip.check, list(SHEET), PLACES, CERTIFICATE)
        self.assertRaises(TypeError, strip.write, [0.5])
        for widths in (5, None, [0.5], ["5"], "5"):
            self.assertRaises(TypeError, strip.totals, SHEET, widths)

    def test_counts(self):
        """Counts that are not those of the places."""
        for counts in ([2], [2, 2], [], [3, 1], [4, -1], [-1, 4]):
            self.assertRaises(ValueError, strip.drawing_numbers, counts, PLACES)
        self.assertRaises(ValueError, strip.drawing_numbers, [1], [])
        self.assertEqual(strip.drawing_numbers([], []), [0])


class Names(unittest.TestCase):
    """What the module hands out."""

    def test_all(self):
        """All names of the module's own that do not start with an underscore."""
        own = [name for name, value in vars(strip).items() if name[0] != "_" and not inspect.ismodule(value)]
        imported = {"array", "Iterable", "List", "NamedTuple", "Optional", "Tuple"}
        self.assertEqual(sorted(strip.__all__), sorted(set(own) - imported))

    def test_text(self):
        """What a refusal means."""
        self.assertEqual(strip.Refusal(strip.NO_DRAWING, 0).text, "No drawing exists")
        self.assertEqual(strip.Refusal(9, 0).text, "No refusal has this number")


class Library(unittest.TestCase):
    """Which shared library is called."""

    def test_named(self):
        """A library that STRIP_LIBRARY names is called, and no other."""
        environment = dict(os.environ, STRIP_LIBRARY="/nowhere/libstrip.so")
        command = [sys.executable, "-c", "import strip; strip.read(b'')"]
        ended = subprocess.run(command, env=environment, capture_output=True, text=True)
        self.assertIn("/nowhere/libstrip.so", ended.stderr)


if __name__ == "__main__":
    unittest.main()
