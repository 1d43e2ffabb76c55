"""What a terminal shows of a text."""
import ctypes
import io
import locale
import sys
import unittest

from . import needs

from cfgx import _terminal
from cfgx._terminal import Colour

# Texts, and the cells that they take, by Annex 11 of Unicode: wide and full-width characters take
# two, and marks and invisible characters none.
CELLS = [
    ("", 0), ("libc", 4), ("é", 1), ("e\u0301", 1), ("日本語", 6), ("ＡＢ", 4), ("ｱｲ", 2),
    ("한국", 4), ("\u1112\u1161\u11ab", 2), ("α§", 2), ("😀", 2), ("❤\ufe0f", 1), ("ก็", 1),
    ("क्षि", 3), ("\u20dd", 0), ("a\u200bb", 2), ("\u2060x", 1), ("─│", 2),
]
# What the C library of GNU takes for wide although Unicode did not, and characters that changed
# between the Unicode of Python 3.8 and that of the C library.
DIFFERENT = (range(0x3248, 0x3250), range(0x4DC0, 0x4E00), (0x1734, 0x1F93B, 0x1F946))
WIDE = "日本語の名前"


class Stream(io.StringIO):
    """A stream that leads to a terminal, or does not."""

    def __init__(self, is_terminal, is_full=False):
        super().__init__()
        self.is_terminal = is_terminal
        self.is_full = is_full

    def isatty(self):
        return super().isatty() or self.is_terminal

    def write(self, text):
        if self.is_full:
            raise OSError
        return super().write(text)


class Cells(unittest.TestCase):
    """How many cells a text takes."""

    def test_texts(self):
        for text, wanted in CELLS:
            with self.subTest(text=text):
                self.assertEqual(_terminal.cells_of(text), wanted)

    @needs("Linux", untested="the cells of each character beside the C library's")
    def test_each_character(self):
        self.addCleanup(locale.setlocale, locale.LC_CTYPE, locale.setlocale(locale.LC_CTYPE))
        locale.setlocale(locale.LC_CTYPE, "C.UTF-8")
        told = ctypes.CDLL(None).wcwidth
        told.argtypes = [ctypes.c_uint]
        compared = 0
        for number in range(0x20, sys.maxunicode + 1):
            wanted = told(number)
            # The tables of one of both may be of an older Unicode.
            is_known = wanted >= 0 and chr(number).isprintable()
            if is_known and not any(number in one for one in DIFFERENT):
                found = _terminal.cells_of_character(chr(number))
                self.assertEqual((hex(number), found), (hex(number), wanted))
                compared += 1
        self.assertGreater(compared, 135_000)

    def test_what_is_padded(self):
        rows = [("ab", 4, "ab  "), ("日本", 6, "日本  "), ("e\u0301", 3, "e\u0301  "), ("ab", 2, "ab"),
                ("ab", 1, "ab"), ("", 2, "  ")]
        for text, width, wanted in rows:
            self.assertEqual(_terminal.padded(text, width), wanted)
        self.assertEqual(_terminal.padded("no", 4, Colour.RED), "\x1b[31mno\x1b[0m  ")

    def test_what_is_cut(self):
        rows = [
            ("abcdef", 6, "abcdef"), ("abcdef", 5, "abc.."), ("abcdef", None, "abcdef"),
            (WIDE, 12, WIDE), (WIDE, 11, "日本語の.."), (WIDE, 10, "日本語の.."), (WIDE, 9, "日本語.."),
            ("e\u0301e\u0301e\u0301e\u0301", 4, "e\u0301e\u0301e\u0301e\u0301"),
            ("e\u0301e\u0301e\u0301e\u0301", 3, "e\u0301.."),
        ]
        for text, room, wanted in rows:
            with self.subTest(text=text, room=room):
                self.assertEqual(_terminal.cut(text, room), wanted)
        for room in range(2, 14):
            self.assertLessEqual(_terminal.cells_of(_terminal.cut(WIDE + "e\u0301", room)), room)


class Lines(unittest.TestCase):
    """How a text is broken into lines."""

    def test_lines(self):
        text = "    loom: yes if loom; no if not(loom)"
        rows = [
            (text, None, [text]), (text, 38, [text]),
            (text, 37, ["    loom: yes if loom; no if", "      not(loom)"]),
            (text, 20, ["    loom: yes if", "      loom; no if", "      not(loom)"]),
            (text, 1, ["    loom:", "      yes", "      if", "      loom;", "      no", "      if",
                       "      not(loom)"]),
            ("a  b", 2, ["a", "  b"]), ("a  b", 4, ["a  b"]), ("", 1, [""]),
            (f"  {WIDE} {WIDE}", 26, [f"  {WIDE}", f"    {WIDE}"]),
            (f"  {WIDE} {WIDE}", 27, [f"  {WIDE} {WIDE}"]),
        ]
        for given, width, wanted in rows:
            with self.subTest(given=given, width=width):
                self.assertEqual(list(_terminal.wrapped(given, width)), wanted)

    def test_nothing_is_lost(self):
        text = f"  one two   three {WIDE} {'x' * 30} last"
        for width in range(1, 80):
            found = list(_terminal.wrapped(text, width))
            self.assertEqual(" ".join(found).split(), text.split())
            self.assertTrue(all(_terminal.cells_of(one) <= width or len(one.split()) == 1
                                for one in found), found)


class Colours(unittest.TestCase):
    """Where colours are shown."""

    def test_where(self):
        rows = [
            (Stream(True), {}, True), (Stream(False), {}, False), (None, {}, False),
            (Stream(True), {"NO_COLOR": "1"}, False), (Stream(True), {"NO_COLOR": "0"}, False),
            (Stream(True), {"NO_COLOR": ""}, True), (Stream(True), {"TERM": "dumb"}, False),
            (Stream(True), {"TERM": "xterm"}, True),
        ]
        for stream, environment, wanted in rows:
            self.assertEqual(_terminal.has_colours(stream, environment), wanted)
        closed = Stream(True)
        closed.close()
        self.assertFalse(_terminal.has_colours(closed, {}))


class Progress(unittest.TestCase):
    """A line that says how far a step has come."""

    def test_a_terminal(self):
        stream = Stream(True)
        progress = _terminal.Progress(stream, "rustc")
        progress(1, 2)
        progress(2, 2)
        progress.clear()
        progress.clear()
        wanted = f"\rrustc: 1 of 2\rrustc: 2 of 2\r{' ' * 13}\r"
        self.assertEqual(stream.getvalue(), wanted)

    def test_nothing_that_is_shown(self):
        stream = Stream(True)
        _terminal.Progress(stream, "rustc").clear()
        self.assertEqual(stream.getvalue(), "")

    def test_elsewhere(self):
        for stream in (Stream(False), Stream(True, is_full=True), None):
            progress = _terminal.Progress(stream, "rustc")
            progress(1, 2)
            progress.clear()
            self.assertEqual(stream and stream.getvalue(), stream and "")
