"""What a terminal shows: which characters of a text, in how many cells, in which colours and within
which width; and the one line there that says how far a long step has come."""
import enum
import functools
import unicodedata
from typing import Iterator, List, Mapping, Optional, TextIO

# What stands for the rest of a text that is cut.
CUT = ".."
# The marks of the Korean script that a terminal draws over the letter before them: vowels, and
# consonants at the end of a syllable.
JAMO = (range(0x1160, 0x1200), range(0xD7B0, 0xD800))
# The categories of characters that take no cell of their own: marks over the one before them, and
# invisible ones.
WITHOUT_CELL = ("Mn", "Me", "Cf")
# The escapes that begin a colour and end it.
BEGIN, END = "\x1b[{}m", "\x1b[0m"


class ShownError(Exception):
    """An error whose message is made of printable characters and line feeds, whatever stands in a
    file that it speaks of."""

    def __init__(self, message: str) -> None:
        super().__init__("\n".join(map(shown, message.split("\n"))))


class Colour(enum.Enum):
    """A colour by the number of the terminal."""

    RED = 31
    GREEN = 32
    YELLOW = 33


def shown(text: str) -> str:
    """Returns a text with each character escaped that Python does not call printable, such as a
    line feed, an escape or a mark of direction."""
    if text.isprintable():
        return text
    return "".join(one if one.isprintable() else repr(one)[1:-1] for one in text)


def cells_of(text: str) -> int:
    """Returns how many cells of a terminal a printable text takes."""
    return len(text) if text.isascii() else sum(map(cells_of_character, text))


@functools.lru_cache(maxsize=1 << 12)
def cells_of_character(one: str) -> int:
    """Returns how many cells of a terminal a printable character takes: two if it is wide, and none
    if it is invisible or drawn over the one before it."""
    if unicodedata.category(one) in WITHOUT_CELL or any(ord(one) in marks for marks in JAMO):
        return 0
    return 2 if unicodedata.east_asian_width(one) in ("W", "F") else 1


def padded(text: str, width: int, colour: Optional[Colour] = None) -> str:
    """Returns a text with blanks behind it up to a number of cells. Only the text is coloured."""
    blanks = " " * (width - cells_of(text))
    return (text if colour is None else coloured(text, colour)) + blanks


def coloured(text: str, colour: Colour) -> str:
    """Returns a text in a colour."""
    return f"{BEGIN.format(colour.value)}{text}{END}"


def cut(text: str, room: Optional[int]) -> str:
    """Returns a text, cut to the number of cells that there are. A mark stays with the character
    before it."""
    if room is None or cells_of(text) <= room:
        return text
    left = room - len(CUT)
    for place, one in enumerate(text):
        left -= cells_of_character(one)
        if left < 0:
            return text[:place] + CUT
    return text


def wrapped(text: str, width: Optional[int], indent: str = "  ") -> Iterator[str]:
    """Yields the lines of a text, which is broken at blanks so that no line takes more cells than
    the width, unless one word does. Later lines begin with the blanks of the first and with an
    indent."""
    if width is None or cells_of(text) <= width:
        yield text
        return
    body = text.lstrip(" ")
    first = text[:len(text) - len(body)]
    start, used = first, 0
    words: List[str] = []
    for word in body.split(" "):
        cells = cells_of(word)
        # Between two blanks stands an empty word, and at the end of a line no blank.
        if words and word and len(start) + used + cells > width:
            yield (start + " ".join(words)).rstrip(" ")
            start, words, used = first + indent, [], 0
        words.append(word)
        used += cells + 1
    yield start + " ".join(words)


def is_terminal(stream: Optional[TextIO]) -> bool:
    """Whether a stream is there and leads to a terminal."""
    try:
        return stream is not None and stream.isatty()
    except ValueError:
        # It is closed.
        return False


def has_colours(stream: Optional[TextIO], environment: Mapping[str, str]) -> bool:
    """Whether colours reach who reads a stream, and are wanted: `NO_COLOR` is a variable by which
    programs are asked for none, if it is not empty."""
    is_plain = environment.get("NO_COLOR") or environment.get("TERM") == "dumb"
    return is_terminal(stream) and not is_plain


class Progress:
    """A line on a terminal that says how much of something is done. It is cleared at the end, and
    is not there if the stream leads elsewhere."""

    def __init__(self, stream: Optional[TextIO], what: str) -> None:
        self._stream = stream if is_terminal(stream) else None
        self._what = what
        self._shown = ""

    def __call__(self, done: int, count: int) -> None:
        """Shows that so many of a number are done. The number that is done does not fall."""
        self._shown = f"{self._what}: {done} of {count}"
        self._write(f"\r{self._shown}")

    def clear(self) -> None:
        """Clears the line, if there is one."""
        if self._shown:
            self._write(f"\r{' ' * cells_of(self._shown)}\r")
            self._shown = ""

    def _write(self, text: str) -> None:
        """Writes a text. If that fails, nothing is shown from now on."""
        if self._stream is None:
            return
        try:
            self._stream.write(text)
            self._stream.flush()
        except OSError:
            self._stream = None
