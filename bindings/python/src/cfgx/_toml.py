"""Where keys stand in a text of TOML.

A reader of values drops the places of what it reads. This one finds the keys of tables, and passes
over values: it is for texts that another reader took, and reads a text that is no TOML up to a
place at which this shows. It takes what TOML 1.1 adds, such as line feeds in an inline table.
"""
import re
from bisect import bisect_right
from typing import Iterator, List, NamedTuple, Tuple

# Blanks within a line, and with line feeds; and the rest of a line.
BLANK, GAP, REST = re.compile(r"[ \t]*"), re.compile(r"[ \t\r\n]*"), re.compile(r"[^\n]*")
# A key without quotes, or the quote that begins one; and a dot behind a key.
PART = re.compile(r"""[ \t]*(?:([A-Za-z0-9_-]+)|("|'))""")
DOT = re.compile(r"[ \t]*(\.?)")
# The ends of texts in quotes. A backslash takes the character behind it from one with escapes. Up
# to two quotes may stand before the three that end a text of several lines.
ENDS = {
    '"': re.compile(r'\\.|"|\n', re.DOTALL), "'": re.compile(r"'|\n"),
    '"""': re.compile(r'\\.|"{3,}', re.DOTALL), "'''": re.compile(r"'{3,}"),
}
MOST_QUOTES = 5
# What matters within a value that is passed over.
STRUCTURE = re.compile(r'"""|\'\'\'|["\'\[\]{},\n]|#[^\n]*')
ESCAPE = re.compile(r"\\(?:x(..)|u(.{4})|U(.{8})|(.))", re.DOTALL)
LETTERS = {"b": "\b", "t": "\t", "n": "\n", "f": "\f", "r": "\r", "e": "\x1b"}


class Span(NamedTuple):
    """A part of a text: from a character up to but not including another, both counted from 0."""

    start: int
    end: int


class Key(NamedTuple):
    """A key with those of the tables in which it stands, from the outermost on."""

    path: Tuple[str, ...]
    """The keys, without quotes and escapes."""
    spans: Tuple[Span, ...]
    """Where each of them stands, with its quotes. Those of a table are in its header."""


class TomlError(ValueError):
    """The text is no TOML."""


# The key of the table around all others.
ROOT = Key((), ())


def keys_in(text: str, most: int) -> Iterator[Key]:
    """Yields the keys of a text in their order, those of headers as well. Of a path with more than
    `most` keys it yields the first ones, and it yields none in the brackets of an array. Raises
    `TomlError` behind the last key if the text goes on with what is no TOML."""
    reader = Reader(text, most)
    table = ROOT
    while reader.passes_gap():
        if text[reader.at] != "[":
            yield from reader.pair(table)
            reader.skip(REST)
        else:
            reader.at += 2 if text.startswith("[[", reader.at) else 1
            table = reader.key_below(ROOT)
            reader.skip(REST)
            yield table


class Reader:
    """A place in a text, at which something is read."""

    def __init__(self, text: str, most: int) -> None:
        self.text = text
        self.at = 0
        self._most = most

    def skip(self, pattern: "re.Pattern[str]") -> None:
        """Passes over what a pattern finds here, which may be nothing."""
        found = pattern.match(self.text, self.at)
        self.at = found.end() if found else self.at

    def passes_gap(self) -> bool:
        """Passes over blanks, line feeds and comments. Returns whether something follows."""
        self.skip(GAP)
        while self.text.startswith("#", self.at):
            self.skip(REST)
            self.skip(GAP)
        return self.at < len(self.text)

    def pair(self, table: Key) -> Iterator[Key]:
        """Yields the key of a pair in a table, and the keys in its value if that is a table."""
        key = self.key_below(table)
        if not self._passes("="):
            raise TomlError(f"no = at {self.at}")
        yield key
        self.skip(BLANK)
        if self.text.startswith("{", self.at) and len(key.path) < self._most:
            yield from self._inline(key)
        else:
            self._skip_value()

    def _inline(self, table: Key) -> Iterator[Key]:
        """Yields the keys of an inline table, which begins here."""
        self.at += 1
        while self.passes_gap():
            if self._passes("}"):
                return
            yield from self.pair(table)
            self.passes_gap()
            if not self._passes(",") and not self.text.startswith("}", self.at):
                break
        raise TomlError(f"an inline table goes on at {self.at}")

    def key_below(self, table: Key) -> Key:
        """Returns the key that begins here, of a table."""
        path, spans = list(table.path), list(table.spans)
        while True:
            name, span = self._part()
            if len(path) < self._most:
                path.append(name)
                spans.append(span)
            dot = DOT.match(self.text, span.end)
            self.at = dot.end() if dot else span.end
            if not dot or not dot[1]:
                return Key(tuple(path), tuple(spans))

    def _part(self) -> Tuple[str, Span]:
        """Returns the key without a dot that begins here, and where it stands."""
        found = PART.match(self.text, self.at)
        if found is None:
            raise TomlError(f"no key at {self.at}")
        if found[1]:
            return found[1], Span(*found.span(1))
        start = self.at = found.start(2)
        self._skip_quoted(found[2])
        text = self.text[start + 1:self.at - 1]
        return text if found[2] == "'" else unescaped(text), Span(start, self.at)

    def _passes(self, character: str) -> bool:
        """Passes over a character if it stands here. Returns whether it does."""
        is_here = self.text.startswith(character, self.at)
        self.at += len(character) if is_here else 0
        return is_here

    def _skip_quoted(self, quote: str) -> None:
        """Passes over a text that begins here with a quote."""
        begin = self.at + len(quote)
        for found in ENDS[quote].finditer(self.text, begin):
            if found[0].startswith(quote):
                self.at = found.start() + min(len(found[0]), MOST_QUOTES)
                return
            if found[0] == "\n":
                break
        raise TomlError(f"a text does not end that begins at {self.at}")

    def _skip_value(self) -> None:
        """Passes over a value up to what ends it: a comma, a bracket or a line feed."""
        depth = 0
        while True:
            found = STRUCTURE.search(self.text, self.at)
            if found is None:
                self.at = len(self.text)
                return
            self.at = found.start()
            one = found[0]
            if depth == 0 and one in (",", "]", "}", "\n"):
                return
            if one in ENDS:
                self._skip_quoted(one)
                continue
            depth += {"[": 1, "{": 1, "]": -1, "}": -1}.get(one, 0)
            self.at = found.end()


def unescaped(text: str) -> str:
    """Returns what a text with escapes stands for. Raises `TomlError`."""
    if "\\" not in text:
        return text

    def character(found: "re.Match[str]") -> str:
        code = found[1] or found[2] or found[3]
        return LETTERS.get(found[4], found[4]) if code is None else chr(int(code, 16))

    try:
        return ESCAPE.sub(character, text)
    except (ValueError, OverflowError) as error:
        raise TomlError(f"no character is {text!r}") from error


class Lines:
    """The lines of a text, which end with a line feed."""

    def __init__(self, text: str) -> None:
        self._starts: List[int] = [0, *(found.end() for found in re.finditer("\n", text))]

    def place_of(self, offset: int) -> Tuple[int, int]:
        """Returns the line and the column of a character, both counted from 1."""
        line = bisect_right(self._starts, offset)
        return line, offset - self._starts[line - 1] + 1
