"""Tokens of Rust, as the Reference defines them and as rustc reads them.

`skim` goes over a whole text and keeps only what its structure needs: delimiters, and where
attributes and macros may have conditions. `tokens_in` has each token of a piece of the text. Both
read literals and comments by the same functions. All places count characters.

Each pattern stops at the first character that cannot belong to its token, and none tries a text
twice. What may be long and have parts, such as a string with escapes or a nested comment, is read
part by part. So the time is in proportion to the text, whatever stands there.
"""
import enum
import re
from array import array
from bisect import bisect_left
from typing import Iterator, List, NamedTuple, Optional, Tuple

# What a word is made of, behind its first character. Rust takes characters beyond ASCII only in
# identifiers, and as the white space that is left out here.
WORD = r"A-Za-z0-9_\x80-\x84\x86-\u200d\u2010-\u2027\u202a-\U0010ffff"
START = WORD.replace("0-9", "")
SPACE = r"\t\n\x0b\x0c\r \x85\u200e\u200f\u2028\u2029"
# The mark of the byte order, which rustc drops at the start of a file.
MARK = "\ufeff"

# The first character of a suffix of a literal, and the rest of it.
SUFFIX = re.compile(f"[{START}][{WORD}]*")
STRING_STOP = re.compile(r'["\\]')
CHARACTER_STOP = re.compile(r"['\\/\n]")
COMMENT_STOP = re.compile(r"/\*|\*/")
LIFETIME = re.compile(f"'(?:r#(?=[{START}]))?[{WORD}]+")
RAW_PREFIXES, PREFIXES = ("r", "br", "cr"), ("b", "c")
PAIRS = {"(": ")", "[": "]", "{": "}"}

# A doc comment is a token, since it stands for an attribute. `////`, `/***` and `/**/` begin none.
DOC = re.compile(r"///(?!/)|//!|/\*\*(?![*/])|/\*!")

TOKEN = re.compile(rf"""[{SPACE}]*(?:
    (?P<line>//[^\n]*)
    |(?P<block>/\*)
    |(?P<raw>(?:r|br|cr)\#*")
    |(?P<string>[bc]?")
    |(?P<character>b?')
    |(?P<raw_word>r\#[{START}][{WORD}]*)
    |(?P<word>[{WORD}]+)
    |(?P<open>[(\[{{])
    |(?P<close>[)\]}}])
    |(?P<mark>=>|->|::|==|!=|<=|>=|.)
    |(?P<nothing>\Z)
)""", re.VERBOSE | re.DOTALL)

# What `skim` looks for. Strings, characters and lifetimes of the usual forms have no group: nothing
# is to be done for them. Before any other form, the word is looked at that it may begin with.
SKIMMED = re.compile(
    r"(?P<open>[(\[{])|(?P<close>[)\]}])|//[^\n]*"
    rf'|"(?<![{WORD}#]")[^"\\]*"(?![{WORD}])'
    rf"|'(?<![{WORD}]')[^\\'\n]'(?![{WORD}])|'(?<![{WORD}]')[{WORD}]+(?!['#{WORD}])"
    r"|(?P<block>/\*)|(?P<string>\")|(?P<character>')|(?P<pound>#)"
    rf"|(?P<name>cfg(?<![{WORD}]cfg)(?:_if|_select)?(?![{WORD}]))"
    rf"|(?P<module>mod(?<![{WORD}]mod)(?=[{SPACE}]+(?:r#)?[{START}][{WORD}]*[{SPACE}]*;))"
)
OPEN, CLOSE, BLOCK, STRING, CHARACTER, POUND, NAME, MODULE = (
    SKIMMED.groupindex[name]
    for name in ("open", "close", "block", "string", "character", "pound", "name", "module")
)
# In how many groups at most a module that has a file of its own may stand.
MOST_GROUPS = 32
# An attribute of another name, which needs no closer look.
OTHER_ATTRIBUTE = re.compile(r"#!?\[(?!r#|cfg)[A-Za-z_]")
# The word at the end of a text.
LAST_WORD = re.compile(rf"[{WORD}]*\Z")
SHEBANG = "#!"


class Kind(enum.Enum):
    """The kinds of tokens."""

    WORD = "word"
    """An identifier, a keyword or a number."""
    RAW_WORD = "raw_word"
    """A raw identifier, with its `r#`."""
    STRING = "string"
    """A string between quotes, with its suffix if it has one."""
    RAW_STRING = "raw"
    """A raw string, with its suffix if it has one."""
    LITERAL = "literal"
    """A string of bytes or of C, or a character or byte."""
    LIFETIME = "lifetime"
    """A lifetime or a label."""
    OPEN = "open"
    """A delimiter that begins a group."""
    CLOSE = "close"
    """A delimiter that ends a group."""
    MARK = "mark"
    """Any other character, or `=>`, `->`, `::`, `==`, `!=`, `<=` or `>=`."""
    DOC = "doc"
    """A doc comment."""


class Token(NamedTuple):
    """A token at a place of a text."""

    kind: Kind
    start: int
    end: int


class TokenError(Exception):
    """From a place on, a text has no tokens. The message says why."""

    def __init__(self, place: int, message: str) -> None:
        super().__init__(message)
        self.place = place


BY_GROUP = {
    TOKEN.groupindex[kind.value]: kind
    for kind in (Kind.WORD, Kind.RAW_WORD, Kind.OPEN, Kind.CLOSE, Kind.MARK)
}
LINES, BLOCKS, RAW_STRINGS, STRINGS, NOTHING = (
    TOKEN.groupindex[name] for name in ("line", "block", "raw", "string", "nothing")
)


def with_suffix(text: str, place: int) -> int:
    """Returns the place behind the suffix of a literal that ends at a place."""
    found = SUFFIX.match(text, place)
    return place if found is None else found.end()


def string_end(text: str, start: int) -> int:
    """Returns the place behind a string whose first quote stands at a place."""
    stop = STRING_STOP.search(text, start + 1)
    while stop is not None and stop[0] == "\\":
        stop = STRING_STOP.search(text, stop.end() + 1)
    if stop is None:
        raise TokenError(start, "a string does not end")
    return with_suffix(text, stop.end())


def raw_string_end(text: str, quote: int, hashes: int) -> int:
    """Returns the place behind a raw string with a number of `#` and its first quote at a place."""
    ending = '"' + "#" * hashes
    found = text.find(ending, quote + 1)
    if found < 0:
        raise TokenError(quote, "a raw string does not end")
    return with_suffix(text, found + len(ending))


def character_end(text: str, start: int) -> int:
    """Returns the place behind a character or a byte whose first quote stands at a place."""
    if text[start + 2:start + 3] == "'" and text[start + 1] != "\\":
        return with_suffix(text, start + 3)
    stop = CHARACTER_STOP.search(text, start + 1)
    while stop is not None and stop[0] == "\\":
        stop = CHARACTER_STOP.search(text, stop.end() + 1)
    if stop is None or stop[0] != "'":
        raise TokenError(start, "a character does not end")
    return with_suffix(text, stop.end())


def lifetime_end(text: str, start: int) -> Optional[int]:
    """Returns the place behind the lifetime whose quote stands at a place, or `None` if a character
    stands there."""
    if text[start + 2:start + 3] == "'":
        return None
    found = LIFETIME.match(text, start)
    return None if found is None or text[found.end():found.end() + 1] == "'" else found.end()


def comment_end(text: str, start: int) -> int:
    """Returns the place behind a comment that begins with `/*` and may have others inside."""
    depth = 1
    for stop in COMMENT_STOP.finditer(text, start + 2):
        depth += 1 if stop[0] == "/*" else -1
        if depth == 0:
            return stop.end()
    raise TokenError(start, "a comment does not end")


def tokens_in(text: str, start: int, end: int) -> Iterator[Token]:
    """Yields the tokens of a piece of a text that begins with a token or in front of one. Raises
    `TokenError`."""
    place = start
    while place < end:
        token, place = next_token(text, place)
        if token is not None and token.start < end:
            yield token


def next_token(text: str, place: int) -> Tuple[Optional[Token], int]:
    """Returns the token at a place, perhaps behind white space, and the place behind it. Returns
    `None` for a comment and at the end of the text. Raises `TokenError`."""
    found = TOKEN.match(text, place)
    if found is None or found.lastindex is None:
        raise TokenError(place, "no token begins here")
    group, end = found.lastindex, found.end()
    start = found.start(group)
    kind = BY_GROUP.get(group)
    if kind is not None:
        return Token(kind, start, end), end
    if group == NOTHING:
        return None, end
    if group in (LINES, BLOCKS):
        end = end if group == LINES else comment_end(text, start)
        return (Token(Kind.DOC, start, end) if DOC.match(text, start) else None), end
    token = literal_of(text, start, found)
    return token, token.end


def literal_of(text: str, start: int, found: "re.Match[str]") -> Token:
    """Returns the literal or the lifetime that begins at a place, whose first quote is found."""
    group, quote = found.lastindex, found.end() - 1
    if group == RAW_STRINGS:
        kind = Kind.RAW_STRING if text[start] == "r" else Kind.LITERAL
        return Token(kind, start, raw_string_end(text, quote, text.count("#", start, quote)))
    if group == STRINGS:
        kind = Kind.STRING if start == quote else Kind.LITERAL
        return Token(kind, start, string_end(text, quote))
    end = lifetime_end(text, start) if start == quote else None
    if end is not None:
        return Token(Kind.LIFETIME, start, end)
    return Token(Kind.LITERAL, start, character_end(text, quote))


def first_place(text: str) -> int:
    """Returns where the tokens of a file begin: behind a mark of the byte order, and behind the
    line of a shebang. What begins with `#!` is no shebang if the next token is `[`."""
    start = len(MARK) if text.startswith(MARK) else 0
    if not text.startswith(SHEBANG, start):
        return start
    try:
        behind = next(tokens_in(text, start + len(SHEBANG), len(text)), None)
    except TokenError:
        behind = None
    if behind is not None and text[behind.start] == "[":
        return start
    line = text.find("\n", start)
    return len(text) if line < 0 else line


class Skim:
    """The structure of a text: its groups between delimiters, and where conditions may stand."""

    def __init__(self, text: str) -> None:
        """Goes over the text. Stops where it has no tokens, or where a delimiter is closed that is
        not open, and keeps the reason."""
        self.text = text
        # The groups in the order of their starts: where each begins and ends. An end is the place
        # of the delimiter, or that of the end of the text.
        self.starts, self.ends = array("q"), array("q")
        # Where `#` and the names of macros stand, and the numbers of the groups around them.
        self.pounds: List[Tuple[int, int]] = []
        self.names: List[Tuple[int, int]] = []
        # Where modules begin that have a file of their own, and the groups around them.
        self.modules: List[Tuple[int, Tuple[int, ...]]] = []
        self.problem: Optional[TokenError] = None
        # Where it stopped.
        self.end = len(text)
        self._open = array("q")
        # Behind the last literal that has no usual form.
        self._behind = self.first = first_place(text)
        try:
            place: Optional[int] = self.first
            while place is not None:
                place = self._on_from(place)
        except TokenError as problem:
            self.problem, self.end = problem, problem.place
        if self.problem is None and self._open:
            self.problem = TokenError(self.starts[self._open[-1]], "a delimiter is not closed")

    def _on_from(self, place: int) -> Optional[int]:
        """Goes on from a place. Returns where to go on behind a literal or a comment that has no
        usual form, or `None` at the end."""
        text, opened, starts, ends = self.text, self._open, self.starts, self.ends
        for found in SKIMMED.finditer(text, place):
            group = found.lastindex
            if group is None:
                continue
            start = found.start()
            if group == OPEN:
                opened.append(len(starts))
                starts.append(start)
                ends.append(len(text))
            elif group == CLOSE:
                if not opened or PAIRS[text[starts[opened[-1]]]] != text[start]:
                    raise TokenError(start, "a delimiter is closed that is not open")
                ends[opened.pop()] = start
            elif group in (NAME, POUND, MODULE):
                self._marked(group, start)
            else:
                return self._past(group, start)
        return None

    def _marked(self, group: int, place: int) -> None:
        """Keeps the place of a `#`, of the name of a macro or of a module."""
        around = self._open[-1] if self._open else -1
        if group == MODULE:
            if len(self._open) <= MOST_GROUPS:
                self.modules.append((place, tuple(self.starts[one] for one in self._open)))
        elif group == NAME:
            self.names.append((place, around))
        elif OTHER_ATTRIBUTE.match(self.text, place) is None:
            self.pounds.append((place, around))

    def _past(self, group: int, start: int) -> int:
        """Returns the place behind a literal or a comment."""
        if group == BLOCK:
            return comment_end(self.text, start)
        prefix, hashes = self._prefix(start)
        if group == STRING:
            is_raw = prefix in RAW_PREFIXES
            end = (raw_string_end(self.text, start, hashes) if is_raw
                   else string_end(self.text, start))
        else:
            lifetime = None if prefix == "b" and hashes == 0 else lifetime_end(self.text, start)
            end = character_end(self.text, start) if lifetime is None else lifetime
        self._behind = end
        return end

    def _prefix(self, quote: int) -> Tuple[str, int]:
        """Returns the word in front of a quote, and the number of `#` between them. The name of a
        lifetime is no such word. Of a word with three characters or more, the last three suffice,
        since no prefix has as many."""
        marks = quote
        while marks > self._behind and self.text[marks - 1] == "#":
            marks -= 1
        found = LAST_WORD.search(self.text[max(marks - 3, self._behind):marks])
        word = "" if found is None else found[0]
        before = self.text[marks - len(word) - 1:marks - len(word)]
        return ("" if before == "'" else word), quote - marks

    def group_at(self, place: int) -> Optional[int]:
        """Returns the number of the group that begins at a place, or `None` if none does."""
        number = bisect_left(self.starts, place)
        is_there = number < len(self.starts) and self.starts[number] == place
        return number if is_there else None

    def end_of(self, place: int) -> int:
        """Returns the place of the delimiter that ends the group which begins at a place."""
        number = self.group_at(place)
        return len(self.text) if number is None else self.ends[number]
