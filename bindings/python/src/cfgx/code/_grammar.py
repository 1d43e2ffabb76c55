"""Conditions from the tokens of Rust.

rustc reads a condition as tokens: `any(unix, /* c */ feature = r"x")` is one to it.
`read_condition` makes the text of it that the engine reads: without comments, with the value of
each string, and with the name of each raw identifier. It refuses what rustc refuses.
"""
import dataclasses
import re
from typing import Iterator, List, NamedTuple, Optional, Sequence

from ._lexer import Kind, Token
from ._model import Reason

FUNCTIONS = ("all", "any", "not")
# What a nightly rustc takes as functions.
OTHER_FUNCTIONS = ("accessible", "target", "version")
LITERALS = ("true", "false")
# Words that are no names to rustc in any edition. `async`, `await`, `dyn` and `try` are names in
# Rust 2015 alone, and `gen` is one before Rust 2024.
KEYWORDS = frozenset(
    "_ as break const continue crate else enum extern fn for if impl in let loop match mod move"
    " mut pub ref return self Self static struct super trait type unsafe use where while abstract"
    " become box do final macro override priv typeof unsized virtual yield async await dyn try"
    .split()
)
# What is no identifier even behind `r#`.
NEVER_RAW = ("_", "crate", "self", "Self", "super")
# What may stand behind a flag, with the end of the condition.
BEHIND_FLAG = (",", ")", "=>", "")
NAME = re.compile(r"[A-Za-z_][A-Za-z0-9_]*")
# The first character of what is no number.
DIGIT = re.compile(r"[0-9]")
# A piece of a string: characters that stand for themselves, or an escape.
ESCAPED = re.compile(
    r"[^\\\r]+|\r\n|\\(?:([nrt0'\"\\])|x([0-7][0-9A-Fa-f])|u\{([0-9A-Fa-f][0-9A-Fa-f_]*)\}"
    r"|(\r?\n)[ \t\r\n]*)"
)
SIMPLE = {"n": "\n", "r": "\r", "t": "\t", "0": "\0", "'": "'", '"': '"', "\\": "\\"}
# Digits of an escape `\u{..}`, and the surrogates, which are no characters.
MOST_DIGITS, LAST, SURROGATES = 6, 0x10FFFF, range(0xD800, 0xE000)


class ConditionError(Exception):
    """A condition that has no text, with the places at fault."""

    def __init__(self, reason: Reason, start: int, end: int) -> None:
        super().__init__(reason.value)
        self.reason = reason
        self.start = start
        self.end = end


class Piece(NamedTuple):
    """A piece of the text of a condition, and the token of which it was made."""

    start: int
    """Where it begins in the text."""
    end: int
    """Where it ends in the text."""
    token: Token
    """The token in the file."""


@dataclasses.dataclass
class Open:
    """A function that is being read."""

    name: str
    start: int
    members: int = 0


class Written(NamedTuple):
    """A condition that was read."""

    text: str
    """Its text."""
    pieces: Sequence[Piece]
    """Of which tokens it was made."""


class Reader:
    """Reads a condition from tokens."""

    def __init__(self, text: str, tokens: Iterator[Token], end: int) -> None:
        """`end` is the place behind the tokens."""
        self._text = text
        self._tokens = tokens
        self._end = end
        self._token = next(tokens, None)
        self._open: List[Open] = []
        self._parts: List[str] = []
        self._pieces: List[Piece] = []
        self._length = 0

    def read(self, ends: Sequence[str]) -> Written:
        """Returns the condition at the first token, which one of some tokens ends or, if there are
        none, the last token. Raises `ConditionError`."""
        self._member()
        while self._open:
            if self._has_member():
                self._member()
        self._ended(ends)
        return Written("".join(self._parts), self._pieces)

    def _ended(self, ends: Sequence[str]) -> None:
        """Passes what ends the condition."""
        if ends:
            if self._word() not in ends:
                raise self._refused()
            self._step()
            return
        if self._word() == ",":
            self._step()
        if self._token is not None:
            raise self._refused(Reason.ROOTS)

    def _word(self) -> str:
        """Returns the text of the next token, which is empty at the end."""
        token = self._token
        return "" if token is None else self._text[token.start:token.end]

    def _step(self) -> Token:
        """Passes the next token, and returns it."""
        token = self._token
        if token is None:
            raise self._refused()
        self._token = next(self._tokens, None)
        return token

    def _refused(self, reason: Reason = Reason.UNEXPECTED) -> ConditionError:
        """Returns the error at the next token."""
        token = self._token
        if token is None:
            reason = Reason.ROOTS if not self._parts else Reason.UNEXPECTED
            return ConditionError(reason, self._end, self._end)
        if self._text[token.start] == "$":
            reason = Reason.VARIABLE
        return ConditionError(reason, token.start, token.end)

    def _put(self, text: str, token: Token) -> None:
        """Adds a piece of the text, which stands for a token."""
        self._parts.append(text)
        self._pieces.append(Piece(self._length, self._length + len(text), token))
        self._length += len(text)

    def _member(self) -> None:
        """Reads a member of a function, or the start of one."""
        token, word = self._token, self._word()
        if token is None or not is_name(token, word):
            raise self._refused()
        self._step()
        name = word[2:] if token.kind is Kind.RAW_WORD else word
        if self._open:
            self._open[-1].members += 1
        behind = self._word()
        if word in LITERALS:
            self._put(word, token)
        elif behind == "(":
            self._function(name, token)
        elif behind == "=":
            self._put(name_of(name, token), token)
            self._value()
        elif behind not in BEHIND_FLAG:
            raise self._refused()
        elif name in (*FUNCTIONS, *LITERALS):
            raise ConditionError(Reason.NAME, token.start, token.end)
        else:
            self._put(name_of(name, token), token)

    def _function(self, name: str, token: Token) -> None:
        """Begins a function, whose name is read."""
        if name not in FUNCTIONS:
            reason = Reason.FUNCTION if name in OTHER_FUNCTIONS else Reason.UNKNOWN
            raise ConditionError(reason, token.start, token.end)
        self._put(name, token)
        self._put("(", self._step())
        self._open.append(Open(name, token.start))

    def _value(self) -> None:
        """Reads a value, behind its name."""
        self._put(" = ", self._step())
        token = self._token
        if token is None or token.kind not in (Kind.STRING, Kind.RAW_STRING):
            is_literal = token is not None and token.kind is Kind.LITERAL
            raise self._refused(Reason.VALUE if is_literal else Reason.UNEXPECTED)
        value = value_of(self._text[token.start:token.end])
        if value is None or '"' in value:
            reason = Reason.VALUE if value is None else Reason.QUOTE
            raise ConditionError(reason, token.start, token.end)
        self._put(f'"{value}"', self._step())

    def _has_member(self) -> bool:
        """Whether the innermost function has one more member, whose start is next. If it has none,
        the `)` that ends it is passed."""
        word, has_members = self._word(), self._open[-1].members > 0
        if word == "," and has_members:
            comma = self._step()
            word = self._word()
            if word != ")":
                self._put(", ", comma)
                return True
        elif word != ")" and not has_members:
            return True
        if word != ")":
            raise self._refused()
        self._ended_function(self._step())
        return False

    def _ended_function(self, token: Token) -> None:
        """Ends the innermost function by a `)`."""
        ended = self._open.pop()
        if ended.name == "not" and ended.members != 1:
            raise ConditionError(Reason.MEMBERS, ended.start, token.end)
        self._put(")", token)


def is_name(token: Token, word: str) -> bool:
    """Whether a token is a name to rustc, or a literal."""
    if token.kind is Kind.RAW_WORD:
        return word[2:] not in NEVER_RAW
    return token.kind is Kind.WORD and word not in KEYWORDS and DIGIT.match(word) is None


def name_of(name: str, token: Token) -> str:
    """Returns a name that a text of a condition holds."""
    if NAME.fullmatch(name) is None:
        raise ConditionError(Reason.NAME, token.start, token.end)
    return name


def value_of(literal: str) -> Optional[str]:
    """Returns the value of a string or a raw string, or `None` if rustc refuses it."""
    if not literal.endswith(('"', "#")):
        return None
    if literal.startswith("r"):
        hashes = literal.index('"') - 1
        value = literal[hashes + 2:len(literal) - hashes - 1].replace("\r\n", "\n")
        return None if "\r" in value else value
    return unescaped(literal[1:-1])


def unescaped(text: str) -> Optional[str]:
    """Returns what stands between the quotes of a string, or `None` if an escape is wrong."""
    parts: List[str] = []
    place = 0
    while place < len(text):
        found = ESCAPED.match(text, place)
        part = None if found is None else part_of(found)
        if found is None or part is None:
            return None
        parts.append(part)
        place = found.end()
    return "".join(parts)


def part_of(found: "re.Match[str]") -> Optional[str]:
    """Returns the characters for which a piece of a string stands, or `None` for a wrong escape."""
    simple, byte, character, line = found.groups()
    if simple is not None:
        return SIMPLE[simple]
    if byte is not None:
        return chr(int(byte, 16))
    if character is not None:
        digits = character.replace("_", "")
        number = int(digits, 16) if len(digits) <= MOST_DIGITS else LAST + 1
        return None if number > LAST or number in SURROGATES else chr(number)
    return "" if line is not None else found[0].replace("\r\n", "\n")


def read_condition(
    text: str, tokens: Iterator[Token], end: int, ends: Sequence[str] = ()
) -> Written:
    """Returns the condition that tokens begin with, up to the place `end`. One of the tokens `ends`
    ends it or, if there are none, the last token, in front of which a `,` may stand. No token is
    asked for behind one that is wrong. Raises `ConditionError`."""
    return Reader(text, tokens, end).read(ends)
