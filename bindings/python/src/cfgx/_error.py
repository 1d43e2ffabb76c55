"""What is wrong with a text, a fact or a target."""
import enum
from typing import Tuple

from . import _library

# The lists of terms of `Reason.UNEXPECTED`, in the order of their numbers.
TERM_LISTS: Tuple[Tuple[str, ...], ...] = (
    (),
    ("<key>", "all", "any", "not"),
    ("<key>", ")", "all", "any", "not"),
    (")", "<key>"),
    ("=", ",", ")"),
    ('"',),
    (",", ")"),
    ("(",),
    (")", ","),
    ('"<value>"',),
    ('= "<feature_name>"',),
    ('= "<panic_strategy>"',),
    ('= "<target_cfg_value>"',),
    ("<feature>",),
    (
        "target_arch", "target_feature", "target_os", "target_family", "target_env",
        "target_endian", "target_has_atomic", "target_pointer_width", "target_vendor",
    ),
)


class Reason(enum.Enum):
    """What is wrong with the characters of a span. No text has the reasons `INVALID_CHARACTERS`,
    `UNOPENED_QUOTES` and `UNKNOWN_BUILTIN`."""

    INVALID_NOT = 1
    """A `not` with no member or several."""
    INVALID_CHARACTERS = 2
    """Characters that no condition has."""
    UNCLOSED_PARENS = 3
    """A parenthesis is never closed."""
    UNOPENED_PARENS = 4
    """A parenthesis is closed that was never opened."""
    UNCLOSED_QUOTES = 5
    """A quote is never closed."""
    UNOPENED_QUOTES = 6
    """A quote is closed that was never opened."""
    EMPTY = 7
    """The text has no predicate, literal or function."""
    UNEXPECTED = 8
    """A term that may not stand there."""
    INVALID_INTEGER = 9
    """A number that does not parse or is out of range, or a `target_endian` that is neither `big`
    nor `little`."""
    MULTIPLE_ROOT_PREDICATES = 10
    """More than one predicate, literal or function stands outside of every function."""
    INVALID_HAS_ATOMIC = 11
    """The width of an atomic is neither an integer nor `ptr`."""
    UNKNOWN_BUILTIN = 12
    """A built-in name that is not known."""


class ParseError(ValueError):
    """The first fault of a text that is no condition.

    >>> import cfgx
    >>> try:
    ...     cfgx.parse("cfg(not(a, b))")
    ... except cfgx.ParseError as caught:
    ...     error = caught
    >>> print(error)
    not(a, b)
    ^^^^^^^^^ not() takes 1 predicate, found 2
    >>> error.reason, error.span, error.members
    (<Reason.INVALID_NOT: 1>, (4, 13), 2)
    """

    text: str
    """The text as it was passed."""
    message: str
    """The text without an outer `cfg( )` and, on the line below, marks and the reason, as the
    program cfgx prints them. There is one mark for each byte in UTF-8, so behind characters beyond
    ASCII the marks stand too far to the right."""
    reason: Reason
    """What is wrong."""
    span: Tuple[int, int]
    """The characters of `text` at fault: from the first number up to but not including the
    second."""
    members: int
    """The number of members of the `not`, for `Reason.INVALID_NOT`, and otherwise 0."""
    terms: Tuple[str, ...]
    """The terms that may stand there, for `Reason.UNEXPECTED`, and otherwise none."""

    def __init__(
        self, text: str, message: str, reason: Reason, span: Tuple[int, int],
        members: int = 0, terms: Tuple[str, ...] = (),
    ) -> None:
        super().__init__(text, message, reason, span, members, terms)
        self.text = text
        self.message = message
        self.reason = reason
        self.span = span
        self.members = members
        self.terms = terms

    def __str__(self) -> str:
        return self.message


class FactError(ValueError):
    """A fact that is no condition. A fact that no condition can ask is not faulty, such as
    `target_thread_local`.

    >>> import cfgx
    >>> try:
    ...     cfgx.audit([], ["unix", ["windows", "?all("]])
    ... except cfgx.FactError as caught:
    ...     error = caught
    >>> print(error)
    fact 1 of target 1 is faulty: ?all(
    >>> error.reason, error.span
    (<Reason.UNCLOSED_PARENS: 3>, (4, 5))
    """

    target: int
    """The number of the target, from 0 on."""
    number: int
    """The number of the fact among those of the target, from 0 on. Empty lines have none."""
    fact: str
    """The fact."""
    reason: Reason
    """What is wrong."""
    span: Tuple[int, int]
    """The characters of `fact` at fault: from the first number up to but not including the
    second."""
    members: int
    """The number of members of the `not`, as in `ParseError`."""
    terms: Tuple[str, ...]
    """The terms that may stand there, as in `ParseError`."""

    def __init__(
        self, target: int, number: int, fact: str, reason: Reason, span: Tuple[int, int],
        members: int = 0, terms: Tuple[str, ...] = (),
    ) -> None:
        super().__init__(target, number, fact, reason, span, members, terms)
        self.target = target
        self.number = number
        self.fact = fact
        self.reason = reason
        self.span = span
        self.members = members
        self.terms = terms

    def __str__(self) -> str:
        return f"fact {self.number} of target {self.target} is faulty: {self.fact}"


def told(
    encoded: bytes, fault: _library.Fault
) -> Tuple[Reason, Tuple[int, int], int, Tuple[str, ...]]:
    """Returns what an error tells of the fault of a text or a fact: the reason, the span, the
    members and the terms."""
    span = _library.characters_in(encoded)(fault.offset + fault.start, fault.offset + fault.end)
    terms = TERM_LISTS[fault.terms - 1] if fault.terms > 0 else ()
    return Reason(fault.reason), span, fault.members, terms


def parse_error(text: str, encoded: bytes, fault: _library.Fault) -> ParseError:
    """Returns the error of a faulty text, which is passed also in UTF-8."""
    return ParseError(text, _library.explain(encoded).decode(), *told(encoded, fault))


def fact_error(target: int, number: int, fact: str, fault: _library.Fault) -> FactError:
    """Returns the error of a faulty fact, of which the numbers of `FactError` are given."""
    return FactError(target, number, fact, *told(fact.encode(), fault))


class RustcError(Exception):
    """`rustc` could not be run, or refused the target. The message says which."""
