"""Conditions, and the predicates that they ask."""
import dataclasses
import enum
from collections.abc import Mapping as AbstractMapping
from typing import Any, Callable, Dict, Iterable, List, Mapping, NamedTuple, Optional, Tuple, Union

from . import _facts, _library
from ._error import fact_error, parse_error


class Kind(enum.Enum):
    """The kinds of predicates. Those from `ABI` on are on the target."""

    FLAG = 1
    """A bare key without a meaning of its own, such as `loom`."""
    KEY_VALUE = 2
    """A key without a meaning of its own, and a value."""
    TEST = 3
    """`test`"""
    DEBUG_ASSERTIONS = 4
    """`debug_assertions`"""
    PROC_MACRO = 5
    """`proc_macro`"""
    FEATURE = 6
    """`feature`"""
    TARGET_FEATURE = 7
    """`target_feature`"""
    ABI = 8
    """`target_abi`"""
    ARCH = 9
    """`target_arch`"""
    ENDIAN = 10
    """`target_endian`"""
    ENV = 11
    """`target_env`"""
    FAMILY = 12
    """`target_family`, and the bare keys `unix` and `windows`"""
    HAS_ATOMIC = 13
    """`target_has_atomic`"""
    OS = 14
    """`target_os`"""
    PANIC = 15
    """`panic`"""
    POINTER_WIDTH = 16
    """`target_pointer_width`"""
    VENDOR = 17
    """`target_vendor`"""


# The key of each kind that has one.
KEYS = {
    Kind.TEST: "test", Kind.DEBUG_ASSERTIONS: "debug_assertions", Kind.PROC_MACRO: "proc_macro",
    Kind.FEATURE: "feature", Kind.TARGET_FEATURE: "target_feature", Kind.ABI: "target_abi",
    Kind.ARCH: "target_arch", Kind.ENDIAN: "target_endian", Kind.ENV: "target_env",
    Kind.FAMILY: "target_family", Kind.HAS_ATOMIC: "target_has_atomic", Kind.OS: "target_os",
    Kind.PANIC: "panic", Kind.POINTER_WIDTH: "target_pointer_width", Kind.VENDOR: "target_vendor",
}
# The kind with each number, and its key.
NUMBERED = {kind.value: (kind, KEYS.get(kind)) for kind in Kind}


@dataclasses.dataclass(frozen=True)
class Predicate:
    """A predicate of a condition. Two are equal if they ask the same, wherever they stand, so a
    predicate serves as a key of a mapping. `flag`, `key_value`, and the functions with the names of
    the other keys, such as `feature` and `target_os`, make one.

    Raises `ValueError` if no text asks such a predicate.

    >>> import cfgx
    >>> first, second = cfgx.parse('all(unix, target_family = "unix")').predicates
    >>> first == second, first.span, second.span
    (True, (4, 8), (10, 32))
    >>> first == cfgx.target_family("unix")
    True
    >>> cfgx.flag("true")
    Traceback (most recent call last):
    ValueError: no text asks (<Kind.FLAG: 1>, 'true', None): 'true' asks nothing
    """

    kind: Kind
    """The kind."""
    key: str
    """The key: that of the kind, also for the words `unix` and `windows`, or else as it stands in
    the text."""
    value: Optional[str] = None
    """The value without its quotes, or `None` if there is none. A width has no sign and no zeros in
    front."""
    span: Tuple[int, int] = dataclasses.field(default=(0, 0), compare=False)
    """The characters of the predicate in the text that was passed, from the key to the last quote:
    from the first number up to but not including the second. A caller may leave it out."""

    def __post_init__(self) -> None:
        """Compares the predicate with what its text asks."""
        wanted = self.kind, self.key, self.value
        found = [(one.kind, one.key, one.value) for one in parse(str(self)).predicates]
        if found != [wanted]:
            asked = " and ".join(map(str, found)) or "nothing"
            raise ValueError(f"no text asks {wanted}: {str(self)!r} asks {asked}")

    def __setstate__(self, state: Dict[str, Any]) -> None:
        """Checks what is unpickled, as a new predicate."""
        Predicate.__init__(self, **state)

    def __str__(self) -> str:
        return self.key if self.value is None else f'{self.key} = "{self.value}"'


Answer = Optional[bool]
Answers = Union[Callable[[Predicate], Answer], Mapping[Predicate, Answer], Iterable[Answer]]


class Decision(NamedTuple):
    """What `Expression.decide` found."""

    value: Optional[bool]
    """The value, or `None` if it depends on the unknown answers."""
    if_true: Optional[List[bool]]
    """Answers with which the condition is true, if `value` is `None`, and otherwise `None`. They
    keep each answer that is known."""
    if_false: Optional[List[bool]]
    """Answers with which the condition is false, if `value` is `None`, and otherwise `None`. They
    keep each answer that is known."""


class Expression:
    """A condition, which may stand in `cfg( )`. It never changes.

    Two expressions are equal if their texts are equal, without an outer `cfg( )`: `key` and `key,`
    are not. `str` returns this text.

    The parameter `answers` of `eval` and `decide` is

    - a mapping from predicates to answers, even one that can be called. A predicate that is not in
      it is unknown. One that the condition does not ask is passed over, so nothing tells that a
      flag or a value is misspelt;
    - or a callable, which is called with each occurrence of a predicate once, in the order of
      `predicates`, and returns its answer;
    - or a list with one answer for each of `predicates`, in order.

    An answer is `True`, `False`, or `None` if it is unknown. Any other raises `TypeError`, also 0
    and 1. A list of another length raises `ValueError`.
    """

    __slots__ = ("_text", "_encoded", "_steps", "_predicates")

    _text: str
    _encoded: bytes
    _steps: Any
    _predicates: Tuple[Predicate, ...]

    def __new__(cls, text: str) -> "Expression":
        """Parses a text, as `parse` does."""
        encoded = _library.utf8_of(text)
        found = _library.compiled(encoded)
        if isinstance(found, _library.Fault):
            raise parse_error(text, encoded, found)
        self = super().__new__(cls)
        self._text, self._encoded = text, encoded
        self._steps, described = found
        characters = _library.characters_in(encoded)
        self._predicates = tuple(
            predicate_of(encoded, one, characters(one.start, one.end)) for one in described
        )
        return self

    @property
    def text(self) -> str:
        """The text as it was passed, in which spans count."""
        return self._text

    @property
    def original(self) -> str:
        """The text without an outer `cfg( )`.

        >>> import cfgx
        >>> cfgx.parse("cfg(unix)").original
        'unix'
        """
        # No condition begins with `cfg(` unless it stands in `cfg( )`.
        return self._text[4:-1] if self._text.startswith("cfg(") else self._text

    @property
    def predicates(self) -> List[Predicate]:
        """The predicates in the order in which they are asked: those of a list's functions, one
        function after another, and then the list's own. A predicate that stands twice is listed
        twice.

        >>> import cfgx
        >>> [predicate.key for predicate in cfgx.parse("all(a, any(b), c)").predicates]
        ['b', 'a', 'c']
        """
        return list(self._predicates)

    def eval(self, answers: Answers) -> Optional[bool]:
        """Returns the value over these answers, or `None` if it depends on the unknown ones.

        >>> import cfgx
        >>> expression = cfgx.parse('any(unix, feature = "x")')
        >>> expression.eval(lambda predicate: predicate.kind is cfgx.Kind.FEATURE)
        True
        >>> print(expression.eval({expression.predicates[0]: False}))
        None
        >>> expression.eval([None, True])
        True
        """
        return _library.value(self._steps, self._answered(answers))

    def decide(self, answers: Answers) -> Decision:
        """Returns the value over these answers and, if it depends on the unknown ones, answers with
        which the condition is true, and answers with which it is false.

        >>> import cfgx
        >>> cfgx.parse("all(a, not(b))").decide([None, None])
        Decision(value=None, if_true=[False, True], if_false=[True, False])
        >>> cfgx.parse("all(a, not(b))").decide([True, None])
        Decision(value=False, if_true=None, if_false=None)
        """
        given = self._answered(answers)
        value = _library.value(self._steps, given)
        if value is not None:
            return Decision(value, None, None)
        return Decision(None, *_library.fillings(self._encoded, given))

    def answers(
        self, facts: _facts.Facts, otherwise: Optional[bool] = None
    ) -> List[Optional[bool]]:
        """Returns the answers of a target to `predicates`, in order, for `eval` and `decide`. The
        facts of the target, and `otherwise`, are those of `audit`.

        Raises `FactError` for the first faulty fact, and names 0 as its target; and for another
        `otherwise` what `audit` raises.

        >>> import cfgx
        >>> expression = cfgx.parse('all(unix, not(test), feature = "x")')
        >>> [str(predicate) for predicate in expression.predicates]
        ['test', 'target_family = "unix"', 'feature = "x"']
        >>> expression.answers(["unix", '?feature = "x"'], otherwise=False)
        [False, True, None]
        """
        number, listed = _facts.number_of(otherwise), _facts.listed(facts)
        encoded = [_library.utf8_of(fact) for fact in listed]
        found = _library.answers(self._encoded, len(self._predicates), encoded, number)
        if isinstance(found, _library.Fault):
            raise fact_error(0, found.item, listed[found.item], found)
        return found

    def _answered(self, answers: Answers) -> bytes:
        """Returns the number of the answer to each predicate."""
        given: Iterable[Answer]
        if isinstance(answers, AbstractMapping):
            given = map(answers.get, self._predicates)
        elif callable(answers):
            given = map(answers, self._predicates)
        else:
            given = answers
        numbers = bytes(map(_library.number_of, given))
        if len(numbers) != len(self._predicates):
            raise ValueError(
                f"the condition has {len(self._predicates)} predicates, and there are"
                f" {len(numbers)} answers"
            )
        return numbers

    def __reduce__(self) -> Tuple[Any, ...]:
        """What `pickle` and `copy` keep is the text, which is parsed again."""
        return type(self), (self._text,)

    def __setstate__(self, state: Any) -> None:
        """Refuses to be changed by a pickle."""
        raise TypeError("an Expression is made of a text, and has no other state")

    def __str__(self) -> str:
        return self.original

    def __repr__(self) -> str:
        return f"cfgx.parse({self._text!r})"

    def __eq__(self, other: object) -> bool:
        if not isinstance(other, Expression):
            return NotImplemented
        return self.original == other.original

    def __hash__(self) -> int:
        return hash(self.original)


def parse(text: str) -> Expression:
    """Parses a condition, which may stand in `cfg( )`. Raises `ParseError` with the first fault if
    the text is no condition.

    >>> import cfgx
    >>> cfgx.parse("all(unix, test)")
    cfgx.parse('all(unix, test)')
    >>> cfgx.parse("all(unix")
    Traceback (most recent call last):
    cfgx.ParseError: all(unix
       - unclosed parens
    """
    return Expression(text)


def predicate_of(encoded: bytes, described: _library.Described, span: Tuple[int, int]) -> Predicate:
    """Returns the predicate at a span, as the engine describes it. So it is not checked."""
    kind, key = NUMBERED[described.kind]
    if key is None:
        key = encoded[described.key_start:described.key_end].decode()
    if described.value_end > 0:
        value: Optional[str] = encoded[described.value_start:described.value_end].decode()
    else:
        value = numbered_value(kind, described.number)
    predicate = object.__new__(Predicate)
    vars(predicate).update(kind=kind, key=key, value=value, span=span)
    return predicate


def numbered_value(kind: Kind, number: int) -> Optional[str]:
    """Returns the value that stands for a number, or `None` if the kind has none."""
    if kind is Kind.ENDIAN:
        return _library.ENDIANS[number]
    if kind in (Kind.HAS_ATOMIC, Kind.POINTER_WIDTH):
        return "ptr" if number == _library.ATOMIC_POINTER else str(number)
    return None
