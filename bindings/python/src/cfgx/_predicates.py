"""Functions that make predicates: one for each kind, with the name of its key if it has one."""
from typing import Callable, Protocol, TypeVar

from ._expression import KEYS, Kind, Predicate

Make = TypeVar("Make", bound=Callable[..., Predicate])


class Valued(Protocol):
    """A function that makes a predicate of a value."""

    def __call__(self, value: str) -> Predicate:
        """Returns the predicate with a value, as the text has it between its quotes."""
        ...


def flag(key: str) -> Predicate:
    """Returns the predicate of a bare key without a meaning of its own, such as `loom`. Raises
    `ValueError` if no text asks it.

    >>> import cfgx
    >>> cfgx.parse("not(loom)").eval({cfgx.flag("loom"): False})
    True
    """
    return Predicate(Kind.FLAG, key)


def key_value(key: str, value: str) -> Predicate:
    """Returns the predicate of a key without a meaning of its own, and a value. Raises `ValueError`
    if no text asks it.

    >>> import cfgx
    >>> cfgx.parse('key = "x"').eval({cfgx.key_value("key", "x"): True})
    True
    """
    return Predicate(Kind.KEY_VALUE, key, value)


def alone(kind: Kind) -> Callable[[], Predicate]:
    """Returns the function that makes the predicate of a kind without values."""
    def make() -> Predicate:
        return Predicate(kind, KEYS[kind])
    return named(make, kind, f"Returns the predicate `{KEYS[kind]}`.")


def valued(kind: Kind) -> Valued:
    """Returns the function that makes a predicate of a kind with values."""
    def make(value: str) -> Predicate:
        return Predicate(kind, KEYS[kind], value)
    returns = f'Returns the predicate `{KEYS[kind]} = "value"`.'
    return named(make, kind, f"{returns} Raises `ValueError` if no text asks it.")


def named(make: Make, kind: Kind, documentation: str) -> Make:
    """Returns a function with the name of the key of a kind."""
    make.__name__ = make.__qualname__ = KEYS[kind]
    make.__doc__ = documentation
    return make


test = alone(Kind.TEST)
debug_assertions = alone(Kind.DEBUG_ASSERTIONS)
proc_macro = alone(Kind.PROC_MACRO)
feature = valued(Kind.FEATURE)
target_feature = valued(Kind.TARGET_FEATURE)
target_abi = valued(Kind.ABI)
target_arch = valued(Kind.ARCH)
target_endian = valued(Kind.ENDIAN)
target_env = valued(Kind.ENV)
target_family = valued(Kind.FAMILY)
target_has_atomic = valued(Kind.HAS_ATOMIC)
target_os = valued(Kind.OS)
panic = valued(Kind.PANIC)
target_pointer_width = valued(Kind.POINTER_WIDTH)
target_vendor = valued(Kind.VENDOR)
