"""The facts of targets."""
from typing import Iterable, List, Optional, Union

from . import _library, _process
from ._error import RustcError

Facts = Union[str, Iterable[str]]


def listed(facts: Facts) -> List[str]:
    """Returns the facts of a target, which are the lines of a text, or a list."""
    return lines_of(facts) if isinstance(facts, str) else list(facts)


def lines_of(text: str) -> List[str]:
    """Returns the lines of a text that are not empty. Only a line feed ends a line, and a carriage
    return before it."""
    lines = (line[:-1] if line.endswith("\r") else line for line in text.split("\n"))
    return [line for line in lines if line]


def number_of(otherwise: Optional[bool]) -> int:
    """Returns the number of what predicates are that no fact names."""
    if otherwise is True:
        raise ValueError("otherwise is None or False, and not True")
    return _library.number_of(otherwise)


def rustc_facts(triple: str) -> List[str]:
    """Returns the facts of a target, for `audit` and `Expression.answers`: the lines that
    `rustc --print cfg` prints for it. The `rustc` is that on the path, and starts in the folder
    `/`: so nothing of the current folder runs, and no `rust-toolchain.toml` there says which
    `rustc` it is. Raises `RustcError` if there is none, or if it does not know the target."""
    return rustc_lines("--print", "cfg", "--target", triple)


def rustc_lines(*words: str) -> List[str]:
    """Returns the lines that the `rustc` on the path prints with these words. Raises `RustcError`
    if there is none, or if it fails."""
    if any("\0" in word for word in words):
        raise RustcError(f"rustc takes no word with a zero byte: {words[-1]!r}")
    try:
        run = _process.run(["rustc", *words])
    except OSError as error:
        raise RustcError(f"rustc could not be run: {error}") from error
    if run.status != 0:
        message = run.stderr.decode(errors="replace").rstrip()
        raise RustcError(f"rustc refused {' '.join(words)}: {message}")
    try:
        return lines_of(run.stdout.decode())
    except UnicodeDecodeError as error:
        raise RustcError(f"rustc printed what is not UTF-8: {error}") from error
