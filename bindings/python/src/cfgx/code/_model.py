"""What is read of code."""
import dataclasses
import enum
from bisect import bisect_right
from typing import Dict, Iterator, NamedTuple, Optional, Sequence, Tuple


class Form(enum.Enum):
    """Where a condition stands."""

    CFG = "cfg"
    """In `#[cfg(..)]`, also inside of `cfg_attr`."""
    CFG_ATTR = "cfg_attr"
    """In `#[cfg_attr(.., ..)]`, before the first comma."""
    MACRO = "cfg!"
    """In `cfg!(..)`."""
    CFG_IF = "cfg_if!"
    """In front of a branch of `cfg_if!`."""
    CFG_SELECT = "cfg_select!"
    """In front of a branch of `cfg_select!`."""


class Reason(enum.Enum):
    """Why a condition has no text."""

    VARIABLE = "a variable of a macro stands there"
    """Only the macro knows what stands for `$x`."""
    QUOTE = "the value has a quote"
    """No text of a condition holds it."""
    NAME = "no text of a condition holds this name"
    """It is not ASCII, or `all`, `any`, `not`, `r#true` or `r#false` as the name of a flag."""
    FUNCTION = "only a nightly rustc takes this"
    """`accessible`, `target` or `version` as a function."""
    MEMBERS = "not() takes 1 predicate"
    """A `not` has no member or several."""
    ROOTS = "there has to be 1 predicate"
    """The condition has no member or several."""
    UNEXPECTED = "this may not stand here"
    """A token may not stand there."""
    UNKNOWN = "there is no such function"
    """A function is none of `all`, `any` and `not`."""
    VALUE = "a value is a string without a prefix or a suffix"
    """A literal of another kind, or a string with an escape that rustc refuses."""

    @property
    def is_fault(self) -> bool:
        """Whether rustc refuses the condition. Otherwise it is not read here."""
        return self not in (Reason.VARIABLE, Reason.QUOTE, Reason.NAME, Reason.FUNCTION)


class Place(NamedTuple):
    """A piece of a file: from a place up to but not including another. Lines and columns count from
    1, and columns count characters."""

    line: int
    column: int
    end_line: int
    end_column: int
    start: int
    """The first byte, from 0 on."""
    end: int
    """The byte behind the last one."""


class Problem(NamedTuple):
    """Why something has no value."""

    reason: Reason
    """What is wrong."""
    place: Place
    """Where."""


class Piece(NamedTuple):
    """A piece of the text of a condition, and where it stands in the file."""

    start: int
    """The first character in the text, from 0 on."""
    end: int
    """The character behind the last one."""
    place: Place
    """Where that of which it was made stands in the file."""


class Guard(NamedTuple):
    """What has to hold where a condition stands, since the code around it is compiled only then."""

    text: Optional[str]
    """What has to hold, or `None` if it was not read."""
    number: int
    """The number of the condition that says so."""
    is_negated: bool
    """Whether it must not hold, as those of the branches before one of `cfg_if!`."""
    outer: Optional["Guard"]
    """The guard around it."""

    @property
    def all(self) -> Iterator["Guard"]:
        """This guard and those around it, from the inside out."""
        guard: Optional[Guard] = self
        while guard is not None:
            yield guard
            guard = guard.outer


@dataclasses.dataclass(frozen=True)
class Condition:
    """A condition in the code of a file."""

    number: int
    """Its number among those of the file, from 0 on."""
    form: Form
    """Where it stands."""
    is_inner: bool
    """Whether it stands in an attribute `#![..]`, and so is about what is around it."""
    place: Place
    """Its place."""
    text: Optional[str]
    """The condition for the engine: without comments, with the value of each string and with the
    name of each raw identifier. It is `None` if there is a problem."""
    problem: Optional[Problem]
    """Why it has no text: rustc refuses it, or the text cannot hold it."""
    pieces: Sequence[Piece]
    """The pieces of the text, in order."""
    guard: Optional[Guard]
    """The innermost of what has to hold where it stands, or `None` if it always matters."""

    def place_in_file(self, start: int, end: int) -> Optional[Place]:
        """Returns where the characters from `start` up to but not including `end` of the text stand
        in the file, or `None` if there are none such."""
        first = bisect_right([one.start for one in self.pieces], start) - 1
        last = max(end, start + 1)
        touched = [one.place for one in self.pieces[max(first, 0):] if one.start < last]
        if not touched:
            return None
        return touched[0]._replace(
            end_line=touched[-1].end_line, end_column=touched[-1].end_column, end=touched[-1].end
        )


@dataclasses.dataclass(frozen=True)
class Item:
    """One of several items with one name."""

    kind: str
    """The word for its kind, such as `fn`."""
    name: str
    """Its name."""
    place: Place
    """Where its word begins, behind its attributes."""
    guard: Optional[Guard]
    """The innermost of what has to hold for it to be there."""


@dataclasses.dataclass(frozen=True)
class Group:
    """What belongs together: items with one name in a scope, or the branches of a macro."""

    items: Sequence[Item]
    """The items, or none if it is a macro."""
    form: Optional[Form]
    """Which macro it is, or `None` for items."""
    branches: Sequence[int]
    """The numbers of the conditions of the branches."""
    has_last: bool
    """Whether a branch is taken if no condition holds."""
    place: Place
    """Where it begins."""
    guard: Optional[Guard]
    """The innermost of what has to hold around it."""


class Module(NamedTuple):
    """A module that has a file of its own."""

    name: str
    """Its name."""
    folders: Tuple[str, ...]
    """The names of the modules around it in the same file, from the outside in."""
    paths: Tuple[str, ...]
    """The paths that attributes give it."""
    has_usual_path: bool
    """Whether its file may also be the one that its name says."""
    place: Place
    """Where it begins."""
    guard: Optional[Guard]
    """The innermost of what has to hold for it to be there."""
    path_guards: Tuple[Optional[Guard], ...]
    """For each of the paths, what has to hold beside this for its attribute to be there."""
    usual_guard: Optional[Guard]
    """What has to hold beside this for its file to be the one that its name says."""


@dataclasses.dataclass(frozen=True)
class Code:
    """What was read of a file."""

    conditions: Tuple[Condition, ...]
    """The conditions in the order of their places."""
    groups: Tuple[Group, ...]
    """What belongs together, in the order of places."""
    modules: Tuple[Module, ...]
    """The modules that have a file of their own."""
    unread: Optional[str]
    """Why the rest of the file was not read, or `None` if all was."""
    unread_from: Optional[Place]
    """From where on it was not read."""


class Places:
    """Finds lines, columns and bytes of the characters of a text."""

    def __init__(self, text: str, characters: Sequence[int], mark: str) -> None:
        """Goes over the text once for all these characters. A mark of the byte order at the start
        of the text has no column."""
        self._found: Dict[int, Tuple[int, int, int]] = {}
        line, byte, before = 1, 0, 0
        line_start = len(mark) if text.startswith(mark) else 0
        is_ascii = text.isascii()
        for one in sorted(set(characters)):
            lines = text.count("\n", before, one)
            if lines > 0:
                line_start = text.rfind("\n", before, one) + 1
            line += lines
            byte += one - before if is_ascii else len(text[before:one].encode())
            self._found[one] = line, one - line_start + 1, byte
            before = one

    def place(self, start: int, end: int) -> Place:
        """Returns the place from a character up to but not including another."""
        (line, column, first), (end_line, end_column, last) = self._found[start], self._found[end]
        return Place(line, column, end_line, end_column, first, last)
