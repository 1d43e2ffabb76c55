"""Known findings: a file names them with a reason each, so that a command does not fail for them.

The file is TOML. Each entry is a table `[[known]]` with `finding`, the name of what is found, with
`reason`, and with members that say of what it is found. An entry is for each finding that has its
name and all its members, letter by letter.
"""
import dataclasses
import importlib
import sys
from typing import Any, Dict, Iterator, List, Mapping, NamedTuple, Optional, Sequence, Tuple

from . import _files
from ._terminal import ShownError

# The name of the list in the file, and what each entry has.
LIST, FINDING, REASON = "known", "finding", "reason"
# The module that reads TOML: the one that Python has since 3.11, or the package from which it
# comes.
MODULE = "tomllib" if sys.version_info >= (3, 11) else "tomli"


class KnownError(ShownError):
    """A file of known findings cannot be read, or is none."""


class Form(NamedTuple):
    """What entries may have."""

    findings: Sequence[str]
    """The names of findings."""
    members: Sequence[str]
    """The members that say of what something is found."""
    least: Sequence[str]
    """The members of which an entry has one at least, so that it is not for everything."""


@dataclasses.dataclass(frozen=True)
class Entry:
    """A known finding."""

    number: int
    """The place of the entry in the file, from 1 on."""
    finding: str
    """The name of the finding."""
    members: Tuple[Tuple[str, str], ...]
    """The members that say of what it is found, in the order of their names."""
    reason: str
    """Why it is known."""

    def __str__(self) -> str:
        members = (f"{name} = {value!r}" for name, value in self.members)
        return f"entry {self.number}: {', '.join([self.finding, *members])}"


# Entries by the name of the finding and by the values of some members.
ByValues = Dict[Tuple[str, ...], Entry]


class Known:
    """The known findings of a file."""

    def __init__(self, entries: Sequence[Entry] = ()) -> None:
        """Raises `KnownError` if an entry repeats another."""
        self._entries = entries
        self._found: Dict[int, None] = {}
        # For each set of members that entries have, as there are few. So a finding is looked up and
        # not compared with each entry.
        self._by_names: Dict[Tuple[str, ...], ByValues] = {}
        for entry in entries:
            names = tuple(name for name, _ in entry.members)
            key = (entry.finding, *(value for _, value in entry.members))
            other = self._by_names.setdefault(names, {}).setdefault(key, entry)
            if other is not entry:
                raise KnownError(f"entry {entry.number} repeats entry {other.number}")

    def longest(self, member: str) -> int:
        """Returns how many characters the longest value of a member has, or 0 if no entry has
        it."""
        values = (value for entry in self._entries for name, value in entry.members
                  if name == member)
        return max(map(len, values), default=0)

    def entry_for(self, finding: str, members: Mapping[str, str]) -> Optional[Entry]:
        """Returns the entry for what is found, of several the one with the most members, or `None`
        if it is not known. Each of them counts as one that matches."""
        found = None
        for entry in self._entries_for(finding, members):
            self._found[entry.number] = None
            if found is None or len(entry.members) > len(found.members):
                found = entry
        return found

    def _entries_for(self, finding: str, members: Mapping[str, str]) -> Iterator[Entry]:
        """Yields the entries for what is found."""
        for names, entries in self._by_names.items():
            if all(name in members for name in names):
                entry = entries.get((finding, *(members[name] for name in names)))
                if entry is not None:
                    yield entry

    def unmatched(self) -> List[Entry]:
        """Returns the entries that were for nothing so far."""
        return [entry for entry in self._entries if entry.number not in self._found]


def read(path: str, form: Form) -> Known:
    """Returns the known findings of a file. Raises `KnownError`, also if it is no regular file or
    too large."""
    try:
        text = _files.bytes_of(path).decode("utf-8-sig")
        return Known(list(entries_in(text, form)))
    except OSError as error:
        raise KnownError(f"{path} cannot be read: {error.strerror}") from error
    except UnicodeDecodeError as error:
        raise KnownError(f"{path} is not UTF-8: {error}") from error
    except KnownError as error:
        raise KnownError(f"{path}: {error}") from error


def entries_in(text: str, form: Form) -> Iterator[Entry]:
    """Yields the entries of a text. Raises `KnownError`."""
    table = table_of(text)
    for name in table:
        if name != LIST:
            raise KnownError(f"it has {name}, and an entry is a table [[{LIST}]]")
    entries = table.get(LIST, [])
    if not isinstance(entries, list):
        raise KnownError(f"{LIST} is no list: an entry is a table [[{LIST}]]")
    for number, entry in enumerate(entries, 1):
        yield entry_of(number, entry, form)


def table_of(text: str) -> Dict[str, Any]:
    """Returns what a text of TOML has. Raises `KnownError`, also if this Python cannot read it."""
    try:
        reader = importlib.import_module(MODULE)
    except ImportError as error:
        message = "to read it takes Python 3.11 or later, or the package tomli"
        raise KnownError(message) from error
    try:
        found: Dict[str, Any] = reader.loads(text)
    except (ValueError, RecursionError) as error:
        raise KnownError(f"it is no TOML: {error}") from error
    return found


def entry_of(number: int, entry: Any, form: Form) -> Entry:
    """Returns the entry with a number. Raises `KnownError` if it is none."""
    def expect(is_right: bool, message: str) -> None:
        if not is_right:
            raise KnownError(f"entry {number} {message}")

    expect(isinstance(entry, dict), "is no table")
    for name, value in entry.items():
        expect(name in (FINDING, REASON, *form.members),
               f"has {name}: it may have {FINDING}, {REASON}, {', '.join(form.members)}")
        expect(isinstance(value, str), f"has a {name} that is no text")
    for name in (FINDING, REASON):
        expect(entry.get(name, "").strip() != "", f"has no {name}")
    expect(entry[FINDING] in form.findings,
           f"has the finding {entry[FINDING]}: one is {' or '.join(form.findings)}")
    expect(any(name in entry for name in form.least),
           f"is for everything: it needs {' or '.join(form.least)}")
    members = sorted((name, entry[name]) for name in form.members if name in entry)
    return Entry(number, entry[FINDING], tuple(members), entry[REASON])
