"""Where the conditions of dependencies stand in manifests, of which Cargo says no place."""
import collections
import os
import re
from typing import Deque, Dict, Iterator, List, NamedTuple, Optional, Tuple

from .. import _files
from .._sarif import Place, Region
from .._toml import Key, Lines, Span, TomlError, keys_in
from ._cargo import Dependency

# The kinds of the dependencies in tables of a manifest, some of which have an older name.
KINDS = {
    "dependencies": "normal", "dev-dependencies": "dev", "dev_dependencies": "dev",
    "build-dependencies": "build", "build_dependencies": "build",
}
# The table with a table for each condition, and how many keys lead to a dependency there.
TARGET, MOST = "target", 4
# A word of a condition: a key, a text in quotes, or another character that is no blank.
WORD = re.compile(r'(?:r#)?([A-Za-z0-9_]+|"[^"]*"|[^ ])')

# The kind of a dependency, its name and its condition.
Named = Tuple[str, str, Optional[str]]


class Found(NamedTuple):
    """Where a dependency stands."""

    condition: Optional[Span]
    """The key with its condition, if it has one."""
    name: Span
    """The key with its name."""


class Places:
    """The places in manifests, each of which is read once. Their paths begin at a folder."""

    def __init__(self, base: str) -> None:
        self._base = base
        self._spellings = Spellings()
        self._read: Dict[str, Manifest] = {}

    def of(self, dependency: Dependency) -> Tuple[Place, Tuple[Place, ...]]:
        """Returns where the condition of a dependency stands, and where its name does. If neither
        is found, the first place is the whole manifest."""
        path = dependency.package_manifest
        manifest = self._read.get(path)
        if manifest is None:
            shown = os.path.relpath(path, self._base)
            manifest = self._read[path] = Manifest(shown, text_of(path), self._spellings)
        found = manifest.next_of(dependency)
        if found is None:
            return Place(manifest.path, None), ()
        name = manifest.place_of(found.name)
        return (name, ()) if found.condition is None else (
            manifest.place_of(found.condition), (name,)
        )


class Manifest:
    """The places in a manifest, which are told with a path."""

    def __init__(self, path: str, text: str, spellings: "Spellings") -> None:
        self.path = path
        self._lines = Lines(text)
        self._spellings = spellings
        self._found: Dict[Named, Deque[Found]] = {}
        for key in dependencies_in(text):
            named = KINDS[key.path[-2]], key.path[-1], self._spelt(*key.path[1:-2])
            condition = key.spans[1] if len(key.path) == MOST else None
            found = Found(condition, key.spans[-1])
            self._found.setdefault(named, collections.deque()).append(found)

    def _spelt(self, condition: Optional[str] = None) -> Optional[str]:
        """Returns how a condition is compared with others."""
        return None if condition is None else self._spellings[condition]

    def next_of(self, dependency: Dependency) -> Optional[Found]:
        """Returns where a dependency stands. If several are alike, the places come in turn."""
        spelt = self._spelt(dependency.condition)
        found = self._found.get((dependency.kind, dependency.name, spelt))
        if found is None:
            return None
        return found.popleft() if len(found) > 1 else found[0]

    def place_of(self, span: Span) -> Place:
        """Returns the place of a part of the manifest."""
        first, end = self._lines.place_of(span.start), self._lines.place_of(span.end)
        return Place(self.path, Region(*first, *end))


def text_of(path: str) -> str:
    """Returns the text of a manifest, or an empty one if it cannot be read, as after Cargo read
    it."""
    try:
        return _files.bytes_of(path).decode("utf-8-sig")
    except (OSError, UnicodeDecodeError):
        return ""


def dependencies_in(text: str) -> Iterator[Key]:
    """Yields the keys of the dependencies in the text of a manifest, each where it stands first."""
    seen: Dict[Tuple[str, ...], None] = {}
    try:
        for key in keys_in(text, MOST):
            size = size_of(key.path)
            path = key.path[:size]
            if size and path not in seen:
                seen[path] = None
                yield Key(path, key.spans[:size])
    except TomlError:
        # Cargo took the text, so it has changed since, or has a form that is newer than this.
        return


def size_of(path: Tuple[str, ...]) -> int:
    """Returns how many keys of a path lead to a dependency, or 0 if it leads to none."""
    if len(path) >= 2 and path[0] in KINDS:
        return 2
    return MOST if len(path) >= MOST and path[0] == TARGET and path[2] in KINDS else 0


class Spellings(Dict[str, str]):
    """How conditions are compared with others. Many dependencies may share a long one."""

    def __missing__(self, condition: str) -> str:
        found = self[condition] = spelling_of(condition)
        return found


def spelling_of(condition: str) -> str:
    """Returns a triple, or the words of a condition without those that Cargo leaves out where it
    prints one: the last comma of a list, and the `r#` of `r#true`."""
    if not condition.startswith("cfg("):
        return condition
    words: List[str] = []
    for word in WORD.findall(condition):
        if word == ")" and words[-1:] == [","]:
            words.pop()
        words.append(word)
    return " ".join(words)
