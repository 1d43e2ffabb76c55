"""The files of Rust below folders, which somebody else put there.

Nothing of them is run. What a link leads to is passed over if it is outside of the folder where
the search began, and so is what cannot be read.
"""
import os
from typing import Iterable, Iterator, List, NamedTuple, Set, Tuple, Union

from .. import _files
from ._errors import RequestError

END = ".rs"
# The bytes that a file may have which is read.
MOST_BYTES = 1 << 24
# A folder with this file holds what a build made, and no code that somebody wrote.
MADE = "CACHEDIR.TAG"
HIDDEN = "."


class Passed(NamedTuple):
    """A file or a folder that was passed over."""

    path: str
    reason: str
    """Why, in a few words."""


class Source(NamedTuple):
    """A file that was read."""

    path: str
    text: str


Entry = Union[Source, Passed]


def sources_in(paths: Iterable[str]) -> Iterator[Entry]:
    """Yields the files at paths and below folders, each once and in the order of their names, and
    what was passed over. Raises `RequestError` for a path where nothing is."""
    seen: Set[str] = set()
    for path in paths:
        if not os.path.lexists(path):
            raise RequestError(f"there is no {path}")
        found = below(path) if os.path.isdir(path) else iter([path])
        for one in found:
            if isinstance(one, Passed):
                yield one
                continue
            real = os.path.realpath(one)
            if real not in seen:
                seen.add(real)
                yield read(one)


def read(path: str) -> Entry:
    """Returns the text of a file, or why it was passed over."""
    try:
        return Source(path, _files.bytes_of(path, MOST_BYTES).decode())
    except UnicodeDecodeError:
        return Passed(path, "it is not UTF-8")
    except OSError as error:
        return Passed(path, error.strerror or str(error))


def below(folder: str) -> Iterator[Union[str, Passed]]:
    """Yields the paths of files of Rust below a folder, and what was passed over."""
    top = os.path.join(os.path.realpath(folder), "")
    seen: Set[Tuple[int, int]] = set()
    waiting = [folder]
    while waiting:
        here = waiting.pop()
        try:
            found = os.stat(here)
            if (found.st_dev, found.st_ino) in seen:
                continue
            seen.add((found.st_dev, found.st_ino))
            names = sorted(os.listdir(here))
        except OSError as error:
            yield Passed(here, error.strerror or str(error))
            continue
        if MADE in names and here != folder:
            continue
        folders: List[str] = []
        for name in names:
            path = name if here == os.curdir else os.path.join(here, name)
            is_folder = os.path.isdir(path)
            if is_folder and name.startswith(HIDDEN) or not is_folder and not name.endswith(END):
                continue
            real = os.path.join(os.path.realpath(path), "")
            if os.path.islink(path) and not real.startswith(top):
                yield Passed(path, "a link leads out of the folder")
            elif is_folder:
                folders.append(path)
            else:
                yield path
        waiting += reversed(folders)
