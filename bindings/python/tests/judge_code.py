"""Compares what `cfgx.code` reads with what rustc sees, of files and of code that is made.

python3 -m tests.judge_code FOLDER..       compares each file of Rust below folders
python3 -m tests.judge_code --made COUNT   compares as many files that are made at random

Run in `bindings/python`. Prints each difference, and how many files and conditions were compared.
It takes minutes, so the tests compare only some that are made.
"""
import os
import sys
import tempfile
from concurrent.futures import ThreadPoolExecutor
from typing import Iterator, List, NamedTuple, Optional

from . import ROOT  # noqa: F401
from .made_code import file_of
from .rustc_tree import Seen, conditions_in

from cfgx.code import read


class Compared(NamedTuple):
    """What was compared of a file."""

    name: str
    count: Optional[int]
    """How many conditions rustc sees, or `None` if it does not parse the file."""
    missed: List[Seen]
    invented: List[Seen]


def read_of(data: bytes) -> List[Seen]:
    """Returns the conditions that are read of a file, as those that rustc sees."""
    return [
        Seen(one.form.value, one.is_inner, one.place[:2], one.place[2:4],
             (data[one.place.start:one.place.end].decode(),))
        for one in read(data.decode()).conditions
    ]


def compared(name: str, data: bytes) -> Compared:
    """Compares a file."""
    with tempfile.TemporaryDirectory() as folder:
        seen = conditions_in(data, folder)
    if seen is None:
        return Compared(name, None, [], [])
    wanted = [(one.form, one.is_inner, one.start, one.end) for one in seen]
    found = [(one.form, one.is_inner, one.start, one.end) for one in read_of(data)]
    if wanted == found:
        return Compared(name, len(seen), [], [])
    return Compared(
        name, len(seen),
        [one for one, what in zip(seen, wanted) if what not in found] or seen[:1],
        [one for one, what in zip(read_of(data), found) if what not in wanted],
    )


def files_in(folders: List[str]) -> Iterator[str]:
    """Yields the files of Rust below folders."""
    for top in folders:
        for folder, _, names in os.walk(top):
            yield from (os.path.join(folder, one) for one in names if one.endswith(".rs"))


def bytes_of(path: str) -> bytes:
    """Returns what a file has."""
    with open(path, "rb") as file:
        return file.read()


def main(words: List[str]) -> int:
    """Compares what the words name, and returns the status."""
    with ThreadPoolExecutor(os.cpu_count()) as threads:
        if words[:1] == ["--made"]:
            names = range(int(words[1]))
            found = threads.map(lambda seed: compared(str(seed), file_of(seed).encode()), names)
        else:
            paths = sorted(files_in(words))
            found = threads.map(lambda path: compared(path, bytes_of(path)), paths)
        files = conditions = different = unparsed = 0
        for one in found:
            files += 1
            conditions += one.count or 0
            unparsed += one.count is None
            if one.missed or one.invented:
                different += 1
                print(f"{one.name}: missed {one.missed}, invented {one.invented}")
    print(f"{files} files, of which rustc does not parse {unparsed}; {conditions} conditions;"
          f" {different} files differ")
    return 1 if different or conditions == 0 else 0


if __name__ == "__main__":
    sys.exit(main(sys.argv[1:]))
