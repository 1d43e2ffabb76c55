"""The conditions of a file as rustc sees them, for the tests of `cfgx.code`.

`rustc -Zunpretty=ast-tree` prints its own tree of a file, with the tokens that attributes and
macros have. What is read of it is where the tokens stand, which of them are attributes, and which
are calls of macros. So nothing here says where a token, a string or a comment begins or ends.
"""
import os
import re
import subprocess
from typing import Dict, Iterator, List, NamedTuple, Optional, Tuple

NAME = "judged.rs"
SPAN = rf"{re.escape(NAME)}:(\d+):(\d+): (\d+):(\d+)"
LINE = re.compile(rf" *(?:span|open|close): {SPAN} \(#\d+\),$")
Place = Tuple[int, int]


class Seen(NamedTuple):
    """A condition that rustc sees."""

    form: str
    is_inner: bool
    start: Place
    """The line and the column of its first token, from 1 on."""
    end: Place
    """Those behind its last token."""
    tokens: Tuple[str, ...]
    """Its tokens, as they are written."""


def tree_of(data: bytes, folder: str) -> Optional[str]:
    """Returns the tree of a file, or `None` if rustc does not parse it in one of two editions."""
    with open(os.path.join(folder, NAME), "wb") as file:
        file.write(data)
    for edition in ("2021", "2015"):
        run = subprocess.run(
            ["rustc", "-Zunpretty=ast-tree", "--edition", edition, NAME], cwd=folder,
            env={**os.environ, "RUSTC_BOOTSTRAP": "1"}, stdout=subprocess.PIPE,
            stderr=subprocess.PIPE, check=False,
        )
        if run.returncode == 0:
            return run.stdout.decode()
    return None


class Source:
    """A text by lines and columns, as rustc counts them."""

    def __init__(self, data: bytes) -> None:
        text = data.decode()
        self._lines = (text[1:] if text.startswith("\ufeff") else text).split("\n")

    def between(self, start: Place, end: Place) -> str:
        """Returns what stands between two places."""
        if start[0] == end[0]:
            return self._lines[start[0] - 1][start[1] - 1:end[1] - 1]
        middle = self._lines[start[0]:end[0] - 1]
        first, last = self._lines[start[0] - 1][start[1] - 1:], self._lines[end[0] - 1][:end[1] - 1]
        return "\n".join([first, *middle, last])


Piece = Tuple[Place, Place, str]


# What a line of the tree begins, of which a span is told below, and what the last such line began.
BEGINNING = (
    ("Token {", "token"), ("DelimSpan {", "delimiter"), ("dspan: DelimSpan {", "delimiter"),
    ("style: Inner", "inner"), ("style: Outer", "outer"),
)


class Pieces:
    """The tokens of attributes and macros. An attribute begins with a token that is `#[` or `#![`,
    and the call of a macro with one such as `cfg!`."""

    def __init__(self, tree: str, source: Source) -> None:
        self._source = source
        self._found: Dict[Place, Piece] = {}
        last = ""
        for line in tree.splitlines():
            stripped = line.lstrip(" ")
            spans = LINE.match(line)
            if spans is not None:
                one, two, three, four = map(int, spans.groups())
                self._add(last, (one, two), (three, four))
                last = last if last == "delimiter" else ""
            else:
                last = began(stripped, last)

    def all(self) -> List[Piece]:
        """Returns them in the order of the text."""
        return [self._found[place] for place in sorted(self._found)]

    def _add(self, what: str, start: Place, end: Place) -> None:
        """Adds what has a span."""
        text = self._source.between(start, end)
        if what in ("inner", "outer"):
            closing = (end[0], end[1] - 1)
            self._found[start] = (start, end, "#![" if what == "inner" else "#[")
            self._found[closing] = (closing, end, "]")
        elif what in ("token", "delimiter", "attribute path") and text:
            self._found.setdefault(start, (start, end, text))
        elif what == "macro path":
            name = text.rpartition("::")[2]
            place = (end[0], end[1] - len(name))
            if "\n" not in name:
                name = re.sub("^r#", "", name.strip())
                self._found[place] = (place, end, f"{name}!")


def began(line: str, last: str) -> str:
    """Returns what a line of the tree begins of which a span is told below, or else what the line
    before did, as far as it still counts."""
    for start, what in BEGINNING:
        if line.startswith(start):
            return what
    if "AttrItem {" in line:
        return "attribute"
    if "MacCall {" in line:
        return "macro"
    if line.startswith("path: Path {"):
        return {"attribute": "attribute path", "macro": "macro path"}.get(last, "")
    return "" if last == "delimiter" and line.startswith("}") else last


OPENING, CLOSING = "([{", ")]}"


class Judge:
    """Finds the conditions in the tokens of rustc."""

    def __init__(self, pieces: List[Piece]) -> None:
        self._pieces = pieces
        self._ends = self._matched()

    def _text(self, number: int) -> str:
        return self._pieces[number][2] if number < len(self._pieces) else ""

    def _matched(self) -> Dict[int, int]:
        """Returns where each group ends, by the number of its first token."""
        ends: Dict[int, int] = {}
        opened: List[int] = []
        for number, (_, _, text) in enumerate(self._pieces):
            if text in ("#[", "#![") or text in OPENING and len(text) == 1:
                opened.append(number)
            elif text in CLOSING and len(text) == 1 and opened:
                ends[opened.pop()] = number
        return ends

    def seen(self) -> List[Seen]:
        """Returns the conditions, in the order of the text."""
        found: List[Seen] = []
        branches = set()
        for number in range(len(self._pieces)):
            text = self._text(number)
            if text in ("#[", "#!["):
                found += self._attribute(number + 1, "!" in text, "cfg")
            elif text == "#" and self._text(number + 1) == "[":
                form = "cfg_if!" if number in branches else "cfg"
                found += self._attribute(number + 2, False, form)
            elif text == "#" and self._text(number + 1) == "!" and self._text(number + 2) == "[":
                found += self._attribute(number + 3, True, "cfg")
            name, behind = self._macro(number)
            if name == "cfg" and behind in self._ends:
                found.append(self._between("cfg!", False, behind + 1, self._ends[behind]))
            elif name == "cfg_if" and behind in self._ends:
                branches.update(self._branches(behind))
            elif name == "cfg_select" and behind in self._ends:
                found += self._select(behind + 1, self._ends[behind])
        return sorted(found, key=lambda one: (one.start, one.end))

    def _macro(self, number: int) -> Tuple[str, int]:
        """Returns the name of a macro that is called, and the number of the token behind it."""
        text = re.sub("^r#", "", self._text(number))
        if text.endswith("!") and len(text) > 1:
            return text[:-1], number + 1
        return (text, number + 2) if self._text(number + 1) == "!" else ("", 0)

    def _between(self, form: str, is_inner: bool, first: int, last: int) -> Seen:
        """Returns the condition that has the tokens from one on up to another."""
        pieces = self._pieces[first:last]
        # A comma behind a condition is none of its tokens.
        pieces = pieces[:-1] if len(pieces) > 1 and pieces[-1][2] == "," else pieces
        start = pieces[0][0] if pieces else self._pieces[last][0]
        end = pieces[-1][1] if pieces else self._pieces[last][0]
        return Seen(form, is_inner, start, end, tuple(text for _, _, text in pieces))

    def _items(self, first: int, last: int) -> Iterator[Tuple[int, int]]:
        """Yields where the items of a list with commas begin and end."""
        number = start = first
        while number < last:
            if self._text(number) == ",":
                yield start, number
                start = number + 1
            number = self._ends.get(number, number) + 1
        if start < last:
            yield start, last

    def _attribute(self, number: int, is_inner: bool, form: str) -> Iterator[Seen]:
        """Yields the conditions of an attribute whose name has a number."""
        name = re.sub("^r#", "", self._text(number))
        if self._text(number + 1) != "(" or name not in ("cfg", "cfg_attr"):
            return
        last = self._ends[number + 1]
        if name == "cfg":
            yield self._between(form, is_inner, number + 2, last)
            return
        items = list(self._items(number + 2, last))
        if items:
            yield self._between("cfg_attr", is_inner, *items[0])
        for start, _ in items[1:]:
            yield from self._attribute(start, is_inner, "cfg")

    def _branches(self, number: int) -> Iterator[int]:
        """Yields the numbers of the `#` at the branches of a `cfg_if!`."""
        number += 1
        while self._text(number) == "if" and self._text(number + 1) == "#":
            yield number + 1
            body = self._ends[number + 2] + 1
            if self._text(body) != "{" or self._text(self._ends[body] + 1) != "else":
                return
            number = self._ends[body] + 2

    def _select(self, number: int, last: int) -> Iterator[Seen]:
        """Yields the conditions of the branches of a `cfg_select!`. A branch has braces."""
        while number < last:
            start = number
            while number < last and self._text(number) != "=>":
                number = self._ends.get(number, number) + 1
            if self._text(start) == "_" or number >= last:
                return
            yield self._between("cfg_select!", False, start, number)
            number = self._ends.get(number + 1, number) + 1
            number += self._text(number) == ","


def conditions_in(data: bytes, folder: str) -> Optional[List[Seen]]:
    """Returns the conditions that rustc sees in a file, or `None` if it does not parse it. Writes
    the file into a folder."""
    tree = tree_of(data, folder)
    return None if tree is None else Judge(Pieces(tree, Source(data)).all()).seen()
