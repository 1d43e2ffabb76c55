"""What is found in a report."""
from typing import Iterator, NamedTuple, Tuple

from .._terminal import CUT, shown
from ._model import Condition, Group, Guard, Place
from ._names import FAULTY, NEVER, OVERLAP
from ._report import File, Report
from ._values import GroupRow, Row, Verdict

# How many characters are told of what may be long and stands at many conditions.
MOST_TOLD = 400


class Finding(NamedTuple):
    """What is found at a place."""

    name: str
    """What it is: `never`, `faulty` or `overlap`."""
    path: str
    """The path of the file."""
    place: Place
    """Where it is found."""
    condition: str
    """The condition as it is written, or its beginning if it is a long one, or the names of the
    items."""
    text: str
    """What is found, in a sentence."""
    related: Tuple[Place, ...] = ()
    """Other places that belong to it."""


def findings_in(report: Report, most: int) -> Iterator[Finding]:
    """Yields what is found in a report, in the order of files and places. Of conditions as they are
    written, each has this many characters at most: there may be many inside of one another."""
    for file in report.files:
        source = file.text.encode()
        found = [one for row in file.rows for one in of_row(file, row, source, most)]
        found += [one for row in file.groups for one in of_group(file, row)]
        yield from sorted(found, key=lambda one: one.place.start)


def of_row(file: File, row: Row, source: bytes, most: int) -> Iterator[Finding]:
    """Yields what is found of a condition. Inside of what is never true nothing is found, as rustc
    does not read it."""
    one = row.condition
    if row.within is not None or file.is_never:
        return
    text = written(source, one.place, most)
    if row.verdict is Verdict.FAULTY and one.problem is not None:
        told = f"rustc refuses this condition: {one.problem.reason.value}"
        yield Finding(FAULTY, file.path, one.problem.place, text, told)
    if row.verdict is Verdict.NEVER:
        yield Finding(NEVER, file.path, one.place, text, f"never true: {one.text}{around(one)}")


def of_group(file: File, row: GroupRow) -> Iterator[Finding]:
    """Yields what is found of items with one name."""
    group = row.group
    if group.items and row.two is not None and not row.two.is_never and row.two.is_tried:
        *_, last = places = [item.place for item in group.items]
        text = f"{name_of(group)} may be there twice"
        if True in row.two.on:
            text = f"{name_of(group)} is there twice"
        yield Finding(OVERLAP, file.path, last, name_of(group), text, tuple(places[:-1]))


def written(source: bytes, place: Place, most: int) -> str:
    """Returns what is written at a place of a file, up to a number of characters."""
    # A character has four bytes at most, and the last one may be cut.
    data = source[place.start:min(place.end, place.start + 4 * most)]
    return data.decode(errors="ignore")[:most]


def around(one: Condition) -> str:
    """Returns what tells the condition around another one, or nothing."""
    if one.guard is None:
        return ""
    return f", inside of {told_of(one.guard)}"


def told_of(guard: Guard) -> str:
    """Returns what is told of a guard."""
    return "what was not read" if guard.text is None else shortened(guard.text)


def shortened(text: str, most: int = MOST_TOLD) -> str:
    """Returns a text, or the beginning of one that has more than a number of characters."""
    return text if len(text) <= most else text[:most] + CUT


def name_of(group: Group) -> str:
    """Returns the name of what belongs together."""
    if group.form is not None:
        return group.form.value
    kinds = dict.fromkeys(item.kind for item in group.items)
    return f"{'/'.join(kinds)} {group.items[0].name}"


def line_of(finding: Finding) -> str:
    """Returns a line on a finding."""
    place = finding.place
    return shown(f"{finding.path}:{place.line}:{place.column}: {finding.name}: {finding.text}")
