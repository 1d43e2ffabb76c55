"""A report as text: each condition with its line, and a mark under it."""
import collections
import itertools
from typing import Dict, FrozenSet, Iterable, Iterator, List, Optional, Sequence, Tuple

from .._terminal import Colour, cells_of, coloured, shown, wrapped
from ..manifest._conditions import Unknown
from ..manifest._once import Once
from ..manifest._table import examples_of
from ._findings import name_of, shortened, told_of
from ._lexer import MARK
from ._model import Guard, Place
from ._names import CHOICES, NONE, TWO
from ._report import File, Report, counted, systems_of
from ._values import Answer, GroupRow, Row, Verdict, all_of

# How many characters of a line are shown before a mark, and at most.
BEFORE, MOST = 60, 160
# How many characters are told of what has to hold for a file. Those of `libc` have up to 1,440.
MOST_CONTEXT = 2000
# Up to how many targets each is named, and how many systems, guards and reasons are told.
MOST_TARGETS = 16
MOST_SYSTEMS, MOST_GUARDS, MOST_REASONS = 12, 8, 3
COLOURS = {
    Verdict.NEVER: Colour.RED, Verdict.FAULTY: Colour.RED, Verdict.ALWAYS: Colour.YELLOW,
    Verdict.NOT_READ: Colour.YELLOW, Verdict.NOT_TRIED: Colour.YELLOW,
}
COLUMNS = ("conditions", *(one.replace("-", " ") for one in CHOICES))


def choice_of(verdict: Verdict) -> str:
    """Returns the word for a verdict among the choices."""
    return {Verdict.NOT_TRIED: "not-tried"}.get(verdict, verdict.value.replace(" ", "-"))


class Lines:
    """The lines of a text, each found once."""

    def __init__(self, text: str) -> None:
        self._text = text
        self._number = 1
        # The mark of the byte order has no column.
        self._start = len(MARK) if text.startswith(MARK) else 0
        self._end = self._end_from(self._start)

    def _end_from(self, start: int) -> int:
        """Returns where the line ends that begins at a place."""
        end = self._text.find("\n", start)
        return end if end >= 0 else len(self._text)

    def length(self, number: int) -> int:
        """Returns how many characters the line with a number has, which is that of the last call or
        a later one."""
        while self._number < number:
            self._start = self._end + 1
            self._end = self._end_from(self._start)
            self._number += 1
        return self._end - self._start

    def part(self, first: int, last: int) -> str:
        """Returns a part of this line: from a number of characters on, up to another number."""
        return self._text[self._start + first:min(self._start + last, self._end)]


class Printer:
    """Prints a report."""

    def __init__(
        self, report: Report, only: Sequence[str], width: Optional[int], has_colours: bool
    ) -> None:
        self._report = report
        self._systems = systems_of(report.platforms)
        self._only = frozenset(only)
        self._width = width
        self._has_colours = has_colours
        # What is told of the conditions around a file, which is the same for all that stand in it.
        self._context_of: Once[Tuple[str, ...], str] = Once(
            lambda texts: shortened(all_of(texts), MOST_CONTEXT)
        )
        # Equal conditions share what is told of the flags on which they depend.
        self._reason_of: Once[Unknown, str] = Once(clause_of)

    def lines(self) -> Iterator[str]:
        """Yields the lines of all conditions and groups that were chosen, and a last one that
        counts them."""
        for file in self._report.files:
            yield from self._file_lines(file)
        yield counts_of(self._report)

    def _file_lines(self, file: File) -> Iterator[str]:
        """Yields the lines on a file."""
        rows: List[Tuple[Place, Optional[Row], Optional[GroupRow]]] = [
            (place_of(row), row, None) for row in chosen_rows(file, self._only)
        ]
        rows += [(row.group.place, None, row) for row in file.groups]
        source = Lines(file.text)
        for _, row, group in sorted(rows, key=lambda one: one[0].start):
            if row is not None:
                yield from self._row_lines(file, row, source)
            if group is not None:
                yield from self._group_lines(file, group, source)
        if file.code.unread is not None and file.code.unread_from is not None:
            place = file.code.unread_from
            yield shown(f"{file.path}:{place.line}:{place.column}: {file.code.unread}, and the rest"
                        " was not read")
            yield ""

    def _row_lines(self, file: File, row: Row, source: Lines) -> Iterator[str]:
        """Yields the lines on a condition."""
        place, word = place_of(row), row.verdict.value
        if self._has_colours and row.verdict in COLOURS:
            word = coloured(word, COLOURS[row.verdict])
        yield f"{shown(file.path)}:{place.line}:{place.column}: {word}"
        yield from marked(place, source)
        for note in self._notes(file, row):
            yield from wrapped(shown(f"    {note}"), self._width)
        yield ""

    def _notes(self, file: File, row: Row) -> Iterator[str]:
        """Yields sentences on a condition."""
        one = row.condition
        if one.problem is not None:
            yield one.problem.reason.value
        if row.answer is not None and row.verdict in (Verdict.PLATFORMS, Verdict.DEPENDS):
            yield from self._values(row.answer)
        if file.is_never:
            yield f"its file is compiled on no target: {self._context_of(file.context)}"
        elif row.within is not None:
            line = file.code.conditions[row.within].place.line
            yield f"it stands in what is never true, from line {line} on"
        elif one.guard is not None:
            yield f"inside of {guards_of(file, one.guard)}"
        if file.context and not file.is_never:
            yield f"its file is compiled where {self._context_of(file.context)}"
        if row.is_partial:
            yield "a condition around it was not read, so it may be true on fewer targets"
        if row.verdict is Verdict.NOT_TRIED:
            yield "it takes more tries than a report has"

    def _values(self, answer: Answer) -> Iterator[str]:
        """Yields sentences on where something is so, and on what it depends."""
        count = len(answer.on)
        if True in answer.on:
            yield f"true on {answer.on.count(True)} of {count}: {self._counts(answer, True)}"
        if None in answer.on:
            yield f"depends on {answer.on.count(None)} of {count}: {self._counts(answer, None)}"
        for reason, _ in answer.unknown[:MOST_REASONS]:
            yield self._reason_of(reason)
        if len(answer.unknown) > MOST_REASONS:
            yield f"and for {len(answer.unknown) - MOST_REASONS} other groups of targets"
        if False in answer.on:
            yield f"false on {answer.on.count(False)} of {count}: {self._counts(answer, False)}"

    def _counts(self, answer: Answer, value: Optional[bool]) -> str:
        """Returns the targets on which an answer has a value, if there are few targets, or else
        their systems. A system with other values too has the numbers."""
        if answer.on.count(value) == len(answer.on):
            return "each target"
        if len(answer.on) <= MOST_TARGETS:
            return ", ".join(platform.triple for platform, one
                             in zip(self._report.platforms, answer.on) if one is value)
        found = counted(answer, self._systems, value)
        words = [system if some == count else f"{system} ({some} of {count})"
                 for system, (some, count) in itertools.islice(found.items(), MOST_SYSTEMS)]
        left = len(found) - MOST_SYSTEMS
        return ", ".join(words) + (f" and {left} other systems" if left > 0 else "")

    def _told(self, row: GroupRow) -> Iterator[Tuple[str, Answer]]:
        """Yields what was chosen of a group: `none` or `two`, if that is so somewhere."""
        for what, answer in ((NONE, row.none), (TWO, row.two)):
            is_chosen = not self._only or what in self._only
            if answer is not None and is_chosen and not answer.is_never:
                yield what, answer

    def _group_lines(self, file: File, row: GroupRow, source: Lines) -> Iterator[str]:
        """Yields the lines on targets where none or two of a group are taken."""
        group = row.group
        for what, answer in self._told(row):
            told = f"{what} of {name_of(group)}"
            if self._has_colours and what == TWO and group.items:
                told = coloured(told, Colour.RED)
            yield f"{shown(file.path)}:{group.place.line}:{group.place.column}: {told}"
            yield from marked(group.place, source)
            for note in self._values(answer):
                if not note.startswith("false"):
                    yield from wrapped(shown(f"    {note}"), self._width)
            yield f"    {members_of(row, what)}"
            yield ""


def members_of(row: GroupRow, what: str) -> str:
    """Returns a sentence on the items or branches of a group."""
    group = row.group
    if group.items:
        places = ", ".join(str(item.place.line) for item in group.items[:MOST_GUARDS])
        is_more = " and others" if len(group.items) > MOST_GUARDS else ""
        return f"{len(group.items)} items, in the lines {places}{is_more}"
    if what == TWO:
        return "the conditions of two branches are true there, and the first one is taken"
    return f"{len(group.branches)} branches, and none for what is left"


def clause_of(reason: Unknown) -> str:
    """Returns a clause with flags on which something depends, and with examples."""
    return f"{shortened(', '.join(reason.flags))}: {shortened(examples_of(reason))}"


def place_of(row: Row) -> Place:
    """Returns the place of what is wrong with a condition, or of the condition."""
    problem = row.condition.problem
    return row.condition.place if problem is None else problem.place


def guards_of(file: File, guard: Guard) -> str:
    """Returns the guards around a condition, from the inside out."""
    texts = [f"{told_of(one)} (line {line_of(file, one)})"
             for one in itertools.islice(guard.all, MOST_GUARDS)]
    is_more = next(itertools.islice(guard.all, MOST_GUARDS, None), None) is not None
    return ", ".join(texts) + (" and others" if is_more else "")


def line_of(file: File, guard: Guard) -> int:
    """Returns the line of the condition of a guard."""
    return file.code.conditions[guard.number].place.line


def marked(place: Place, source: Lines) -> Iterator[str]:
    """Yields the line of a place, and a line with a mark under the place. Of a long line, a part
    is shown."""
    length, start = source.length(place.line), place.column - 1
    end = place.end_column - 1 if place.end_line == place.line else length
    first = max(0, start - BEFORE) if length > MOST else 0
    before, inside = shown(source.part(first, start)), source.part(start, min(end, start + MOST))
    number = str(place.line)
    yield f"{number} | {shown(source.part(first, first + MOST))}"
    mark = "^" * max(1, min(cells_of(shown(inside)), MOST - min(MOST, cells_of(before))))
    yield f"{' ' * len(number)} | {' ' * cells_of(before)}{mark}"


def counts_in(files: Iterable[File]) -> Dict[str, int]:
    """Returns how many conditions of files are what, and of how many groups none or two are taken
    somewhere."""
    found: Dict[str, int] = collections.Counter()
    for file in files:
        found[COLUMNS[0]] += len(file.rows)
        for row in file.rows:
            found[choice_of(row.verdict)] += 1
        for group in file.groups:
            for what, answer in ((NONE, group.none), (TWO, group.two)):
                found[what] += answer is not None and not answer.is_never
    return found


def counts_of(report: Report) -> str:
    """Returns a line that counts what is in a report."""
    counts = counts_in(report.files)
    told = [f"{counts[one]} {one.replace('-', ' ')}" for one in CHOICES if counts[one] > 0]
    passed = f"; {len(report.passed)} passed over" if report.passed else ""
    numbers = ((len(report.platforms), "target"), (report.count, "file"),
               (counts[COLUMNS[0]], "condition"))
    front = "; ".join(f"{one} {name}" if one == 1 else f"{one} {name}s" for one, name in numbers)
    return f"{front}: {', '.join(told) or 'none'}{passed}"


def summary_lines(report: Report) -> Iterator[str]:
    """Yields a table with the numbers for each file, and a last line with those of all."""
    rows = [(shown(file.path), counts_in([file])) for file in report.files]
    total = counts_in(report.files)
    used = [one for one in (COLUMNS[0], *CHOICES) if total[one] > 0 or one == COLUMNS[0]]
    grid = [["file", *(one.replace("-", " ") for one in used)]]
    grid += [[path, *(str(counts[one]) for one in used)] for path, counts in rows]
    widths = [max(map(cells_of, column)) + 2 for column in zip(*grid)]
    for cells in grid:
        padded = (cell + " " * (width - cells_of(cell)) for cell, width in zip(cells, widths))
        yield "".join(padded).rstrip()
    yield ""
    yield counts_of(report)


def chosen_rows(file: File, only: FrozenSet[str]) -> List[Row]:
    """Returns the conditions of a file that were chosen."""
    return [row for row in file.rows if not only or choice_of(row.verdict) in only]
