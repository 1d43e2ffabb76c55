"""A report for programs."""
import itertools
import json
import os
from typing import Any, Callable, Dict, Iterable, Iterator, List, Optional, Sequence, Tuple

from .. import __version__, _sarif
from .._sarif import Level, Region, Rule, Tool
from .._terminal import shown
from ..manifest._once import Once
from ._findings import Finding, name_of
from ._model import Guard, Place
from ._names import CHOICES, FAULTY, NEVER, OVERLAP
from ._report import File, Report
from ._text import chosen_rows, choice_of, counts_in
from ._values import Answer, GroupRow, Row

# The version of the form of the JSON. A later one may have more members.
VERSION = 1
NAME = "cfgx-code"
WORDS = {True: "yes", False: "no", None: "unknown"}
RULES = (
    Rule(NEVER, "The condition is true on none of the targets, whatever is set.", Level.WARNING),
    Rule(FAULTY, "rustc refuses the condition.", Level.ERROR),
    Rule(OVERLAP, "Items with one name in a scope are there at once on a target.", Level.WARNING),
)
LEVELS = {rule.name: rule.level for rule in RULES}
HEAD = ("path", "line", "column", "form", "is", "yes", "no", "unknown", "within", "condition")
# What makes the words for the values of an answer.
Answered = Callable[[Tuple[Optional[bool], ...]], List[str]]


class Shared:
    """What conditions of a file share: the guards around them, and answers. Each is told once, and
    elsewhere by its place in one of these lists."""

    def __init__(self, answered: Answered) -> None:
        self.guards: List[Dict[str, Any]] = []
        self.answers: List[Dict[str, Any]] = []
        self._answered = answered
        # The places of guards by the numbers of these objects, which the report keeps.
        self._places: Dict[int, int] = {}
        self._place_of = Once(self._listed)

    def guard(self, guard: Optional[Guard]) -> Optional[int]:
        """Returns the place of a guard. Those around it stand in front of it."""
        around: Iterable[Guard] = [] if guard is None else guard.all
        new = list(itertools.takewhile(lambda one: id(one) not in self._places, around))
        for one in reversed(new):
            outer = None if one.outer is None else self._places[id(one.outer)]
            self._places[id(one)] = len(self.guards)
            self.guards.append({"condition": one.text, "number": one.number, "outer": outer})
        return None if guard is None else self._places[id(guard)]

    def answer(self, answer: Optional[Answer]) -> Optional[int]:
        """Returns the place of an answer."""
        return None if answer is None else self._place_of(answer)

    def _listed(self, answer: Answer) -> int:
        """Adds an answer to the list, and returns its place."""
        unknown = [
            {"targets": list(places), "flags": list(reason.flags), "if_yes": reason.if_yes,
             "if_no": reason.if_no}
            for reason, places in answer.unknown
        ]
        self.answers.append({"values": self._answered(answer.on), "unknown": unknown})
        return len(self.answers) - 1


def json_of(report: Report, only: Sequence[str], is_summary: bool) -> Iterator[str]:
    """Yields the lines of one object of JSON, which is ASCII. Each file is a line."""
    targets = [platform.triple for platform in report.platforms]
    yield f'{{"version": {VERSION},'
    yield f'"targets": {json.dumps(targets)},'
    yield '"files": ['
    answered: Answered = Once(values_of)
    for number, file in enumerate(report.files, 1):
        entry = summary_entry(file) if is_summary else file_entry(file, only, answered)
        yield json.dumps(entry) + ("," if number < len(report.files) else "")
    passed = [{"path": one.path, "reason": one.reason} for one in report.passed]
    yield f'], "count": {report.count}, "passed": {json.dumps(passed)},'
    yield f'"tried": {json.dumps(report.is_tried)}}}'


def summary_entry(file: File) -> Dict[str, Any]:
    """Returns the object of a file with numbers."""
    counts = counts_in([file])
    return {"path": file.path, "counts": {one: counts[one] for one in ("conditions", *CHOICES)}}


def file_entry(file: File, only: Sequence[str], answered: Answered) -> Dict[str, Any]:
    """Returns the object of a file."""
    unread: Optional[Dict[str, Any]] = None
    if file.code.unread is not None and file.code.unread_from is not None:
        unread = {"message": file.code.unread, **place_members(file.code.unread_from)}
    shared, rows = Shared(answered), chosen_rows(file, frozenset(only))
    return {
        "path": file.path, "context": list(file.context), "unread": unread,
        "conditions": [row_entry(row, shared) for row in rows],
        "groups": [group_entry(row, shared) for row in file.groups],
        "guards": shared.guards, "answers": shared.answers,
    }


def row_entry(row: Row, shared: Shared) -> Dict[str, Any]:
    """Returns the object of a condition."""
    one = row.condition
    problem: Optional[Dict[str, Any]] = None
    if one.problem is not None:
        problem = {"reason": one.problem.reason.name, "message": one.problem.reason.value,
                   **place_members(one.problem.place)}
    return {
        "number": one.number, "form": one.form.value, "inner": one.is_inner,
        **place_members(one.place), "condition": one.text, "is": choice_of(row.verdict),
        "within": row.within, "partial": row.is_partial, "problem": problem,
        "guard": shared.guard(one.guard), "answer": shared.answer(row.answer),
    }


def group_entry(row: GroupRow, shared: Shared) -> Dict[str, Any]:
    """Returns the object of what belongs together."""
    group = row.group
    return {
        "name": name_of(group), "line": group.place.line, "column": group.place.column,
        "branches": list(group.branches), "last": group.has_last,
        "items": [{"kind": item.kind, "name": item.name, **place_members(item.place)}
                  for item in group.items],
        "none": shared.answer(row.none), "two": shared.answer(row.two),
    }


def place_members(place: Place) -> Dict[str, Any]:
    """Returns the members of a place."""
    return dict(place._asdict())


def values_of(on: Tuple[Optional[bool], ...]) -> List[str]:
    """Returns the words for values."""
    return [WORDS[value] for value in on]


def tsv_of(report: Report, only: Sequence[str], is_summary: bool) -> Iterator[str]:
    """Yields lines whose cells stand between tabs, the head first."""
    if is_summary:
        columns = ("conditions", *CHOICES)
        yield "\t".join(("path", *columns))
        for file in report.files:
            counts = counts_in([file])
            yield "\t".join([shown(file.path), *(str(counts[one]) for one in columns)])
        return
    yield "\t".join(HEAD)
    for file in report.files:
        yield from (tabbed(file, row) for row in chosen_rows(file, frozenset(only)))


def tabbed(file: File, row: Row) -> str:
    """Returns the line of a condition."""
    one = row.condition
    on = () if row.answer is None else row.answer.on
    counts = (str(on.count(value)) for value in (True, False, None))
    within = "" if row.within is None else str(file.code.conditions[row.within].place.line)
    cells = (file.path, str(one.place.line), str(one.place.column), one.form.value,
             choice_of(row.verdict), *counts, within, one.text or "")
    return "\t".join(map(shown, cells))


def sarif_of(
    report: Report, findings: Iterable[Tuple[Finding, Optional[str]]]
) -> Iterator[str]:
    """Yields the lines of what is found, in SARIF."""
    base = _sarif.base_of([os.path.abspath(file.path) for file in report.files])
    notes = [shown(f"{one.path} was passed over: {one.reason}") for one in report.passed]
    run = _sarif.Run("the folder that has each file", report.is_tried, notes)

    def place_of(path: str, place: Place) -> _sarif.Place:
        relative = os.path.relpath(os.path.abspath(path), base)
        region = Region(place.line, place.column, place.end_line, place.end_column)
        return _sarif.Place(relative, region)

    yield from _sarif.lines_of(Tool(NAME, __version__, RULES), run, (
        _sarif.Finding(
            one.name, LEVELS[one.name], shown(one.text), place_of(one.path, one.place),
            [place_of(one.path, other) for other in one.related], reason,
        )
        for one, reason in findings
    ))
