"""The values of conditions of code on targets.

A condition holds only where its guards hold, so what is asked is `all` of them. What a target is
says whether `unix`, `windows` and the keys `target_..` are true. Anything else may be set or not:
features, `test`, `debug_assertions`, `panic`, `target_feature`, and flags of any name. Equal
predicates have one value.
"""
import dataclasses
import enum
import itertools
import re
import sys
from typing import Dict, Iterable, Iterator, List, NamedTuple, Optional, Sequence, Tuple

from ..manifest._conditions import Unknown, Values, values_of
from ..manifest._platforms import Platform
from ..manifest._search import Budget
from ._model import Code, Condition, Group, Guard

# The keys whose values a target has by itself. Each has a value, and two are also flags.
FIXED = re.compile(
    r"unix|windows|unix=.*|windows=.*|target_has_atomic=.*"
    r"|target_(?:abi|arch|endian|env|family|os|pointer_width|vendor)(?:=.*)?", re.DOTALL
)
# How many characters one question may have.
MOST_CHARACTERS = 1 << 16
# How many characters all questions of a report may have: some, and several times those of the code,
# up to a number. A long guard is in the question of each condition inside of it.
LEAST_ALL, TIMES_CODE, MOST_ALL = 1 << 20, 4, 1 << 25
# How many guards around a condition are looked at. One inside of a thousand others, or the last of
# as many branches, has too many.
MOST_AROUND = 256
# Of how many items or branches it is asked whether two are taken.
MOST_COMPARED = 32


class Verdict(enum.Enum):
    """What a condition is on the chosen targets, where its guards hold."""

    FAULTY = "faulty"
    """rustc refuses it."""
    NOT_READ = "not read"
    """It cannot be told what it asks."""
    NEVER = "never"
    """It is false on each target, whatever is set."""
    ALWAYS = "always"
    """It is true on each target, whatever is set."""
    PLATFORMS = "platforms"
    """It is true on some targets and false on the others, whatever is set."""
    DEPENDS = "depends"
    """On a target it depends on features or flags."""
    NOT_TRIED = "not tried out"
    """A report tries a bounded number of values, and this takes more."""


@dataclasses.dataclass(frozen=True)
class Answer:
    """Whether something is so on each target."""

    on: Tuple[Optional[bool], ...]
    """The value on each target, or `None` if it depends on what is set."""
    unknown: Tuple[Tuple[Unknown, Tuple[int, ...]], ...] = ()
    """On what it depends, with the numbers of the targets."""

    @property
    def is_tried(self) -> bool:
        """Whether it was tried out on what each value depends."""
        return all(reason.is_tried for reason, _ in self.unknown)

    @property
    def is_never(self) -> bool:
        """Whether it is so on no target, whatever is set."""
        return all(value is False for value in self.on)


@dataclasses.dataclass(frozen=True)
class Row:
    """A condition, and what it is on the targets."""

    condition: Condition
    verdict: Verdict
    answer: Optional[Answer]
    """Whether it holds on each target, with its guards, or `None` if it has no text."""
    within: Optional[int]
    """The number of the outermost condition around it that never holds, if there is one."""
    is_partial: bool
    """Whether a guard of it was not read. Then it may hold on fewer targets."""


@dataclasses.dataclass(frozen=True)
class GroupRow:
    """What belongs together, and on which targets none or two of it are taken."""

    group: Group
    none: Optional[Answer]
    """Whether none is taken, or `None` if that is not told."""
    two: Optional[Answer]
    """Whether two items are there, or the conditions of two branches hold, of which the first is
    taken. It is `None` if that is not told."""


def is_open(text: str) -> bool:
    """Whether a predicate may be true on a target that has no such fact."""
    return FIXED.fullmatch(text) is None


def guard_texts(guard: Optional[Guard], outside: Optional[Guard] = None) -> Optional[List[str]]:
    """Returns what has to hold by a guard and those around it up to another one, from the outside
    in, each once. Those that were not read are left out. Returns `None` if they are too many or too
    long."""
    inside = itertools.takewhile(lambda one: one is not outside, [] if guard is None else guard.all)
    around = list(itertools.islice(inside, MOST_AROUND + 1))
    texts = [one.text for one in reversed(around) if one.text is not None]
    if len(around) > MOST_AROUND or sum(map(len, texts)) + len(around) > MOST_CHARACTERS:
        return None
    return list(dict.fromkeys(texts))


def is_whole(guard: Optional[Guard], outside: Optional[Guard] = None) -> bool:
    """Whether a guard and those around it up to another one were read, as far as they are looked
    at."""
    inside = itertools.takewhile(lambda one: one is not outside, [] if guard is None else guard.all)
    return all(one.text is not None for one in itertools.islice(inside, MOST_AROUND))


def all_of(texts: Sequence[str]) -> str:
    """Returns the condition that some hold."""
    return texts[0] if len(texts) == 1 else f"all({', '.join(texts)})"


class Questions:
    """Conditions that are asked at once, each once."""

    def __init__(self, platforms: Sequence[Platform], size: int) -> None:
        """`size` is how many characters the code has."""
        self._platforms = platforms
        self._budget = Budget()
        self._left = min(LEAST_ALL + TIMES_CODE * size, MOST_ALL)
        self._waiting: Dict[str, None] = {}
        self._answers: Dict[str, Answer] = {}
        # By what is printed of them: unlike a tuple, a text has a hash that nobody can choose.
        self._tuples: Dict[str, Tuple[Optional[bool], ...]] = {}

    def ask(self, texts: Sequence[str]) -> Optional[str]:
        """Takes the question whether all of some conditions hold, and returns its name, or `None`
        if it is too long by itself or with those before it."""
        if sum(map(len, texts)) > MOST_CHARACTERS:
            return None
        # Many conditions share a question, and it may be long.
        name = sys.intern(all_of(texts))
        if name not in self._waiting and name not in self._answers:
            if len(name) > MOST_CHARACTERS or len(name) > self._left:
                return None
            self._left -= len(name)
            self._waiting[name] = None
        return name

    def find(self) -> None:
        """Finds the answers to the questions that wait."""
        asked = [f"cfg({text})" for text in self._waiting]
        found = values_of(asked, self._platforms, self._budget, is_open)
        for text in self._waiting:
            self._answers[text] = self._answer_of(found[f"cfg({text})"])
        self._waiting = {}

    def _answer_of(self, values: Values) -> Answer:
        """Returns an answer. Equal values are one object."""
        on = self._tuples.setdefault(repr(values.on), values.on)
        return Answer(on, tuple(values.unknown.groups))

    def answer(self, name: Optional[str]) -> Optional[Answer]:
        """Returns the answer to a question by its name."""
        return None if name is None else self._answers.get(name)


class Judged:
    """Judges the conditions of a file, in three steps: `ask`, and when the answers are there
    `ask_always`, and when those are there `rows` and `group_rows`."""

    def __init__(self, code: Code, context: Sequence[str], questions: Questions) -> None:
        """`context` has what has to hold for the file to be compiled."""
        self._code = code
        self._context = list(context)
        self._questions = questions
        self._file: Optional[str] = None
        # The questions by the numbers of guards, which the code keeps, and by texts inside of them.
        self._inside: Dict[Tuple[int, str], Optional[str]] = {}
        self._asked: Dict[int, Optional[str]] = {}
        self._always: Dict[int, Optional[str]] = {}
        self._groups: List[Tuple[Optional[str], Optional[str]]] = []

    def ask(self) -> None:
        """Asks where each condition holds, and where none or two of a group are taken."""
        if self._context:
            self._file = self._questions.ask(self._context)
        for one in self._code.conditions:
            if one.text is not None:
                self._asked[one.number] = self._ask_inside(one.guard, one.text)
        self._groups = [self._ask_group(group) for group in self._code.groups]

    def ask_always(self) -> None:
        """Asks which conditions hold wherever their guards do."""
        for one in self._code.conditions:
            answer = self._questions.answer(self._asked.get(one.number))
            if answer is None or one.text is None or answer.is_never:
                continue
            if one.guard is not None or self._context:
                self._always[one.number] = self._ask_inside(one.guard, f"not({one.text})")

    def _ask_inside(self, guard: Optional[Guard], text: str) -> Optional[str]:
        """Asks whether a condition holds where a guard does, and returns the name of the
        question."""
        key = id(guard), text
        if key not in self._inside:
            texts = guard_texts(guard)
            self._inside[key] = None if texts is None else self._questions.ask(
                list(dict.fromkeys([*self._context, *texts, text]))
            )
        return self._inside[key]

    def file(self) -> Optional[Answer]:
        """Returns where the file is compiled, if that is told of it."""
        return self._questions.answer(self._file)

    def rows(self) -> Iterator[Row]:
        """Yields what each condition is."""
        never: Dict[int, int] = {}
        for one in self._code.conditions:
            within = self._within(one, never)
            answer = self._questions.answer(self._asked.get(one.number))
            verdict = self._verdict(one, answer)
            if verdict is Verdict.NEVER:
                never[one.number] = one.number if within is None else within
            yield Row(one, verdict, answer, within, not is_whole(one.guard))

    def _within(self, one: Condition, never: Dict[int, int]) -> Optional[int]:
        """Returns the number of the outermost condition that never holds around another."""
        around = itertools.islice([] if one.guard is None else one.guard.all, MOST_AROUND)
        # A `cfg` inside of `cfg_attr` that never holds may still let its item be there.
        found = (guard.number for guard in around
                 if guard.text == self._code.conditions[guard.number].text)
        return next((never[number] for number in found if number in never), None)

    def _verdict(self, one: Condition, answer: Optional[Answer]) -> Verdict:
        """Returns what a condition is."""
        if one.problem is not None:
            return Verdict.FAULTY if one.problem.reason.is_fault else Verdict.NOT_READ
        if answer is None:
            return Verdict.NOT_TRIED
        if answer.is_never:
            return Verdict.NEVER
        if all(answer.on):
            return Verdict.ALWAYS
        negated = self._questions.answer(self._always.get(one.number))
        if negated is not None and negated.is_never:
            return Verdict.ALWAYS
        if None not in answer.on:
            return Verdict.PLATFORMS
        return Verdict.DEPENDS if answer.is_tried else Verdict.NOT_TRIED

    def group_rows(self) -> Iterator[GroupRow]:
        """Yields on which targets none or two of each group are taken."""
        for group, (none, two) in zip(self._code.groups, self._groups):
            answer = self._questions.answer
            yield GroupRow(group, answer(none), answer(two))

    def _ask_group(self, group: Group) -> Tuple[Optional[str], Optional[str]]:
        """Asks where none and where two of a group are taken."""
        around, parts = guard_texts(group.guard), self._short_parts(group)
        if around is None or parts is None:
            return None, None
        known = [part for part in parts if part is not None]
        none = two = None
        around = [*self._context, *around]
        if not group.has_last and len(known) == len(parts):
            none = self._questions.ask([*around, *(f"not({part})" for part in known)])
        if 1 < len(known) <= MOST_COMPARED:
            pairs = itertools.combinations(known, 2)
            both = ", ".join(f"all({one}, {other})" for one, other in pairs)
            two = self._questions.ask([*around, f"any({both})"])
        return none, two

    def _short_parts(self, group: Group) -> Optional[List[Optional[str]]]:
        """Returns the parts of a group, or `None` if they are too long."""
        parts: List[Optional[str]] = []
        size = 0
        for part in self._parts(group):
            parts.append(part)
            size += len(part or "")
            if size > MOST_CHARACTERS:
                return None
        return parts

    def _parts(self, group: Group) -> Iterator[Optional[str]]:
        """Yields when each item or branch of a group is taken, beside the guard of the group, or
        `None` where that was not read."""
        for number in group.branches:
            yield self._code.conditions[number].text
        for item in group.items:
            texts = guard_texts(item.guard, group.guard)
            is_read = texts is not None and is_whole(item.guard, group.guard)
            yield all_of(texts or ["true"]) if texts is not None and is_read else None


class Judgement(NamedTuple):
    """What the conditions of a file are."""

    file: Optional[Answer]
    """Where the file is compiled, if that is told of it."""
    rows: List[Row]
    groups: List[GroupRow]


def judged(
    codes: Iterable[Code], contexts: Iterable[Sequence[str]], platforms: Sequence[Platform],
    size: int,
) -> Iterator[Judgement]:
    """Yields what the conditions of each file are on platforms, and where none or two of what
    belongs together are taken. A context has what has to hold for a file to be compiled. `size` is
    how many characters all files have."""
    questions = Questions(platforms, size)
    files = [Judged(code, context, questions) for code, context in zip(codes, contexts)]
    for one in files:
        one.ask()
    questions.find()
    for one in files:
        one.ask_always()
    questions.find()
    for one in files:
        yield Judgement(one.file(), list(one.rows()), list(one.group_rows()))
