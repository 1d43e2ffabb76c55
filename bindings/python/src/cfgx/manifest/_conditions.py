"""The values of conditions as Cargo finds them.

Cargo compares texts: a predicate is true if rustc prints its text, or if a flag is this text. It
drops the `r#` of a key before, and so `r#true` is the literal. In a condition, this module puts a
predicate with the number of the text in the place of each text, and the engine evaluates this. So
it need not accept what Cargo accepts, such as `unix = "x"`.
"""
import array
import dataclasses
import itertools
import re
from typing import (
    Any, Callable, Dict, FrozenSet, Iterable, Iterator, List, Mapping, NamedTuple, Optional,
    Sequence, Tuple, Union,
)

from .. import _library
from .._error import Reason, told
from .._expression import Kind
from ._errors import CargoError
from ._flags import KEY, LITERALS, text_of
from ._platforms import Platform
from ._search import (
    BEGIN_EACH, FALSE, LISTED, TRUE, UNKNOWN, Budget, Example, Search, SpentError,
)

# A word of a condition as Cargo prints it, with its value. What a function begins is no predicate.
WORD = re.compile(rf'{KEY}(?: = ("[^"]*"))?(\()?')
CONDITION = re.compile(r"cfg\((.*)\)", re.DOTALL)
# What stands for a text by its number. If no fact names it, it is unknown or false.
SETTABLE, FIXED = 'p = "{}"', 'target_abi = "{}"'
SETTABLE_KINDS = (Kind.FLAG.value, Kind.KEY_VALUE.value)


@dataclasses.dataclass(frozen=True)
class Fault:
    """Why the engine refuses a condition that Cargo accepts."""

    reason: Reason
    """What is wrong."""
    span: Tuple[int, int]
    """The characters of the condition at fault: from the first number up to but not including the
    second."""


@dataclasses.dataclass(frozen=True)
class Unknown:
    """Why a value is unknown."""

    flags: Tuple[str, ...]
    """The flags of the condition that may be set, as `rustc --cfg` takes them, each once and in
    order."""
    if_yes: Optional[Dict[str, bool]]
    """Whether some of the flags are set, with which the condition is true. Other answers may make
    it true as well. It is `None` if it was not tried out whether there are such answers."""
    if_no: Optional[Dict[str, bool]]
    """The same for a condition that is false."""

    @property
    def is_tried(self) -> bool:
        """Whether the value was tried out, so that it is known to depend on the flags. A report
        tries a bounded number of answers."""
        return self.if_yes is not None and self.if_no is not None


class Reasons(Mapping[int, Unknown]):
    """Why values of a row are unknown, by the numbers of the platforms. Many platforms share a
    reason, and many rows the numbers."""

    __slots__ = ("groups",)

    def __init__(self, groups: Sequence[Tuple[Unknown, Tuple[int, ...]]] = ()) -> None:
        """Each group is a reason, and the numbers of the platforms that have it."""
        self.groups = tuple(groups)

    def __getitem__(self, place: int) -> Unknown:
        for reason, places in self.groups:
            if place in places:
                return reason
        raise KeyError(place)

    def __iter__(self) -> Iterator[int]:
        return iter(sorted(itertools.chain.from_iterable(places for _, places in self.groups)))

    def __len__(self) -> int:
        return sum(len(places) for _, places in self.groups)

    def __repr__(self) -> str:
        return f"Reasons({list(self.groups)!r})"

    def on(self, host: bool, target: bool) -> "Reasons":
        """Returns the reasons on the platforms of some sides. The first platform is the host, and
        the others are targets."""
        chosen = [(reason, places_on(places, host, target)) for reason, places in self.groups]
        return Reasons([(reason, places) for reason, places in chosen if places])


def places_on(places: Tuple[int, ...], host: bool, target: bool) -> Tuple[int, ...]:
    """Returns those of some numbers in order that are 0, if it is for the host, and the others, if
    they are for the target."""
    targets = places[1:] if places[0] == 0 else places
    if places[0] == 0 and host:
        return places if target else (0,)
    return targets if target else ()


NO_REASONS = Reasons()


def groups_in(unknown: Mapping[int, Unknown]) -> Sequence[Tuple[Unknown, Sequence[int]]]:
    """Returns each reason once, with the numbers of the platforms that have it."""
    if isinstance(unknown, Reasons):
        return unknown.groups
    found: Dict[int, Tuple[Unknown, List[int]]] = {}
    for place, reason in unknown.items():
        found.setdefault(id(reason), (reason, []))[1].append(place)
    return list(found.values())


@dataclasses.dataclass(frozen=True)
class Values:
    """The values of a condition."""

    on: Tuple[Optional[bool], ...]
    """The value on each platform, or `None` if it is unknown."""
    unknown: Reasons = dataclasses.field(default_factory=lambda: NO_REASONS)
    """Why it is unknown, by the number of the platform."""
    fault: Optional[Fault] = None
    """Why the engine refuses the condition, if it does."""


class Condition(NamedTuple):
    """A condition, of which the engine is asked."""

    text: bytes
    """The condition, with what stands for the texts."""
    steps: Any
    """Its steps."""
    asked: Sequence[int]
    """The numbers of the texts that it asks, in order."""


class Texts:
    """The texts that conditions compare, each with its number."""

    def __init__(self, is_open: Callable[[str], bool]) -> None:
        """`is_open` tells whether a text may be set on a platform that has no such fact."""
        self.numbers: Dict[str, int] = {}
        self.names: List[str] = []
        # The answer to each text on a platform that has no fact: unknown, if a flag may set it.
        self.without_facts = bytearray()
        self._forms: Dict[str, str] = {}
        self._is_open = is_open

    def compiled(self, condition: str) -> Condition:
        """Returns what the engine is asked for a condition. Raises `CargoError` if it is none, for
        then it is not Cargo that lists it."""
        found = CONDITION.fullmatch(condition)
        text = WORD.sub(self._form_of, found[1] if found else "").encode(errors="replace")
        described = _library.described(text)
        if isinstance(described, _library.Fault):
            raise CargoError(f"cargo lists {condition}, which is no condition")
        steps, predicates = described
        starts, ends = _library.values_of(predicates)
        asked = [int(text[start:end]) for start, end in zip(starts, ends)]
        return Condition(text, steps, asked)

    def _form_of(self, found: "re.Match[str]") -> str:
        """Returns what stands in the place of a word, which is made once."""
        form = self._forms.get(found[0])
        if form is None:
            form = self._forms[found[0]] = self._predicate_for(found)
        return form

    def _predicate_for(self, found: "re.Match[str]") -> str:
        """Returns what stands in the place of a word."""
        is_raw, is_alone = found[0].startswith("r#"), found[2] is None
        is_function = found[3] is not None and not is_raw
        if is_function or (is_alone and found[1] in LITERALS):
            return found[0]
        return self.predicate(self._number_of(text_of(found))) + (found[3] or "")

    def _number_of(self, text: str) -> int:
        """Returns the number of a text, which may be a new one."""
        number = self.numbers.setdefault(text, len(self.names))
        if number == len(self.names):
            self.names.append(text)
            self.without_facts.append(UNKNOWN if self._is_open(text) else FALSE)
        return number

    def names_of(self, numbers: Iterable[int]) -> Tuple[str, ...]:
        """Returns the texts with some numbers, in the order of texts."""
        return tuple(sorted(self.names[number] for number in numbers))

    def predicate(self, number: int) -> str:
        """Returns the predicate that stands for the text with a number."""
        form = SETTABLE if self.without_facts[number] == UNKNOWN else FIXED
        return form.format(number)

    def true_on(self, platform: Platform) -> FrozenSet[int]:
        """Returns the numbers of the texts that are true on a platform."""
        # There are few facts, and there may be many texts.
        known = (text for text in platform.facts if text in self.numbers)
        return frozenset(self.numbers[text] for text in known)


def may_be_set(text: str) -> bool:
    """Whether a flag may be this text that is neither a fact nor given. RUSTFLAGS may set any text,
    but one with a meaning of its own is taken for what rustc prints."""
    found = _library.described(text.encode(errors="replace"))
    if isinstance(found, _library.Fault):
        return False
    [predicate] = found[1]
    return predicate.kind in SETTABLE_KINDS


@dataclasses.dataclass
class Alike:
    """Platforms with the same answers to all texts."""

    is_open: bool
    """Whether other flags may be set there."""
    true: FrozenSet[int]
    """The numbers of the texts that are true there."""
    places: List[int]
    """The numbers of the platforms."""


def groups_of(texts: Texts, platforms: Sequence[Platform]) -> List[Alike]:
    """Returns the platforms in groups of those that are alike. Those come last where other flags
    may be set."""
    found: Dict[Tuple[bool, FrozenSet[int]], Alike] = {}
    for place, platform in enumerate(platforms):
        key = platform.has_other_flags, texts.true_on(platform)
        found.setdefault(key, Alike(*key, places=[])).places.append(place)
    return sorted(found.values(), key=lambda alike: alike.is_open)


def values_of(
    conditions: Iterable[Optional[str]], platforms: Sequence[Platform],
    budget: Optional[Budget] = None, is_open: Callable[[str], bool] = may_be_set,
) -> Dict[Optional[str], Values]:
    """Returns the values of conditions on platforms. A condition is one in `cfg( )`, a triple, or
    `None`, which is true. The budget is for the values that are unknown to the engine. `is_open`
    tells whether a text may be set on a platform where other flags may be and that has no such
    fact."""
    texts, distinct = Texts(is_open), dict.fromkeys(conditions)
    compiled = {
        one: texts.compiled(one) for one in distinct if one is not None and one.startswith("cfg(")
    }
    found = named_values(distinct.keys() - compiled.keys(), platforms)
    groups = groups_of(texts, platforms)
    rows = audited(texts, compiled.values(), groups)
    table = Table(texts, groups, len(platforms), Budget() if budget is None else budget)
    # Short conditions come first, so that a long one leaves them enough of the budget.
    order = sorted(zip(compiled.items(), rows), key=lambda item: len(item[0][1].asked))
    for left, ((name, condition), row) in zip(range(len(order), 0, -1), order):
        found[name] = table.values(name, condition, row, left)
    return found


def named_values(
    names: Iterable[Optional[str]], platforms: Sequence[Platform]
) -> Dict[Optional[str], Values]:
    """Returns the values of triples, and of `None`."""
    by_triple: Dict[str, List[int]] = {}
    for place, platform in enumerate(platforms):
        by_triple.setdefault(platform.triple, []).append(place)
    nowhere, everywhere = Values((False,) * len(platforms)), Values((True,) * len(platforms))
    found: Dict[Optional[str], Values] = {
        triple: Values(tuple(place in places for place in range(len(platforms))))
        for triple, places in by_triple.items()
    }
    return {one: everywhere if one is None else found.get(one, nowhere) for one in names}


def audited(
    texts: Texts, conditions: Iterable[Condition], groups: Sequence[Alike]
) -> List[bytes]:
    """Returns for each condition the numbers of its values on groups of platforms."""
    encoded = [one.text for one in conditions]
    parts: List[List[bytes]] = []
    for is_open, otherwise in ((False, FALSE), (True, UNKNOWN)):
        facts = [
            [texts.predicate(number).encode() for number in sorted(group.true)]
            for group in groups if group.is_open is is_open
        ]
        ends = list(itertools.accumulate(map(len, facts)))
        joined = list(itertools.chain.from_iterable(facts))
        _, _, values = _library.audit(encoded, joined, ends, otherwise)
        count = len(ends)
        parts.append([values[row * count:(row + 1) * count] for row in range(len(encoded))])
    return [closed + opened for closed, opened in zip(*parts)]


Groups = List[Tuple[Unknown, Tuple[int, ...]]]


class Table:
    """Makes values on platforms from values on groups of them."""

    def __init__(
        self, texts: Texts, groups: Sequence[Alike], count: int, budget: Budget
    ) -> None:
        """`count` is the number of platforms."""
        self._texts = texts
        self._groups = groups
        self._budget = budget
        by_place = {place: n for n, group in enumerate(groups) for place in group.places}
        self._group_at = [by_place[place] for place in range(count)]
        true = [group.true for group in groups if group.is_open]
        # The texts that are true on some of the groups and not on others.
        self._differing = frozenset(itertools.chain.from_iterable(true)).difference(in_each(true))
        # Equal values have one tuple, and equal lists of numbers as well. Python keys the hash of
        # bytes at random, so that nobody can choose many with one hash.
        self._on: Dict[bytes, Tuple[Optional[bool], ...]] = {}
        self._places: Dict[bytes, Tuple[int, ...]] = {}
        self._unknown: Dict[bytes, Tuple[int, ...]] = {}

    def values(self, name: str, condition: Condition, row: bytes, left: int) -> Values:
        """Returns the values of a condition that has those of `row` on the groups. It may spend an
        equal share of the budget, which is for `left` conditions."""
        reasons: Groups = []
        if UNKNOWN in row:
            share = self._budget.share(left, len(condition.asked))
            row, reasons = self._explained(condition, row, share)
            self._budget.left += share.left
        on = self._on.get(row)
        if on is None:
            on = self._on[row] = tuple(_library.VALUES[row[group]] for group in self._group_at)
        return Values(on, Reasons(reasons) if reasons else NO_REASONS, fault_of(name))

    def _explained(
        self, condition: Condition, row: bytes, budget: Budget
    ) -> Tuple[bytes, Groups]:
        """Returns the values on the groups, of which some turn out to be known, and why the others
        are unknown."""
        values = bytearray(row)
        reasons: Groups = []
        untried: List[int] = []
        pieces = self._pieces(condition, row)
        for left, piece in zip(range(len(pieces), 0, -1), pieces):
            share = budget.share(left, len(condition.asked))
            found = self._searched(condition, self._groups[piece[0]], share)
            budget.left += share.left
            if found is None:
                untried += piece
            elif isinstance(found, Unknown):
                reasons.append((found, self._places_of(piece)))
            else:
                values = value_at(values, piece, found)
        if untried:
            reasons.append(self._untried(condition, tuple(sorted(untried))))
        return bytes(values), reasons

    def _pieces(self, condition: Condition, row: bytes) -> List[Tuple[int, ...]]:
        """Returns the groups with an unknown value, of which those stand together that answer the
        condition alike."""
        unknown = self._unknown.get(row)
        if unknown is None:
            unknown = tuple(number for number, value in enumerate(row) if value == UNKNOWN)
            self._unknown[row] = unknown
        asked = self._differing.intersection(condition.asked)
        if not asked:
            return [unknown]
        found: Dict[FrozenSet[int], List[int]] = {}
        for number in unknown:
            found.setdefault(asked & self._groups[number].true, []).append(number)
        return [tuple(piece) for piece in found.values()]

    def _searched(
        self, condition: Condition, group: Alike, budget: Budget
    ) -> Union[None, int, Unknown]:
        """Returns the number of the value of a condition on a group if it is the same with all
        answers, or else why it is unknown, or `None` if there is no budget to look for it."""
        try:
            budget.spend(BEGIN_EACH * len(condition.asked))
            answers = self._answers(condition, group)
            places: Dict[int, List[int]] = {}
            for place in itertools.compress(range(len(answers)), map(UNKNOWN.__eq__, answers)):
                places.setdefault(condition.asked[place], []).append(place)
            budget.spend(LISTED * len(places))
        except SpentError:
            return None
        found = Search(condition.text, condition.steps, answers, places, budget).run()
        if found.is_whole and len(found.examples) == 1:
            return next(iter(found.examples))
        both = (self._named(found.examples.get(value)) for value in (TRUE, FALSE))
        return Unknown(self._texts.names_of(places), *both)

    def _answers(self, condition: Condition, group: Alike) -> bytes:
        """Returns the numbers of the answers of a group to what a condition asks."""
        others, true = self._texts.without_facts, group.true
        if true.isdisjoint(condition.asked):
            return bytes(map(others.__getitem__, condition.asked))
        return bytes(TRUE if one in true else others[one] for one in condition.asked)

    def _named(self, example: Optional[Example]) -> Optional[Dict[str, bool]]:
        """Returns an example with the texts in the place of their numbers."""
        if example is None:
            return None
        named = {self._texts.names[number]: answer for number, answer in example.items()}
        return dict(sorted(named.items()))

    def _untried(
        self, condition: Condition, numbers: Tuple[int, ...]
    ) -> Tuple[Unknown, Tuple[int, ...]]:
        """Returns why a condition is unknown on groups for which no answers were tried."""
        set_there = in_each([self._groups[number].true for number in numbers])
        flags = self._texts.names_of(
            one for one in frozenset(condition.asked) - set_there
            if self._texts.without_facts[one] == UNKNOWN
        )
        return Unknown(flags, None, None), self._places_of(numbers)

    def _places_of(self, numbers: Tuple[int, ...]) -> Tuple[int, ...]:
        """Returns the numbers of the platforms in some groups."""
        key = array.array("L", numbers).tobytes()
        places = self._places.get(key)
        if places is None:
            found = (self._groups[number].places for number in numbers)
            places = self._places[key] = tuple(sorted(itertools.chain.from_iterable(found)))
        return places


def in_each(sets: Sequence[FrozenSet[int]]) -> FrozenSet[int]:
    """Returns what is in each of some sets."""
    return sets[0].intersection(*sets[1:]) if sets else frozenset()


def value_at(values: bytearray, places: Iterable[int], value: int) -> bytearray:
    """Returns values of which those at some places are replaced."""
    for place in places:
        values[place] = value
    return values


def fault_of(condition: str) -> Optional[Fault]:
    """Returns why the engine refuses a condition, if it does."""
    encoded = condition.encode(errors="replace")
    fault = _library.fault_of(encoded)
    return None if fault is None else Fault(*told(encoded, fault)[:2])
