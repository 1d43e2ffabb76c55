"""Answers to unknown flags with which a condition is true, and with which it is false.

Cargo answers equal flags alike, and the engine answers each occurrence by itself. So a condition
that is unknown to the engine may have the same value with all answers that Cargo can give. The
answers of the engine are tried first. If they give equal flags different answers, flags that stand
several times are set one after another.

All searches of a report share a budget, since a condition of a hostile manifest may need more
tries than there is time for.
"""
import dataclasses
import itertools
import operator
from typing import Any, Callable, Dict, Iterable, Iterator, List, Mapping, Optional, Sequence

from .. import _library

FALSE, TRUE, UNKNOWN = range(3)
# What a report may spend. The unit is to evaluate a predicate once, which takes some 10 ns.
BUDGET = 75_000_000
# What it takes to evaluate a condition, beside its predicates.
CALL = 800
# What it takes to begin a search, for each predicate; and what a try takes, and takes for each
# predicate. A try asks the engine for answers that lead to each value.
BEGIN_EACH, TRY, TRY_EACH = 60, 2000, 20
# What it takes to keep an answer to a flag and to print it, which has some 100 bytes; and to list a
# flag.
KEPT, LISTED = 80, 20
# How many times an example is evaluated to find out which of its flags it needs.
MOST_SHORTENED = 256

# The places of each flag in the list of predicates, by its number.
Places = Mapping[int, Sequence[int]]
# Flags by their numbers, and whether they are set.
Example = Dict[int, bool]


class SpentError(Exception):
    """What a search may spend is spent."""


@dataclasses.dataclass
class Budget:
    """What may yet be spent."""

    left: int = BUDGET

    def spend(self, cost: int) -> None:
        """Takes a cost. Raises `SpentError` if there is less."""
        if cost > self.left:
            raise SpentError
        self.left -= cost

    def share(self, count: int, predicates: int) -> "Budget":
        """Takes an equal share for the first of `count` searches, or what one with some predicates
        takes at least, if this is more. What is left of it may be added again."""
        least = TRY + (BEGIN_EACH + TRY_EACH + LISTED + 2 * KEPT) * predicates
        share = Budget(min(max(self.left // count, least), self.left))
        self.left -= share.left
        return share


@dataclasses.dataclass
class Found:
    """What a search found."""

    examples: Dict[int, Example]
    """Answers that lead to a value, by its number."""
    is_whole: bool
    """Whether no other value is possible."""


class Search:
    """Searches a condition that is unknown over some answers."""

    def __init__(
        self, text: bytes, steps: Any, answers: bytes, places: Places, budget: Budget
    ) -> None:
        """`text` is the condition, and `steps` are those of the engine. `answers` has the number of
        the answer to each predicate, and `places` has the flags that are unknown."""
        self._text = text
        self._steps = steps
        self._places = places
        self._budget = budget
        # What is left when examples are no longer made shorter.
        self._least = budget.left // 2
        self._known = bytearray(answers)
        self._repeated = [flag for flag, where in places.items() if len(where) > 1]
        repeated = [places[flag] for flag in self._repeated]
        self._first = items_at([where[0] for where in repeated for _ in where[1:]])
        self._other = items_at([place for where in repeated for place in where[1:]])
        self._found: Dict[int, Example] = {}

    def run(self) -> Found:
        """Returns what the search finds until it has both values, has tried all answers, or has
        spent its budget."""
        path: Optional[List[int]] = []
        try:
            while path is not None:
                is_known = self._is_known_with(path)
                path = self._behind(path, is_known) if len(self._found) < 2 else None
        except SpentError:
            return Found(self._found, False)
        return Found(self._found, True)

    def _behind(self, path: List[int], is_known: bool) -> Optional[List[int]]:
        """Returns which answers to the first repeated flags come next, or `None` if all were tried:
        one more if the value is unknown with these, and otherwise the next ones. False comes first.
        """
        if not is_known:
            return self._longer(path, FALSE)
        while path and path[-1] == TRUE:
            path.pop()
            put(self._known, self._places[self._repeated[len(path)]], UNKNOWN)
        return self._longer(path[:-1], TRUE) if path else None

    def _longer(self, path: List[int], answer: int) -> List[int]:
        """Returns answers with one more, which is put at its places."""
        put(self._known, self._places[self._repeated[len(path)]], answer)
        return [*path, answer]

    def _is_known_with(self, path: Sequence[int]) -> bool:
        """Keeps what follows from answers to the first repeated flags, and tells whether the value
        is known with them. If no repeated flag is left, the engine finds both values."""
        self._budget.spend(TRY + TRY_EACH * len(self._known))
        value = self._value(self._known) if path else UNKNOWN
        if value != UNKNOWN:
            self._keep(value, self._known, self._repeated[:len(path)])
            return True
        fillings = _library.filling_numbers(self._text, bytes(self._known))
        for value, filling in zip((TRUE, FALSE), fillings):
            # Whether equal flags have equal answers.
            if self._first(filling) == self._other(filling):
                self._keep(value, filling, list(self._places))
        return False

    def _value(self, known: bytearray) -> int:
        """Returns the number of the value over answers."""
        self._budget.spend(CALL + len(known))
        return _library.value_number(self._steps, bytes(known))

    def _keep(self, value: int, answers: Sequence[int], flags: List[int]) -> None:
        """Keeps the answers to flags as an example that leads to a value, if it is the first."""
        if value in self._found:
            return
        known = bytearray(answers)
        needed = self._needed(value, known, flags)
        self._budget.spend(KEPT * len(needed))
        self._found[value] = {flag: known[self._places[flag][0]] == TRUE for flag in needed}

    def _needed(self, value: int, known: bytearray, flags: List[int]) -> List[int]:
        """Returns those of some flags whose answers suffice for a value: leaves out half of them, a
        quarter, and so on, as long as the value stays. Of more than a hundred flags, some may be
        left that it does not need."""
        # How many evaluations are left.
        left = min(MOST_SHORTENED, (self._budget.left - self._least) // (CALL + len(known)))
        tries, size = iter(range(left)), len(flags)
        while size > 1 and left > 0:
            size = (size + 1) // 2
            pieces = [flags[start:start + size] for start in range(0, len(flags), size)]
            left -= len(pieces)
            kept = [one for one in pieces if not self._is_left_out(one, value, known, tries)]
            flags = list(itertools.chain.from_iterable(kept))
        return flags

    def _is_left_out(
        self, flags: Sequence[int], value: int, known: bytearray, tries: Iterator[int]
    ) -> bool:
        """Leaves flags out of answers if the value stays, and tells whether it does. Leaves none
        out if no try is left."""
        if next(tries, None) is None:
            return False
        before = [known[self._places[flag][0]] for flag in flags]
        put_each(known, self._places, flags, itertools.repeat(UNKNOWN))
        if self._value(known) == value:
            return True
        put_each(known, self._places, flags, before)
        return False


def items_at(places: Sequence[int]) -> Callable[[Sequence[int]], Any]:
    """Returns the function that returns the items at some places."""
    if not places:
        return lambda _: None
    return operator.itemgetter(*places)


def put(known: bytearray, places: Iterable[int], answer: int) -> None:
    """Puts an answer at some places."""
    for place in places:
        known[place] = answer


def put_each(
    known: bytearray, places: Places, flags: Iterable[int], answers: Iterable[int]
) -> None:
    """Puts an answer to each flag at all of its places."""
    for flag, answer in zip(flags, answers):
        put(known, places[flag], answer)
