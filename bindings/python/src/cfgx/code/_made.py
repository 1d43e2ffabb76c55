"""Makes what callers see of what was read of a text."""
from typing import Dict, Iterator, List, Optional, Tuple

from . import _reader
from ._lexer import MARK
from ._model import (
    Code, Condition, Group, Guard, Item, Module, Piece, Place, Places, Problem,
)


def read(text: str) -> Code:
    """Returns the conditions in the code of a file, and what belongs together in it. Nothing is
    compiled or expanded, so what a macro makes is not seen.

    >>> import cfgx.code
    >>> code = cfgx.code.read('#[cfg(any(unix, /* or */ feature = r"x"))] fn f() {}')
    >>> [(one.text, one.place.line, one.place.column) for one in code.conditions]
    [('any(unix, feature = "x")', 1, 7)]
    """
    return Maker(_reader.Reading(text)).code()


class Maker:
    """Makes what callers see of a reading."""

    def __init__(self, reading: _reader.Reading) -> None:
        self._reading = reading
        found = reading.conditions
        # Conditions in the order of their places. What was found first has another number.
        self._order = sorted(range(len(found)), key=lambda one: (found[one].start, found[one].end))
        self._numbers = {one: place for place, one in enumerate(self._order)}
        self._places = Places(reading.text, list(self._characters()), MARK)
        self._guards: Dict[int, Tuple[_reader.Guard, Guard]] = {}
        # What is told of conditions that must not hold, by their texts. Several guards share one.
        self._negated: Dict[str, str] = {}

    def code(self) -> Code:
        """Returns what was read."""
        problem = self._reading.problem
        groups = [*map(self._chain, self._reading.chains), *map(self._twins, self._reading.twins)]
        return Code(
            tuple(self._condition(one) for one in self._order),
            tuple(sorted(groups, key=lambda group: group.place.start)),
            tuple(map(self._module, self._reading.modules)),
            None if problem is None else str(problem),
            None if problem is None else self._places.place(problem.place, problem.place),
        )

    def _characters(self) -> Iterator[int]:
        """Yields the characters whose places are told."""
        for one in self._reading.conditions:
            yield from (one.start, one.end)
            if one.error is not None:
                yield from (one.error.start, one.error.end)
            for piece in [] if one.written is None else one.written.pieces:
                yield from (piece.token.start, piece.token.end)
        for chain in self._reading.chains:
            yield chain.start
        for twins in self._reading.twins:
            yield from (member.thing.start for member in twins.members)
        yield from (one.start for one in self._reading.modules)
        if self._reading.problem is not None:
            yield self._reading.problem.place

    def _condition(self, number: int) -> Condition:
        """Returns the condition that was found as the one with a number."""
        found = self._reading.conditions[number]
        place = self._places.place
        pieces: List[Piece] = []
        problem = None
        if found.written is not None:
            pieces = [Piece(one.start, one.end, place(one.token.start, one.token.end))
                      for one in found.written.pieces]
        if found.error is not None:
            problem = Problem(found.error.reason, place(found.error.start, found.error.end))
        return Condition(
            self._numbers[number], found.form, found.is_inner, place(found.start, found.end),
            found.text, problem, tuple(pieces), self._guard(found.guard),
        )

    def _guard(self, guard: Optional[_reader.Guard]) -> Optional[Guard]:
        """Returns a guard, which is made once."""
        chain: List[_reader.Guard] = []
        while guard is not None and id(guard) not in self._guards:
            chain.append(guard)
            guard = guard.outer
        made = None if guard is None else self._guards[id(guard)][1]
        for one in reversed(chain):
            text = one.text
            if text is not None and one.is_negated:
                if text not in self._negated:
                    self._negated[text] = f"not({text})"
                text = self._negated[text]
            made = Guard(text, self._numbers[one.number], one.is_negated, made)
            self._guards[id(one)] = one, made
        return made

    def _module(self, one: _reader.Declared) -> Module:
        """Returns a module that has a file of its own."""
        return Module(one.name, one.folders, one.paths, one.has_usual_path,
                      self._point(one.start), self._guard(one.guard),
                      tuple(map(self._guard, one.path_guards)), self._guard(one.usual_guard))

    def _point(self, character: int) -> Place:
        """Returns the place at a character."""
        return self._places.place(character, character)

    def _chain(self, chain: _reader.Chain) -> Group:
        """Returns the branches of a macro."""
        numbers = tuple(self._numbers[one] for one in chain.numbers)
        guard = self._guard(chain.guard)
        return Group((), chain.form, numbers, chain.has_last, self._point(chain.start), guard)

    def _twins(self, twins: _reader.Twins) -> Group:
        """Returns items with one name."""
        items = tuple(
            Item(one.thing.kind, one.thing.name, self._point(one.thing.start),
                 self._guard(one.guard))
            for one in twins.members
        )
        return Group(items, None, (), False, items[0].place, self._guard(twins.guard))
