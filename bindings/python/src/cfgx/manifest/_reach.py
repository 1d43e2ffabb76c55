"""Which packages of a graph Cargo builds for a platform, by a fixpoint over the graph.

Cargo builds a package for the platform, for the host, or for both. A build-dependency and a
proc-macro are built for the host, and all else for the same as the package that needs it. The
condition of a build-dependency is read on the host, and any other where the package is built that
has it. Only the packages with which a build begins read their dev-dependencies.

A set of platforms is a number here, whose bit `n` stands for platform `n`. So a step along an edge
is one operation for all platforms.
"""
import dataclasses
import heapq
from typing import (
    Callable, Dict, FrozenSet, Iterable, Iterator, List, NamedTuple, Optional, Sequence, Tuple,
)

from ._graph import Edge, Graph
from ._search import Budget, SpentError

# How many steps of a way are kept: the last ones. Without a bound, the ways to the packages of a
# chain would take the square of its length.
MOST_STEPS = 50
# What a step takes of the budget of a report: while ways are searched, and in a way that is kept.
STEP, KEPT_STEP = 100, 1000


class Place(NamedTuple):
    """A package, and for what it is built."""

    package: int
    """The number of the package."""
    is_host: bool
    """Whether it is built for the host, and not for the platform."""


class Step(NamedTuple):
    """A step from one package to another that it depends on."""

    place: Place
    """The place to which it leads."""
    edge: Edge
    """The dependency."""
    is_read_on_host: bool
    """Whether its condition is read on the host."""


class Way(NamedTuple):
    """A shortest way to a package."""

    start: Place
    """The place with which it begins."""
    steps: Tuple[Step, ...]
    """Its steps, of which the last ones are kept."""
    omitted: int
    """How many steps are left out in front of them. `start` is the place behind these."""


class Arrival(NamedTuple):
    """How a place was reached first on some platforms."""

    platforms: int
    """The set of the platforms."""
    length: int
    """How many steps the way has."""
    before: Optional[Place]
    """The place in front of it, or `None` at the start."""
    step: Optional[Step]
    """The step from there."""


# Returns the set of the platforms on which the condition of a step holds.
Holds = Callable[[Step], int]
# The sets of the platforms on which places are reached.
Reached = Dict[Place, int]


@dataclasses.dataclass(frozen=True)
class Build:
    """What a build begins with, and what it follows."""

    graph: Graph
    """The packages."""
    roots: FrozenSet[int]
    """The numbers of the packages that are built by themselves, with their tests."""
    kinds: Sequence[str]
    """The kinds of dependencies that are followed."""

    def starts(self) -> Iterator[Place]:
        """Yields the places with which the build begins."""
        for number in sorted(self.roots):
            package = self.graph.packages[number]
            if package.has_target_units:
                yield Place(number, False)
            if package.has_macro:
                yield Place(number, True)

    def steps(self, place: Place) -> Iterator[Step]:
        """Yields the steps from a place."""
        for edge in self.graph.edges[place.package]:
            if edge.kind in self.kinds and self._is_read(place, edge.kind):
                is_host = place.is_host or edge.kind == "build"
                is_macro = self.graph.packages[edge.target].is_macro
                yield Step(Place(edge.target, is_host or is_macro), edge, is_host)

    def _is_read(self, place: Place, kind: str) -> bool:
        """Whether something that is built at a place reads the dependencies of a kind."""
        package = self.graph.packages[place.package]
        if kind == "build":
            return package.has_build_script
        if kind == "dev":
            is_tested = package.has_macro_tests if place.is_host else package.has_target_tests
            return is_tested and place.package in self.roots
        return True


def reached(build: Build, holds: Holds, platforms: int) -> Reached:
    """Returns on which of the platforms in a set a build reaches each place."""
    starts = list(build.starts())
    found = dict.fromkeys(starts, platforms)
    for place in starts:
        for step in filter(is_of_tests, build.steps(place)):
            found[step.place] = found.get(step.place, 0) | platforms & holds(step)
    # Without what only tests need, there is no circle. So a place is left when all that lead to it
    # are, and each step is taken once.
    ranks = ranks_of(build, found)
    waiting = [(ranks[place], place) for place in found]
    heapq.heapify(waiting)
    left: Reached = {}
    while waiting:
        _, place = heapq.heappop(waiting)
        new = found[place] & ~left.get(place, 0)
        left[place] = found[place]
        for step in build.steps(place) if new else ():
            more = new & holds(step) & ~found.get(step.place, 0)
            if more:
                found[step.place] = found.get(step.place, 0) | more
                heapq.heappush(waiting, (ranks[step.place], step.place))
    return found


def is_of_tests(step: Step) -> bool:
    """Whether only tests take a step."""
    return step.edge.kind == "dev"


def ranks_of(build: Build, starts: Iterable[Place]) -> Dict[Place, int]:
    """Returns the ranks of all places to which steps lead. A step leads to a higher rank, unless
    only tests take it."""
    ended: List[Place] = []
    begun = set()
    for start in starts:
        stack = [] if start in begun else [(start, build.steps(start))]
        begun.add(start)
        while stack:
            place, steps = stack[-1]
            step = next((one for one in steps if not is_of_tests(one)), None)
            if step is None:
                ended.append(place)
                stack.pop()
            elif step.place not in begun:
                begun.add(step.place)
                stack.append((step.place, build.steps(step.place)))
    return {place: rank for rank, place in enumerate(reversed(ended))}


class Ways:
    """Shortest ways to the places that a build reaches on some platforms."""

    def __init__(self, build: Build, holds: Holds, platforms: int, budget: Budget) -> None:
        """Searches the ways on the platforms in a set, as far as the budget suffices: from the
        starts on, all ways of one length after the other."""
        self._build = build
        self._holds = holds
        self._budget = budget
        self._reached: Reached = {}
        self._arrivals: Dict[Place, List[Arrival]] = {}
        new: Reached = {}
        for place in build.starts() if platforms else ():
            self._arrive(place, Arrival(platforms, 0, None, None), new)
        length = 0
        try:
            while new:
                length += 1
                new = self._behind(new, length)
        except SpentError:
            pass

    def to(self, package: int, platform: int) -> Optional[Way]:
        """Returns a shortest way to a package on a platform, whatever it is built for, or `None` if
        the budget does not suffice for it."""
        places = Place(package, False), Place(package, True)
        ends = [place for place in places if self._reached.get(place, 0) >> platform & 1]
        if not ends:
            return None
        place = min(ends, key=lambda one: self._arrival(one, platform).length)
        try:
            return self._way(place, platform)
        except SpentError:
            return None

    def _way(self, place: Place, platform: int) -> Way:
        """Returns a way to a place that is reached. Raises `SpentError`."""
        steps: List[Step] = []
        arrival = self._arrival(place, platform)
        while arrival.before is not None and arrival.step is not None and len(steps) < MOST_STEPS:
            self._budget.spend(KEPT_STEP)
            steps.append(arrival.step)
            place = arrival.before
            arrival = self._arrival(place, platform)
        return Way(place, tuple(reversed(steps)), arrival.length)

    def _behind(self, before: Reached, length: int) -> Reached:
        """Takes each step from the places that are new, and returns those that are new then."""
        new: Reached = {}
        for place, platforms in before.items():
            for step in self._build.steps(place):
                self._budget.spend(STEP)
                left = platforms & self._holds(step) & ~self._reached.get(step.place, 0)
                if left:
                    self._arrive(step.place, Arrival(left, length, place, step), new)
        return new

    def _arrive(self, place: Place, arrival: Arrival, new: Reached) -> None:
        """Keeps how a place is reached, and that it is new."""
        self._reached[place] = self._reached.get(place, 0) | arrival.platforms
        self._arrivals.setdefault(place, []).append(arrival)
        new[place] = new.get(place, 0) | arrival.platforms

    def _arrival(self, place: Place, platform: int) -> Arrival:
        """Returns how a place is reached on a platform."""
        return next(one for one in self._arrivals[place] if one.platforms >> platform & 1)
