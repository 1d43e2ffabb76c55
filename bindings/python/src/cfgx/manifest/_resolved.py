"""Which packages of a lock file a build for each platform reaches."""
import dataclasses
import os
from typing import Dict, Iterable, Mapping, NamedTuple, Optional, Sequence, Tuple

from . import _cargo, _platforms
from ._cargo import Package
from ._conditions import values_of
from ._graph import Features, Graph, graph_of
from ._once import Once
from ._platforms import Flags, Platform, Progress
from ._reach import Build, Place, Step, Ways, reached
from ._report import Value, expect_kinds, expect_lists, notes_on
from ._search import BUDGET, Budget


class Leg(NamedTuple):
    """A step of a way: a dependency of the package in front of it."""

    package: Package
    """The package to which it leads."""
    kind: str
    """`normal`, `dev` or `build`."""
    condition: Optional[str]
    """The condition of the dependency, or `None` if there is none."""
    value: Value
    """The value of the condition, which is `YES` or `UNKNOWN`."""
    flags: Tuple[str, ...]
    """The flags on which an unknown value depends."""
    is_host: bool
    """Whether the package is built for the host there."""


@dataclasses.dataclass(frozen=True)
class Route:
    """A shortest way from a package of the workspace to another package, as an example."""

    value: Value
    """`YES` if all conditions on the way are true, and else `UNKNOWN`."""
    platform: int
    """The number of the platform: the first one on which the package has this value."""
    start: Package
    """The package with which the way begins."""
    legs: Tuple[Leg, ...]
    """Its steps. Of more than fifty, it has the last ones."""
    omitted: int
    """How many steps are left out in front of `start`."""


@dataclasses.dataclass(frozen=True)
class Used:
    """A package of a lock file on the platforms of a report."""

    package: Package
    """The package."""
    is_member: bool
    """Whether it is a member of the workspace."""
    features: Tuple[str, ...]
    """The features of it that Cargo turns on in the graph."""
    values: Tuple[Value, ...]
    """Whether a build for each platform has it."""
    for_target: Tuple[Value, ...]
    """Whether the build has it for the platform itself."""
    for_host: Tuple[Value, ...]
    """Whether the build has it for the host, as what runs while it builds."""
    routes: Tuple[Route, ...]
    """A way on the first platform with the value `YES`, and one on the first with `UNKNOWN`."""

    @property
    def is_never(self) -> bool:
        """Whether no build for the platforms has it."""
        return all(value is Value.NO for value in self.values)

    @property
    def is_tried(self) -> bool:
        """Whether there is a way for each value of it that is not `NO`."""
        return {one.value for one in self.routes} == set(self.values) - {Value.NO}


@dataclasses.dataclass(frozen=True)
class Resolved:
    """The packages of a lock file on platforms."""

    manifest_path: str
    """The whole path of the manifest."""
    host: str
    """The triple of the host."""
    platforms: Tuple[Platform, ...]
    """The targets, or without one the host."""
    rows: Tuple[Used, ...]
    """The packages, in the order in which Cargo lists them."""
    notes: Tuple[str, ...]
    """What was found and not taken into account, a sentence each."""
    is_tried: bool
    """Whether each unknown condition was tried out, and each way was found. A report tries a
    bounded number of answers and of steps."""


def resolved(
    manifest: Optional[str] = None, targets: Sequence[str] = (), *,
    packages: Sequence[str] = (), workspace: bool = False, exclude: Sequence[str] = (),
    kinds: Sequence[str] = _cargo.KINDS, features: Features = Features(),
    config: Sequence[str] = (), facts: Optional[Mapping[str, Iterable[str]]] = None,
    cfg: Sequence[str] = (), no_other_cfg: bool = False,
    rustflags: Optional[Sequence[str]] = None, rustc: bool = False,
    host: Optional[str] = None, environment: Optional[Mapping[str, str]] = None,
    cargo_timeout: float = _cargo.TIMEOUT, progress: Optional[Progress] = None,
) -> Resolved:
    """Returns which packages of a lock file builds for platforms have.

    The arguments are those of `report`, and two more:

    - `features` are those that are on of the members of the workspace.
    - `config` are settings of Cargo, as its `--config` takes them: `KEY=VALUE`, or files.

    `packages` and `workspace` say with which packages a build begins: these are built with their
    tests. `kinds` are those of the dependencies that it follows. Cargo neither writes a lock file
    nor fetches a package.

    Raises a `ManifestError`, or `TypeError` if a text stands for a list.
    """
    expect_lists(
        targets, packages, exclude, kinds, cfg, rustflags or (), config, features.names
    )
    expect_kinds(kinds)
    _cargo.expect_time(cargo_timeout)
    variables = os.environ if environment is None else environment
    flags = Flags(tuple(cfg), tuple(rustflags or ()), not no_other_cfg)
    source = _platforms.source_of(flags, variables, rustc, cargo_timeout, progress)
    path = _cargo.manifest_at(manifest)
    graph = graph_of(path, features, config, cargo_timeout)
    chosen = frozenset(
        one.identity for one in graph.workspace(path).chosen(packages, workspace, exclude)
    )
    roots = frozenset(n for n, one in enumerate(graph.packages) if one.identity in chosen)
    found = _platforms.platforms_of(source, targets, facts or {}, flags, host)
    reach = Found(Build(graph, roots, tuple(kinds)), found)
    rows = tuple(map(reach.row, range(len(graph.packages))))
    notes = notes_on(path, rustflags, variables, has_target=len(found) > 1)
    return Resolved(
        path, found[0].triple, tuple(found[1:] or found), rows, tuple(notes),
        reach.is_tried and all(row.is_tried for row in rows),
    )


class Masks(NamedTuple):
    """On which platforms something is so, as sets."""

    yes: int
    """Where it is."""
    possible: int
    """Where it is, or where this is unknown."""


class Conditions:
    """The values of the conditions of a graph."""

    def __init__(self, graph: Graph, platforms: Sequence[Platform], budget: Budget) -> None:
        """The first platform is the host. The others are those of the builds, or it is the only
        one."""
        self._first = 1 if len(platforms) > 1 else 0
        self.everywhere = (1 << len(platforms) - self._first) - 1
        distinct = dict.fromkeys(edge.condition for edges in graph.edges for edge in edges)
        self._values = values_of(distinct, platforms, budget)
        there = Once(self._there)
        self._masks = {
            condition: (there(values.on), self._on_host(values.on[0]))
            for condition, values in self._values.items()
        }

    @property
    def is_tried(self) -> bool:
        """Whether each unknown value was tried out."""
        return all(
            reason.is_tried for values in self._values.values()
            for reason, _ in values.unknown.groups
        )

    def holds(self, step: Step) -> int:
        """Returns where the condition of a step is true."""
        return self._masks[step.edge.condition][step.is_read_on_host].yes

    def may_hold(self, step: Step) -> int:
        """Returns where the condition of a step is true or unknown."""
        return self._masks[step.edge.condition][step.is_read_on_host].possible

    def flags(self, step: Step, platform: int) -> Tuple[str, ...]:
        """Returns the flags on which the condition of a step depends for a platform."""
        place = 0 if step.is_read_on_host else platform + self._first
        unknown = self._values[step.edge.condition].unknown
        return unknown[place].flags if place in unknown else ()

    def _there(self, on: Sequence[Optional[bool]]) -> Masks:
        """Returns where a condition holds that is read on each platform by itself."""
        values = on[self._first:]
        return Masks(set_of(one is True for one in values),
                     set_of(one is not False for one in values))

    def _on_host(self, value: Optional[bool]) -> Masks:
        """Returns where a condition holds that is read on the host."""
        return Masks(self.everywhere * (value is True), self.everywhere * (value is not False))


def set_of(bits: Iterable[bool]) -> int:
    """Returns the set of the places at which it is true."""
    return int("".join("1" if bit else "0" for bit in bits)[::-1] or "0", 2)


class Found:
    """What a build has on platforms."""

    def __init__(self, build: Build, platforms: Sequence[Platform]) -> None:
        self._build = build
        self._has_target = len(platforms) > 1
        # Conditions and ways share what a report may spend.
        self._conditions = Conditions(build.graph, platforms, Budget(BUDGET // 2))
        everywhere = self._conditions.everywhere
        self._count = everywhere.bit_length()
        self._yes = reached(build, self._conditions.holds, everywhere)
        self._possible = reached(build, self._conditions.may_hold, everywhere)
        self._made: Dict[Tuple[bytes, bytes], Tuple[Value, ...]] = {}
        masks = list(map(self._masks, range(len(build.graph.packages))))
        budget = Budget(BUDGET // 2)
        self._to_yes = Ways(build, self._conditions.holds, firsts(one.yes for one in masks), budget)
        self._to_unknown = Ways(
            build, self._conditions.may_hold, firsts(one.possible & ~one.yes for one in masks),
            budget,
        )

    @property
    def is_tried(self) -> bool:
        """Whether each unknown condition was tried out."""
        return self._conditions.is_tried

    def row(self, number: int) -> Used:
        """Returns the row of a package."""
        graph, masks = self._build.graph, self._masks(number)
        target, host = (self._masks_at(Place(number, is_host)) for is_host in (False, True))
        if not self._has_target:
            # All is built for the host.
            target, host = Masks(0, 0), masks
        routes = [
            self._route(number, Value.YES, masks.yes, self._to_yes),
            self._route(number, Value.UNKNOWN, masks.possible & ~masks.yes, self._to_unknown),
        ]
        return Used(
            graph.packages[number], number in graph.members, graph.features[number],
            self._values(masks), self._values(target), self._values(host),
            tuple(one for one in routes if one is not None),
        )

    def _masks_at(self, place: Place) -> Masks:
        """Returns where a place is reached."""
        return Masks(self._yes.get(place, 0), self._possible.get(place, 0))

    def _masks(self, number: int) -> Masks:
        """Returns where a package is reached, whatever it is built for."""
        target, host = self._masks_at(Place(number, False)), self._masks_at(Place(number, True))
        return Masks(target.yes | host.yes, target.possible | host.possible)

    def _values(self, masks: Masks) -> Tuple[Value, ...]:
        """Returns a value for each platform. Equal values have one tuple. Python keys the hash of
        bytes at random, and not that of numbers."""
        size = self._count // 8 + 1
        key = masks.yes.to_bytes(size, "little"), masks.possible.to_bytes(size, "little")
        if key not in self._made:
            self._made[key] = tuple(value_in(masks, place) for place in range(self._count))
        return self._made[key]

    def _route(self, number: int, value: Value, platforms: int, ways: Ways) -> Optional[Route]:
        """Returns a way to a package on the first of some platforms, where it has a value, or
        `None` if there is none or if it was not found."""
        first = first_in(platforms)
        way = None if first is None else ways.to(number, first)
        if first is None or way is None:
            return None
        legs = tuple(self._leg(step, first) for step in way.steps)
        return Route(value, first, self._build.graph.packages[way.start.package], legs, way.omitted)

    def _leg(self, step: Step, platform: int) -> Leg:
        """Returns a step of a way on a platform."""
        is_true = self._conditions.holds(step) >> platform & 1
        return Leg(
            self._build.graph.packages[step.place.package], step.edge.kind, step.edge.condition,
            Value.YES if is_true else Value.UNKNOWN,
            () if is_true else self._conditions.flags(step, platform),
            step.place.is_host or not self._has_target,
        )


def value_in(masks: Masks, place: int) -> Value:
    """Returns the value on a platform."""
    if masks.yes >> place & 1:
        return Value.YES
    return Value.UNKNOWN if masks.possible >> place & 1 else Value.NO


def first_in(platforms: int) -> Optional[int]:
    """Returns the first platform of a set, if it has one."""
    return (platforms & -platforms).bit_length() - 1 if platforms else None


def firsts(sets: Iterable[int]) -> int:
    """Returns the set of the first platforms of some sets."""
    found = 0
    for platforms in sets:
        found |= platforms & -platforms
    return found
