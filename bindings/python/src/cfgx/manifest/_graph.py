"""The graph of the packages of a lock file, as Cargo resolves them."""
import dataclasses
import json
import os
from typing import Any, Dict, FrozenSet, Iterator, List, Mapping, Optional, Sequence, Tuple

from . import _cargo
from ._cargo import Package, Workspace
from ._errors import CargoError

# The name of a package that others depend on, a kind and a condition.
Row = Tuple[str, str, Optional[str]]


@dataclasses.dataclass(frozen=True)
class Features:
    """Which features of the packages of a workspace are on."""

    names: Tuple[str, ...] = ()
    """Features by their names, as Cargo takes them."""
    has_default: bool = True
    """Whether the feature `default` is on."""
    has_all: bool = False
    """Whether each feature is on."""

    def words(self) -> List[str]:
        """Returns the arguments of Cargo for them."""
        if self.has_all:
            return ["--all-features"]
        words = [] if self.has_default else ["--no-default-features"]
        return words + [f"--features={name}" for name in self.names]


ALL_FEATURES = Features(has_all=True)


@dataclasses.dataclass(frozen=True)
class Edge:
    """A dependency of a package on another one that some features have on."""

    target: int
    """The number of the other package."""
    kind: str
    """`normal`, `dev` or `build`."""
    condition: Optional[str]
    """A condition in `cfg( )`, as Cargo prints it, or a triple, or `None` if there is none."""


@dataclasses.dataclass(frozen=True)
class Graph:
    """The packages of a lock file, and which of them depend on each other."""

    packages: Tuple[Package, ...]
    """The packages, in the order in which Cargo lists them."""
    members: FrozenSet[int]
    """The numbers of those that are members of the workspace."""
    features: Tuple[Tuple[str, ...], ...]
    """The features of each package that are on."""
    edges: Tuple[Tuple[Edge, ...], ...]
    """The dependencies of each package, in the order in which Cargo lists them."""

    def workspace(self, manifest: str) -> Workspace:
        """Returns the members, and those of them that have the manifest."""
        return Workspace.of([self.packages[number] for number in sorted(self.members)], manifest)


def graph_of(
    manifest: str, features: Features = Features(), settings: Sequence[str] = (),
    seconds: float = _cargo.TIMEOUT,
) -> Graph:
    """Returns the graph of the workspace that the manifest with a whole path is of. `settings` are
    those of Cargo, as its `--config` takes them, and each run of cargo may take some seconds. Each
    package of the lock file is in the graph. One that no feature in `features` needs has neither
    features nor edges. Raises `CargoError`."""
    _cargo.expect_fit(manifest)
    words = [f"--config={whole(one)}" for one in settings]
    found = metadata_of(manifest, [*features.words(), *words], seconds)
    # Cargo leaves out what no feature needs, unless each of them is on.
    every = found if features.has_all else (
        metadata_of(manifest, [*ALL_FEATURES.words(), *words], seconds)
    )
    try:
        return read(found, every["packages"])
    except (LookupError, TypeError, AttributeError) as error:
        raise no_graph(manifest, error) from error


def whole(setting: str) -> str:
    """Returns a setting that Cargo takes in another folder: a file by its whole path."""
    return os.path.abspath(setting) if os.path.exists(setting) else setting


def metadata_of(manifest: str, words: Sequence[str], seconds: float) -> Any:
    """Returns what Cargo lists of the packages of a lock file. It is to fail where it would write
    this file, or fetch a package."""
    start = ("metadata", "--offline", "--locked", "--format-version", "1")
    text = _cargo.output_of(*start, *words, "--manifest-path", manifest, seconds=seconds)
    try:
        return json.loads(text)
    except (ValueError, RecursionError) as error:
        raise no_graph(manifest, error) from error


def no_graph(manifest: str, error: Exception) -> CargoError:
    """Returns the error for what is no graph."""
    return CargoError(f"cargo lists no graph of {manifest}: {error}")


def read(found: Dict[str, Any], every: Sequence[Dict[str, Any]]) -> Graph:
    """Returns the graph that Cargo lists, with every package of the lock file."""
    listed = {one["id"]: one for one in every}
    listed.update((one["id"], one) for one in found["packages"])
    numbers = {identity: number for number, identity in enumerate(listed)}
    packages = tuple(map(_cargo.package_of, listed.values()))
    nodes = {one["id"]: one for one in found["resolve"]["nodes"]}
    chosen = [nodes.get(identity, {"features": [], "deps": []}) for identity in listed]
    return Graph(
        packages, frozenset(numbers[one] for one in found["workspace_members"]),
        tuple(tuple(node["features"]) for node in chosen),
        tuple(
            tuple(edges_of(node, package, one["features"], numbers, packages))
            for node, package, one in zip(chosen, packages, listed.values())
        ),
    )


def edges_of(
    node: Mapping[str, Any], package: Package, table: Mapping[str, Sequence[str]],
    numbers: Mapping[str, int], packages: Sequence[Package],
) -> Iterator[Edge]:
    """Yields the dependencies of a package that are on, by what Cargo resolved, and by the table of
    the features of the package."""
    on = rows_on(package, activated_by(node["features"], table))
    for used in node["deps"]:
        target = numbers[used["pkg"]]
        for how in used["dep_kinds"]:
            kind, condition = how["kind"] or "normal", how["target"]
            row = packages[target].name, kind, condition
            # Two dependencies with one row have crates of different names. If none has the name
            # that Cargo says, each of them may be the one.
            if on.get((row, used["name"]), on.get((row, None), True)):
                yield Edge(target, kind, condition)


def rows_on(
    package: Package, activated: FrozenSet[str]
) -> Dict[Tuple[Row, Optional[str]], bool]:
    """Returns whether a dependency of a package is on, by its row and the name of its crate. With
    `None` in the place of this name, returns whether one of them is on."""
    found: Dict[Tuple[Row, Optional[str]], bool] = {}
    for one in package.dependencies:
        row = one.renamed_from or one.name, one.kind, one.condition
        is_on = not one.is_optional or one.name in activated
        for name in (one.name.replace("-", "_"), None):
            found[row, name] = is_on or found.get((row, name), False)
    return found


def activated_by(
    features: Sequence[str], table: Mapping[str, Sequence[str]]
) -> FrozenSet[str]:
    """Returns the names of the optional dependencies that features ask for. `name?/feature` asks
    for a feature alone, yet Cargo resolves the dependency for the lock file."""
    found = set()
    for feature in features:
        # Before Cargo 1.60, an optional dependency is a feature that the table lacks.
        for word in table.get(feature, [f"dep:{feature}"]):
            name, slash, _ = word.partition("/")
            if slash and not name.endswith("?"):
                found.add(name)
            elif word.startswith("dep:"):
                found.add(word[len("dep:"):])
    return frozenset(found)
