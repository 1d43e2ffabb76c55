"""What Cargo takes of the dependencies of a manifest on platforms."""
import dataclasses
import enum
import os
from typing import Dict, Iterable, List, Mapping, Optional, Sequence, Tuple

from .. import _renamed
from . import _cargo, _flags, _platforms
from ._cargo import Dependency, Package
from ._conditions import Fault, Reasons, Unknown, Values, values_of
from ._errors import RequestError
from ._platforms import Flags, Platform, Progress
from ._units import Sides, Units


class Value(enum.Enum):
    """What a dependency is on a platform."""

    YES = "yes"
    """Cargo reads the condition there, and it is true."""
    NO = "no"
    """Cargo reads the condition there, and it is false."""
    UNKNOWN = "unknown"
    """Cargo reads the condition there, and it depends on flags that may be set."""
    NOT_READ = "-"
    """Cargo builds nothing there that uses the dependency."""


def has_unknown(values: Sequence[Value]) -> bool:
    """Whether a value is unknown."""
    return Value.UNKNOWN in values


def differ(values: Sequence[Value]) -> bool:
    """Whether there are several values, where Cargo reads the dependency."""
    return len(set(values) - {Value.NOT_READ}) > 1


VALUES = {True: Value.YES, False: Value.NO, None: Value.UNKNOWN}
# The variable of the environment that stands for `build.target` of a configuration file.
BUILD_TARGET = "CARGO_BUILD_TARGET"
# The old names of parameters.
RENAMED = {
    "is_workspace": ("workspace", _renamed.same), "flags": ("cfg", _renamed.same),
    "has_other_flags": ("no_other_cfg", _renamed.opposite), "asks_rustc": ("rustc", _renamed.same),
}


@dataclasses.dataclass(frozen=True)
class Row:
    """A dependency on the platforms of a report."""

    dependency: Dependency
    """The dependency."""
    values: Tuple[Value, ...]
    """What it is on each platform."""
    is_never: bool
    """Whether its condition is false on all platforms, also where Cargo does not read it."""
    unknown: Mapping[int, Unknown]
    """Why a value is unknown, by the number of the platform."""
    fault: Optional[Fault]
    """Why the engine refuses the condition, which Cargo accepts."""
    is_tried: bool = True
    """Whether each unknown value was tried out. If not, it may be known after all, since a report
    tries a bounded number of answers to flags."""

    @property
    def is_conditional(self) -> bool:
        """Whether the dependency has a condition."""
        return self.dependency.condition is not None

    @property
    def is_differing(self) -> bool:
        """Whether it has several values on the platforms where Cargo reads it."""
        return differ(self.values)

    @property
    def is_unknown(self) -> bool:
        """Whether a value is unknown."""
        return has_unknown(self.values)


@dataclasses.dataclass(frozen=True)
class Report:
    """The dependencies of a manifest on platforms."""

    manifest_path: str
    """The whole path of the manifest."""
    platforms: Tuple[Platform, ...]
    """The platforms. The first is the host."""
    rows: Tuple[Row, ...]
    """The dependencies, package by package, in the order in which Cargo lists them."""
    notes: Tuple[str, ...]
    """What was found and not taken into account, a sentence each."""

    @property
    def is_tried(self) -> bool:
        """Whether each unknown value of each row was tried out."""
        return all(row.is_tried for row in self.rows)


@_renamed.parameters(**RENAMED)
def report(
    manifest: Optional[str] = None, targets: Sequence[str] = (), *,
    packages: Sequence[str] = (), workspace: bool = False, exclude: Sequence[str] = (),
    kinds: Sequence[str] = _cargo.KINDS, facts: Optional[Mapping[str, Iterable[str]]] = None,
    cfg: Sequence[str] = (), no_other_cfg: bool = False,
    rustflags: Optional[Sequence[str]] = None, rustc: bool = False,
    host: Optional[str] = None, environment: Optional[Mapping[str, str]] = None,
    cargo_timeout: float = _cargo.TIMEOUT, progress: Optional[Progress] = None,
) -> Report:
    """Returns which dependencies of a manifest Cargo takes, on the host and on targets.

    - `manifest` is the path of a `Cargo.toml` or of its folder. Without one it is the first
      `Cargo.toml` in the current folder or above it.
    - `targets` are triples, `host-tuple`, or `all`, which stands for each target of the package's
      table. If there is neither a target nor one in `facts`, everything is built for the host.
    - `packages` are names of packages of the workspace. `workspace` stands for all of them but
      those in `exclude`. Without both, it is the package of the manifest, or all if it has none.
    - `kinds` are those of the dependencies: `normal`, `dev` and `build`.
    - `facts` are more targets: by triple, the lines that rustc prints, or a text of them.
    - `cfg` are flags that are set, as `rustc --cfg` takes them. `no_other_cfg` is whether no other
      flag is set.
    - `rustflags` are the arguments of rustc in `RUSTFLAGS`, divided.
    - `rustc` lets `$RUSTC`, or the `rustc` on the path, say the facts. As many run at once as there
      are processors.
    - `host` is a triple. Without one, `cargo -vV` names it, or `rustc -vV` with `rustc`.
    - `environment` has the variables that Cargo reads, if not those of the process.
    - `cargo_timeout` is how long to wait for each run of `cargo`, in seconds.
    - `progress` is called with the number of targets of which `rustc` was asked so far, and with
      that of all of them.

    A parameter has the name of an option of the command. The manifest is a regular file of at most
    a megabyte, and so is each other file that is read. The values that are unknown to the engine
    share a budget: beyond it, `is_tried` is false.

    Raises a `ManifestError`, or `TypeError` if a text stands for a list.
    """
    expect_lists(targets, packages, exclude, kinds, cfg, rustflags or ())
    expect_kinds(kinds)
    _cargo.expect_time(cargo_timeout)
    variables = os.environ if environment is None else environment
    flags = Flags(tuple(cfg), tuple(rustflags or ()), not no_other_cfg)
    source = _platforms.source_of(flags, variables, rustc, cargo_timeout, progress)
    path = _cargo.manifest_at(manifest)
    listed = _cargo.workspace_of(path, cargo_timeout)
    chosen = listed.chosen(packages, workspace, exclude)
    platforms = _platforms.platforms_of(source, targets, facts or {}, flags, host)
    rows = rows_of(listed.packages, chosen, kinds, platforms)
    notes = notes_on(path, rustflags, variables, has_target=len(platforms) > 1)
    return Report(path, tuple(platforms), tuple(rows), tuple(notes))


def expect_lists(*lists: Sequence[str]) -> None:
    """Raises `TypeError` for a text that stands for a list of texts."""
    for one in lists:
        if isinstance(one, str):
            raise TypeError(f"{one!r} is a text, and no list of texts")


def expect_kinds(kinds: Sequence[str]) -> None:
    """Raises `RequestError` for a kind that no dependency has."""
    for kind in kinds:
        if kind not in _cargo.KINDS:
            raise RequestError(f"{kind} is no kind: one is normal, dev or build")


def rows_of(
    packages: Sequence[Package], chosen: Sequence[Package], kinds: Sequence[str],
    platforms: Sequence[Platform],
) -> List[Row]:
    """Returns the rows of the chosen ones among the packages of a workspace."""
    # Which packages are built for the host depends on rows of all packages.
    conditions = [row.condition for package in packages for row in package.dependencies]
    values = values_of(conditions, platforms)
    units = Units(packages, len(platforms) > 1, lambda row: values[row.condition].on[0] is True)
    sides = {
        (package.manifest_path, kind): units.sides_of(package, kind)
        for package in chosen for kind in kinds
    }
    made = Rows()
    return [
        made.row(dependency, values[dependency.condition], sides[package.manifest_path, kind])
        for package in chosen for dependency in package.dependencies
        for kind in [dependency.kind] if kind in kinds
    ]


class Rows:
    """Makes rows. What is equal in many of them is one object, since a manifest may have a hundred
    thousand rows on three hundred platforms."""

    def __init__(self) -> None:
        self._values: Dict[Tuple[int, Sides], Tuple[Tuple[Value, ...], bool]] = {}
        self._unknown: Dict[Tuple[int, Sides], Tuple[Reasons, bool]] = {}

    def row(self, dependency: Dependency, values: Values, sides: Sides) -> Row:
        """Returns the row of a dependency that Cargo reads on these sides."""
        key = id(values.on), sides
        if key not in self._values:
            is_never = all(value is False for value in values.on)
            self._values[key] = values_on(values.on, sides), is_never
        reasons = id(values), sides
        if reasons not in self._unknown:
            unknown = values.unknown.on(sides.host, sides.target)
            self._unknown[reasons] = unknown, all(one.is_tried for one, _ in unknown.groups)
        (shown, is_never), (unknown, is_tried) = self._values[key], self._unknown[reasons]
        return Row(dependency, shown, is_never, unknown, values.fault, is_tried)


def values_on(on: Sequence[Optional[bool]], sides: Sides) -> Tuple[Value, ...]:
    """Returns what a dependency is on each platform if Cargo reads it on these sides."""
    is_read = [sides.host] + [sides.target] * (len(on) - 1)
    return tuple(
        VALUES[value] if is_there else Value.NOT_READ for value, is_there in zip(on, is_read)
    )


def notes_on(
    manifest: str, rustflags: Optional[Sequence[str]], environment: Mapping[str, str],
    has_target: bool,
) -> Iterable[str]:
    """Yields which settings of flags and of the target were found and not read."""
    for name in _flags.VARIABLES if rustflags is None else ():
        if environment.get(name):
            yield f"{name} is set and not read; --rustflags reads it"
    for name in sorted(filter(_flags.CONFIGURING.fullmatch, environment)):
        yield f"{name} is set and not read; --cfg says which flags are set"
    if environment.get(BUILD_TARGET) and not has_target:
        yield f"{BUILD_TARGET} is set and not read; --target names a target"
    yield from _flags.notes_on_configurations(os.path.dirname(manifest), environment)
