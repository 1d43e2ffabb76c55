"""What Cargo lists of a manifest and of its workspace."""
import dataclasses
import difflib
import json
import os
from typing import Any, Dict, FrozenSet, Iterator, NamedTuple, Optional, Sequence, Tuple

from .. import _files, _process
from ._errors import CargoError, RequestError

KINDS = ("normal", "dev", "build")
# How long the command waits for cargo by itself, in seconds.
TIMEOUT = 60.0
# What cargo may print, in bytes, and the data that its process may have. A manifest of a megabyte
# may define a long list once, and make cargo print it ten thousand times.
MOST_PRINTED, MOST_DATA = 32 << 20, 1 << 30
# Beside a graph, cargo would read and write what rustc says in the folder `target` of a workspace.
VARIABLES = {"CARGO_CACHE_RUSTC_INFO": "0"}


class Source(NamedTuple):
    """From where Cargo takes a package."""

    kind: str
    """`registry`, `git` or `path`."""
    location: str
    """The address of the registry or of the repository, as Cargo prints it, or a folder."""


@dataclasses.dataclass(frozen=True)
class Dependency:
    """A row of a table of dependencies in a manifest."""

    package: str
    """The name of the package that has it."""
    name: str
    """The name that the manifest of the package uses."""
    renamed_from: Optional[str]
    """The name of the package that it stands for, if the manifest renames it."""
    kind: str
    """`normal`, `dev` or `build`."""
    is_optional: bool
    """Whether a feature has to ask for it."""
    condition: Optional[str]
    """A condition in `cfg( )`, as Cargo prints it, or a triple, or `None` if there is none."""
    path: Optional[str] = None
    """The folder of the package that it stands for, if the manifest names one."""
    requirement: str = "*"
    """The versions that it may have, as Cargo prints them, such as `^1.2`."""
    source: Source = Source("registry", "")
    """From where Cargo takes the package that it stands for."""
    uses_default_features: bool = True
    """Whether it asks for the feature `default`."""
    features: Tuple[str, ...] = ()
    """The features that it asks for, in the order of the manifest."""
    package_version: str = ""
    """The version of the package that has it."""
    package_manifest: str = ""
    """The path of the manifest of the package that has it."""


@dataclasses.dataclass(frozen=True)
class Package:
    """A package that Cargo lists, such as one of a workspace."""

    name: str
    """Its name."""
    version: str
    """Its version."""
    identity: str
    """The text that stands for it alone, as Cargo prints it."""
    source: Source
    """From where Cargo takes it."""
    manifest_path: str
    """The path of its manifest."""
    dependencies: Tuple[Dependency, ...]
    """Its dependencies, in the order in which Cargo lists them."""
    has_build_script: bool
    """Whether Cargo builds a build script."""
    is_macro: bool
    """Whether its library is a proc-macro."""
    has_macro: bool
    """Whether its library or an example is a proc-macro, which Cargo builds for the host."""
    has_target_units: bool
    """Whether Cargo builds something of it for the target: a library that is no proc-macro, or a
    binary, a test, an example or a benchmark."""
    has_macro_tests: bool
    """Whether something reads its dev-dependencies that Cargo builds for the host: tests of a
    proc-macro, or an example that is one."""
    has_target_tests: bool
    """Whether something reads its dev-dependencies that Cargo builds for the target."""

    @property
    def folder(self) -> str:
        """The folder of the package."""
        return os.path.dirname(self.manifest_path)


@dataclasses.dataclass(frozen=True)
class Workspace:
    """The packages that Cargo lists of a manifest."""

    packages: Tuple[Package, ...]
    """All packages of the workspace."""
    own: Tuple[Package, ...]
    """The package of the manifest alone, or if it has none, all packages."""

    @classmethod
    def of(cls, packages: Sequence[Package], manifest: str) -> "Workspace":
        """Returns the workspace with these packages, of which the manifest is one or the root."""
        same = os.path.realpath(manifest)
        own = tuple(one for one in packages if os.path.realpath(one.manifest_path) == same)
        return cls(tuple(packages), own or tuple(packages))

    def chosen(
        self, names: Sequence[str], is_whole: bool, excluded: Sequence[str] = ()
    ) -> Tuple[Package, ...]:
        """Returns the packages with these names or, if there are no names, all packages of the
        workspace but those that are excluded, or those of the manifest. Raises `RequestError`."""
        if names and is_whole:
            raise RequestError("-p names packages, and --workspace takes all of them: give one")
        if excluded and not is_whole:
            raise RequestError("--exclude needs --workspace, of which it leaves out packages")
        self._expect(*names, *excluded)
        if names:
            wanted = frozenset(names)
            return tuple(one for one in self.packages if one.name in wanted)
        unwanted = frozenset(excluded)
        if is_whole:
            return tuple(one for one in self.packages if one.name not in unwanted)
        return self.own

    def _expect(self, *names: str) -> None:
        """Raises `RequestError` if the workspace lacks a package."""
        known = dict.fromkeys(one.name for one in self.packages)
        missing = [name for name in names if name not in known]
        if missing:
            close = difflib.get_close_matches(missing[0], known, 1)
            hint = f"; is it {close[0]}?" if close else ""
            raise RequestError(f"the workspace has no package {missing[0]}{hint}")


def manifest_above(folder: str) -> str:
    """Returns the path of the first `Cargo.toml` in a folder or above it."""
    above = folder
    while True:
        path = os.path.join(above, "Cargo.toml")
        if os.path.exists(path):
            return path
        if above == os.path.dirname(above):
            raise CargoError(f"there is no Cargo.toml in {folder} or above it")
        above = os.path.dirname(above)


def manifest_at(path: Optional[str]) -> str:
    """Returns the whole path of a manifest: that at a path, which may be a folder, or without one
    the first above the current folder."""
    try:
        if path is None:
            return manifest_above(os.getcwd())
        whole = os.path.abspath(path)
    except OSError as error:
        raise CargoError(f"the current folder cannot be read: {error.strerror}") from error
    return os.path.join(whole, "Cargo.toml") if os.path.isdir(whole) else whole


def expect_fit(manifest: str) -> None:
    """Raises `CargoError` for a manifest that is no regular file, or too large. Cargo would wait
    for a FIFO, and read a device to its end."""
    try:
        _files.expect_fit(manifest)
    except (FileNotFoundError, NotADirectoryError):
        # Cargo says what is missing.
        pass
    except OSError as error:
        raise CargoError(f"{manifest} cannot be read: {error.strerror}") from error
    except ValueError as error:
        raise CargoError(f"{manifest} cannot be read: {error}") from error


def expect_time(seconds: float) -> None:
    """Raises `RequestError` for what is no time to wait for cargo."""
    if not 0 < seconds < float("inf"):
        raise RequestError(f"{seconds} is no time to wait for cargo: one is a number of seconds")


def output_of(*words: str, seconds: float) -> str:
    """Returns what `cargo` prints within some seconds with these words, of which the last says what
    it may refuse. Raises `CargoError`."""
    limits = _process.Limits(seconds, MOST_PRINTED, MOST_DATA)
    try:
        run = _process.run(["cargo", *words], limits, VARIABLES)
    except FileNotFoundError as error:
        message = "there is no cargo on the path, and only cargo reads a manifest"
        raise CargoError(message) from error
    except (OSError, ValueError) as error:
        raise CargoError(f"cargo could not be run: {error}") from error
    except _process.LimitError as error:
        raise CargoError(f"cargo {error}, and was ended: {words[-1]}") from error
    if run.status != 0:
        raise CargoError(f"cargo refuses {words[-1]}:{quoted(run.stderr)}")
    return run.stdout.decode(errors="replace")


def quoted(message: bytes) -> str:
    """Returns what a program printed, in indented lines. It may quote a manifest, and a line feed
    there starts no line that looks like one of the command."""
    lines = message.decode(errors="replace").rstrip().replace("\r\n", "\n").split("\n")
    return "".join(f"\n    {line}" for line in lines)


def host(seconds: float = TIMEOUT) -> str:
    """Returns the triple of the machine on which `cargo` runs."""
    for line in output_of("-vV", seconds=seconds).splitlines():
        if line.startswith("host: "):
            return line[6:]
    raise CargoError("cargo -vV names no host")


def workspace_of(manifest: str, seconds: float = TIMEOUT) -> Workspace:
    """Returns what Cargo lists within some seconds of the manifest with a whole path. Raises
    `CargoError`."""
    expect_fit(manifest)
    words = ("metadata", "--no-deps", "--format-version", "1", "--manifest-path", manifest)
    text = output_of(*words, seconds=seconds)
    try:
        packages = tuple(map(package_of, json.loads(text)["packages"]))
    except (ValueError, LookupError, TypeError, AttributeError, RecursionError) as error:
        raise CargoError(f"cargo lists no packages of {manifest}: {error}") from error
    return Workspace.of(packages, manifest)


def package_of(listed: Dict[str, Any]) -> Package:
    """Returns a package that Cargo lists."""
    name, version, manifest = listed["name"], listed["version"], listed["manifest_path"]
    parts = [one for one in map(part_of, listed["targets"]) if one.is_built]
    macros = [one for one in parts if "proc-macro" in one.kinds]
    others = [one for one in parts if not one.kinds & {"custom-build", "proc-macro"}]
    return Package(
        name, version, listed["id"], source_of(listed["source"], os.path.dirname(manifest)),
        manifest, tuple(dependencies_of(listed)),
        has_build_script=any("custom-build" in one.kinds for one in parts),
        is_macro=any("proc-macro" in one["kind"] for one in listed["targets"]),
        has_macro=bool(macros), has_target_units=bool(others),
        has_macro_tests=any(one.is_tested for one in macros),
        has_target_tests=any(one.is_tested for one in others),
    )


@dataclasses.dataclass(frozen=True)
class Part:
    """A part of a package, such as its library, which Cargo calls a target."""

    kinds: FrozenSet[str]
    """Its kinds, and those of the crates that it is compiled to."""
    is_tested: bool
    """Whether it is a test, an example or a benchmark, or has unit tests or documentation tests.
    This is what reads dev-dependencies."""
    is_built: bool
    """Whether Cargo builds it if nothing asks for it by its name."""


def part_of(listed: Dict[str, Any]) -> Part:
    """Returns a part of a package that Cargo lists. Its `test` and `doctest` are those of the
    manifest, where both are true by default."""
    kinds = frozenset(listed["kind"])
    has_tests = listed.get("test", True) or listed.get("doctest", True)
    return Part(
        kinds | frozenset(listed["crate_types"]),
        is_tested=has_tests or bool(kinds & {"test", "example", "bench"}),
        is_built="test" not in kinds or listed.get("test", True),
    )


def dependencies_of(listed: Dict[str, Any]) -> Iterator[Dependency]:
    """Yields the dependencies that Cargo lists of a package. Equal texts are one object, since a
    package may have a hundred thousand dependencies."""
    name, version, manifest = listed["name"], listed["version"], listed["manifest_path"]
    texts: Dict[str, str] = {}
    sources: Dict[Tuple[Optional[str], Optional[str]], Source] = {}
    for one in listed["dependencies"]:
        rename, path, requirement = one["rename"], one.get("path"), one["req"]
        origin = one["source"], path
        yield Dependency(
            name, rename or one["name"], one["name"] if rename else None, one["kind"] or "normal",
            one["optional"], one["target"], path, texts.setdefault(requirement, requirement),
            sources.setdefault(origin, source_of(*origin)), one["uses_default_features"],
            tuple(one["features"]), version, manifest,
        )


def source_of(origin: Optional[str], folder: Optional[str]) -> Source:
    """Returns the source that Cargo lists as `origin`, or the folder if it lists none."""
    if origin is None:
        return Source("path", folder or "")
    kind, _, location = origin.partition("+")
    # The address of a sparse registry begins with the kind.
    return Source(kind if kind == "git" else "registry", origin if kind == "sparse" else location)
