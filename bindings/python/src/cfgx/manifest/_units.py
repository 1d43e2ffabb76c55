"""For what Cargo builds the parts of a package, and so where it reads its dependencies.

Cargo builds a *unit* for the host or for the target: one part of a package, such as its library, a
binary or a test. It reads the conditions of a package once for each unit, on the platform of that
unit. So a dependency of a package has up to two sides.

- A build script is a unit for the host, and alone reads the build-dependencies.
- A library that is a proc-macro is a unit for the host, and so are its tests. So is an example
  that is a proc-macro.
- Any other library is a unit for the target. If a unit for the host uses it, it is one for the host
  as well: a build script, a proc-macro or its unit tests, or another library on the host.
- Binaries, tests, examples and benchmarks are units for the target, also beside a proc-macro.

Each unit but a build script reads the dependencies of its package. Unit tests, documentation tests,
tests, examples and benchmarks read the dev-dependencies too. A library or a binary with
`test = false` has no unit tests, and with `doctest = false` no documentation tests. If no target is
named, each unit is one for the host.
"""
import dataclasses
from typing import Callable, Dict, FrozenSet, Iterable, Iterator, List, Sequence, Set

from ._cargo import Dependency, Package


@dataclasses.dataclass(frozen=True)
class Sides:
    """On which sides Cargo reads a dependency."""

    host: bool
    target: bool


class Units:
    """The sides of the packages of a workspace."""

    def __init__(
        self, packages: Sequence[Package], has_target: bool,
        applies: Callable[[Dependency], bool],
    ) -> None:
        """Finds the libraries that are built for the host. `has_target` is whether a target is
        named, and `applies` whether the condition of a dependency is true on the host."""
        self._has_target = has_target
        self._applies = applies
        self._by_folder: Dict[str, Package] = {one.folder: one for one in packages}
        self._on_host = self._libraries_on_host(packages)

    def sides_of(self, package: Package, kind: str) -> Sides:
        """Returns where Cargo reads the dependencies of a kind of a package."""
        if kind == "build":
            return Sides(package.has_build_script, False)
        if kind == "dev":
            sides = Sides(package.has_macro_tests, package.has_target_tests)
        else:
            is_used = package.manifest_path in self._on_host
            sides = Sides(package.has_macro or is_used, package.has_target_units)
        return sides if self._has_target else Sides(sides.host or sides.target, False)

    def _libraries_on_host(self, packages: Iterable[Package]) -> FrozenSet[str]:
        """Returns the manifests of the packages whose library a unit for the host uses."""
        found: Set[str] = set()
        waiting = [used for one in packages for used in self._used_first(one)]
        while waiting:
            package = waiting.pop()
            if package.manifest_path not in found:
                found.add(package.manifest_path)
                waiting += self._used_by(package, ("normal",))
        return frozenset(found)

    def _used_first(self, package: Package) -> Iterator[Package]:
        """Yields the packages whose library a unit of a package uses that is one for the host
        alone."""
        if package.has_build_script:
            yield from self._used_by(package, ("build",))
        if package.has_macro:
            yield from self._used_by(package, ("normal",))
        if package.has_macro_tests:
            yield from self._used_by(package, ("dev",))

    def _used_by(self, package: Package, kinds: Sequence[str]) -> List[Package]:
        """Returns the packages of the workspace that stand for dependencies of these kinds which
        apply on the host."""
        rows = (row for row in package.dependencies if row.kind in kinds and row.path is not None)
        used = ((row, self._by_folder.get(row.path or "")) for row in rows)
        return [found for row, found in used if found is not None and self._applies(row)]
