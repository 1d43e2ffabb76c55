"""Which dependencies of a `Cargo.toml` Cargo takes on each platform.

`report` is what the command `cfgx-deps` prints. It starts `cargo` in the folder `/` for the list of
dependencies and for the host, and no other program unless `rustc` is true. `resolved` is what the
command prints with `--resolved`: which packages of a lock file a build for each platform has.

Cargo reads the condition of a dependency for each *unit* that it builds of the package, on the
platform of the unit. With a target, build scripts and proc-macros are units for the host, and so is
each library that one of them uses. All else is for the target, also the binaries, tests, examples
and benchmarks of a package with a proc-macro. Only build scripts read build-dependencies, and only
tests, examples and benchmarks read dev-dependencies. A value is `Value.NOT_READ` where no unit
reads the condition. Without a target all units are for the host.

A predicate is true if its text is a line that rustc prints to Cargo, or a flag that is set. With a
target, no flag reaches the host. Any other predicate is false, but a flag without a meaning of its
own, such as `loom`, is unknown where flags may be set.

>>> import cfgx.manifest
>>> try:
...     cfgx.manifest.report("/nowhere", ["x86_64-pc-windows-gnu"], kinds=["tests"])
... except cfgx.manifest.ManifestError as error:
...     print(type(error).__name__, error)
RequestError tests is no kind: one is normal, dev or build
"""
from ._cargo import Dependency, Package, Source
from ._conditions import Fault, Unknown
from ._errors import CargoError, CompilerError, FactsError, ManifestError, RequestError
from ._graph import Features
from ._platforms import Platform
from ._report import Report, Row, Value, report
from ._resolved import Leg, Resolved, Route, Used, resolved

__all__ = [
    "CargoError", "CompilerError", "Dependency", "FactsError", "Fault", "Features", "Leg",
    "ManifestError", "Package", "Platform", "Report", "RequestError", "Resolved", "Route", "Row",
    "Source", "Unknown", "Used", "Value", "report", "resolved",
]

# Tracebacks and pages name the module that callers import from.
for _name in __all__:
    globals()[_name].__module__ = __name__
