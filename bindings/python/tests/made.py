"""Packages that are made for a test, and what Cargo builds of them."""
import json
import os
import re
import subprocess
import sys
import tempfile
import unittest

from . import PACKAGE

from cfgx import _library
from cfgx.manifest import Value

# A compiler that is not told what Cargo is: that it may use what is unstable.
RUSTC = '#!/bin/sh\nunset RUSTC_BOOTSTRAP\nexec rustc "$@"\n'
# A path in a manifest to a package that is made for it.
STUB = re.compile(r'"\.\./stubs/([\w-]+)"')
KINDS = ("dependencies", "dev-dependencies", "build-dependencies")


def entry(kind, name, *fields, condition=None, place="../stubs"):
    """Returns a table with a dependency on a package that is made for it, or that stands in a
    folder of another place."""
    target = "" if condition is None else f"target.'{condition}'."
    lines = [f"[{target}{kind}.{name}]", f'path = "{place}/{name}"', *fields]
    return "\n".join(lines)


class Folder(unittest.TestCase):
    """A folder of its own, with packages."""

    def setUp(self):
        folder = tempfile.TemporaryDirectory()
        self.addCleanup(folder.cleanup)
        self.folder = os.path.realpath(folder.name)

    def write(self, path, text=""):
        """Writes a file in the folder, and the folders above it. Returns its path."""
        path = os.path.join(self.folder, path)
        os.makedirs(os.path.dirname(path), exist_ok=True)
        with open(path, "w", encoding="utf-8") as file:
            file.write(text)
        return path

    def write_program(self, path, text):
        """Writes a script that can be run. Returns its path."""
        path = self.write(path, text)
        os.chmod(path, 0o755)
        return path

    def write_package(self, name, *lines, sources=("src/lib.rs",)):
        """Writes a package with these lines in its manifest, with sources, and with each package
        that a path in the manifest leads to. Returns the path of the manifest."""
        head = f'[package]\nname = "{name}"\nversion = "0.1.0"\nedition = "2021"\n'
        text = head + "".join(f"{line}\n" for line in lines)
        for source in sources:
            self.write(f"{name}/{source}", "" if source == "src/lib.rs" else "fn main() {}\n")
        for found in STUB.findall(text):
            self.write(f"stubs/{found}/Cargo.toml", head.replace(f'"{name}"', f'"{found}"'))
            self.write(f"stubs/{found}/src/lib.rs")
        return self.write(f"{name}/Cargo.toml", text)

    def write_workspace(self, *members, lines=()):
        """Writes the manifest of a workspace with these members. Returns its path."""
        head = f'[workspace]\nresolver = "2"\nexclude = ["stubs"]\nmembers = {list(members)}\n'
        return self.write("Cargo.toml", head.replace("'", '"') + "".join(map("{}\n".format, lines)))

    def graph_of(
        self, path, *targets, rustc=None, folder="/", command=("build", "--all-targets"),
        **variables,
    ):
        """Returns the units that a command of Cargo would build of all packages of a workspace: by
        itself, of all their parts."""
        rustc = rustc or self.write_program("tools/rustc", RUSTC)
        words = ["cargo", *command, "--unit-graph", "-Z", "unstable-options", "--offline",
                 "--workspace", "--all-features", "--manifest-path", path]
        words += [word for target in targets for word in ("--target", target)]
        usual = {name: value for name, value in os.environ.items() if "RUSTFLAGS" not in name}
        run = subprocess.run(
            words, cwd=folder, env={**usual, "RUSTC_BOOTSTRAP": "1", "RUSTC": rustc, **variables},
            stdout=subprocess.PIPE, stderr=subprocess.PIPE, check=False,
        )
        self.assertEqual(run.returncode, 0, run.stderr.decode())
        return json.loads(run.stdout)["units"]

    def assert_is_built(self, report, units):
        """Compares each value of a report with units: it is `-` if no unit there would read the
        row, and else it tells whether one of them uses the dependency. Returns how many values
        were compared."""
        self.assertTrue(report.rows)
        compared = 0
        for row in report.rows:
            for platform, value in zip(report.platforms, row.values):
                is_alone = len(report.platforms) == 1
                wanted = value_in(units, row.dependency, platform.name, is_alone)
                where = row.dependency.package, row.dependency.name, platform.name
                self.assertEqual((*where, value), (*where, wanted))
                compared += 1
        return compared


class Shell(Folder):
    """The command `cfgx-deps` in a shell."""

    def output_of(self, command, folder):
        """Returns what a command of a shell prints in a folder."""
        script = os.path.abspath(os.path.join(PACKAGE, "cfgx_deps.py"))
        self.write_program("bin/cfgx-deps", f'#!/bin/sh\nexec {sys.executable} {script} "$@"\n')
        usual = {name: value for name, value in os.environ.items() if "RUSTFLAGS" not in name}
        path = os.path.join(self.folder, "bin") + os.pathsep + os.environ["PATH"]
        run = subprocess.run(
            ["sh", "-ec", command], cwd=folder, check=True, stdout=subprocess.PIPE,
            stderr=subprocess.PIPE,
            env={**usual, "PATH": path, "CFGX_LIBRARY": _library.path_of()},
        )
        return run.stdout.decode()


def value_in(units, dependency, name, is_alone):
    """Returns what units say of a dependency on the platform with a name. `is_alone` is whether no
    target is named."""
    triple = None if name == "host" or is_alone else name
    reading = [
        unit for unit in units
        if unit["platform"] == triple and name_in(unit) == dependency.package
        and is_reader(unit, dependency.kind)
    ]
    if not reading:
        return Value.NOT_READ
    used = {found["extern_crate_name"] for unit in reading for found in unit["dependencies"]}
    return Value.YES if dependency.name.replace("-", "_") in used else Value.NO


def name_in(unit):
    """Returns the name of the package of a unit. Its identity ends with the name and the version,
    or with the folder and the version if that has the name."""
    place, end = unit["pkg_id"].rsplit("#", 1)
    return end.split("@")[0] if "@" in end else place.rsplit("/", 1)[1]


def is_reader(unit, kind):
    """Whether a unit reads the dependencies of a kind."""
    kinds, mode = unit["target"]["kind"], unit["mode"]
    if "custom-build" in kinds:
        return kind == "build" and mode == "build"
    is_test = mode in ("test", "doctest") or kinds[0] in ("test", "example", "bench")
    return kind == "normal" or (kind == "dev" and is_test)
