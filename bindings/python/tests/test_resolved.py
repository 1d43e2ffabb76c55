"""The packages of a lock file, beside `cargo tree`, and how cargo is started for them."""
import json
import os
import re
import subprocess
import unittest.mock

from . import needs
from .made import Folder
from .test_command import HOST, Made

from cfgx import _process, manifest
from cfgx.manifest import Features, Value, _cargo

TARGETS = ["x86_64-unknown-linux-gnu", "x86_64-pc-windows-msvc", "aarch64-apple-darwin",
           "wasm32-unknown-unknown", "x86_64-unknown-freebsd"]
# The kinds of dependencies that are followed.
KINDS = (["normal"], ["normal", "build"], ["normal", "build", "dev"])
# A line of `cargo tree`.
LINE = re.compile(r"(\S+) v(\S+)")
MACRO = "[lib]\nproc-macro = true\n"
# Workspaces by their names: each package with the lines of its manifest, and `path` for the path to
# another one. Those that begin with `app` are the members. A package that ends with `-built` has a
# build script.
WORKSPACES = {
    "conditions": {
        "app": "[dependencies]\na = path\n[target.'cfg(windows)'.dependencies]\nb = path\n"
               "[target.'cfg(unix)'.dependencies]\nc = path\n",
        "a": "[target.x86_64-pc-windows-msvc.dependencies]\nd = path\n"
             "[target.'cfg(target_vendor = \"apple\")'.dependencies]\ne = path\n",
        "b": "[target.'cfg(unix)'.dependencies]\nf = path\n",
        "c": "[target.'cfg(not(target_os = \"macos\"))'.dependencies]\ng = path\n",
        "d": "", "e": "", "f": "", "g": "",
    },
    "hosts": {
        "app-built": "[dependencies]\nmac = path\na-built = path\n[build-dependencies]\nb = path\n"
                     "[target.'cfg(windows)'.build-dependencies]\nc = path\n",
        "mac": MACRO + "[target.'cfg(windows)'.dependencies]\nd = path\n"
               "[target.'cfg(unix)'.dependencies]\ne = path\n",
        "a-built": "[target.'cfg(windows)'.dependencies]\nf = path\n"
                   "[target.'cfg(unix)'.build-dependencies]\ng = path\n",
        "b": "[target.'cfg(target_os = \"macos\")'.dependencies]\nf = path\nmac2 = path\n",
        "mac2": MACRO, "c": "", "d": "", "e": "", "f": "", "g": "",
    },
    "tests": {
        "app": "[dependencies]\na = path\n[dev-dependencies]\nb = path\napp2 = path\n",
        "app2": "[dependencies]\napp = path\n[target.'cfg(windows)'.dev-dependencies]\nc = path\n",
        "a": "[dev-dependencies]\nd = path\n", "b": "[dev-dependencies]\ne = path\n"
             "[target.'cfg(unix)'.dependencies]\nf = path\n", "c": "", "d": "", "e": "", "f": "",
    },
    "features": {
        "app": "[features]\ndefault = ['x']\nx = ['a?/y', 'dep:b', 'c/z']\ny = ['dep:d']\n"
               "[dependencies]\na = { path, optional = true }\nb = { path, optional = true }\n"
               "c = { path, default-features = false }\nd = { path, optional = true }\n"
               "e = { path, optional = true }\n",
        "a": "[features]\ny = []\n", "b": "[features]\ndefault = ['f']\n[dependencies]\n"
             "f = { path, optional = true }\ng = { path, optional = true }\n",
        "c": "[features]\ndefault = ['dep:h']\nz = ['i']\n[dependencies]\n"
             "h = { path, optional = true }\ni = { path, optional = true }\n",
        "d": "", "e": "", "f": "", "g": "", "h": "", "i": "",
    },
    "names": {
        "app": "[dependencies]\nnew = { package = 'a', path }\n"
               "old = { package = 'a', path = '../a-old', optional = true }\n"
               "b-lib = { package = 'b', path }\n",
        "a": "", "a-old": "", "b": "[lib]\nname = 'another'\n[dependencies]\nc = path\n", "c": "",
    },
}
# How many packages each of them has in its lock file. A dev-dependency of a package that is no
# member is not there, nor is what no feature of a member needs.
LOCKED = {"conditions": 8, "hosts": 10, "tests": 6, "features": 8, "names": 5}
# Where Cargo unifies features: a target, or tests, or the host turn them on for all.
UNIFIED = {
    "by a target": {
        "app": "[dependencies]\na = path\n[target.'cfg(windows)'.dependencies]\n"
               "a = { path, features = ['x'] }\n",
        "a": "[features]\nx = ['dep:b']\n[dependencies]\nb = { path, optional = true }\n", "b": "",
    },
    "by tests": {
        "app": "[dependencies]\na = path\n[dev-dependencies]\na = { path, features = ['x'] }\n",
        "a": "[features]\nx = ['dep:b']\n[dependencies]\nb = { path, optional = true }\n", "b": "",
    },
}


def manifest_of(name, lines):
    """Returns the manifest of a package with some lines."""
    place = "other" if name == "a-old" else name
    package = "a" if name == "a-old" else name
    version = "0.2.0" if place == "other" else "0.1.0"
    head = f'[package]\nname = "{package}"\nversion = "{version}"\nedition = "2021"\n'
    text = re.sub(r"^([\w-]+) = path$", r"\1 = { path }", lines, flags=re.M)
    text = re.sub(r"^(.*package = '(\w+)', )path\b(?! =)", r"\1path = '../\2'", text, flags=re.M)
    return head + re.sub(r"^([\w-]+) = \{ path\b(?! =)", r"\1 = { path = '../\1'", text, flags=re.M)


class Locked(Folder):
    """A workspace with a lock file."""

    def write_locked(self, packages, resolver="2"):
        """Writes a workspace with these packages, of which Cargo makes the lock file. Returns the
        path of its manifest."""
        for name, lines in packages.items():
            self.write(f"{name}/Cargo.toml", manifest_of(name, lines))
            self.write(f"{name}/src/lib.rs")
            if name.endswith("-built"):
                self.write(f"{name}/build.rs", "fn main() {}\n")
        members = [name for name in packages if name.startswith("app")]
        others = [name for name in packages if name not in members]
        path = self.write("Cargo.toml", (
            f'[workspace]\nresolver = "{resolver}"\nmembers = {json.dumps(members)}\n'
            f"exclude = {json.dumps(others)}\n"
        ))
        self.cargo("generate-lockfile", "--offline", "--manifest-path", path)
        return path

    def cargo(self, *words):
        """Returns what cargo prints with these words."""
        usual = {name: value for name, value in os.environ.items() if "RUSTFLAGS" not in name}
        run = subprocess.run(["cargo", *words], cwd="/", env=usual, stdout=subprocess.PIPE,
                             stderr=subprocess.PIPE, check=False)
        self.assertEqual(run.returncode, 0, run.stderr.decode())
        return run.stdout.decode()

    def tree(self, path, target, kinds, *words):
        """Returns the names and versions of the packages that `cargo tree` shows."""
        printed = self.cargo(
            "tree", "--offline", "--locked", "--manifest-path", path, "--workspace", "--target",
            target, "--edges", ",".join(kinds), "--prefix", "none", *words,
        )
        return {LINE.match(line).groups() for line in printed.splitlines() if line}

    def files(self):
        """Returns each file and folder of the workspace, with its size and its times."""
        found = {}
        for folder, folders, names in os.walk(self.folder):
            for name in [*folders, *names]:
                path = os.path.join(folder, name)
                about = os.stat(path)
                found[path] = about.st_size, about.st_mtime_ns, about.st_ctime_ns
        return found


def packages_of(report, place):
    """Returns the names and versions of the packages that a build for a platform has."""
    return {(row.package.name, row.package.version) for row in report.rows
            if row.values[place] is Value.YES}


@needs("cargo", "rustc", untested="the packages of a lock file beside cargo tree")
class Trees(Locked):
    """Reports on lock files, beside `cargo tree`."""

    def compared(self, packages, resolver="2", features=Features(), words=(), more=frozenset()):
        """Compares the packages that builds have. Those that `more` names may be more of them.
        Returns how many values were compared, and how many packages were more."""
        path, count, extra = self.write_locked(packages, resolver), 0, 0
        for kinds in KINDS if resolver == "2" else KINDS[-1:]:
            report = manifest.resolved(path, TARGETS, workspace=True, kinds=kinds,
                                       features=features, no_other_cfg=True)
            for place, target in enumerate(TARGETS):
                wanted = self.tree(path, target, kinds, *words)
                found = packages_of(report, place)
                self.assertEqual(found - {(name, "0.1.0") for name in more}, wanted - {
                    (name, "0.1.0") for name in more}, (kinds, target))
                self.assertLessEqual(wanted, found)
                count, extra = count + len(report.rows), extra + len(found - wanted)
        return count, extra

    def test_workspaces(self):
        for name, packages in WORKSPACES.items():
            for resolver in ("1", "2"):
                with self.subTest(name=name, resolver=resolver):
                    self.folder = os.path.join(self.folder, f"{name}{resolver}")
                    count, _ = self.compared(packages, resolver)
                    values = LOCKED[name] * len(TARGETS)
                    self.assertEqual(count, values * (len(KINDS) if resolver == "2" else 1))

    def test_features(self):
        rows = [
            (Features(has_all=True), ["--all-features"]),
            (Features(has_default=False), ["--no-default-features"]),
            (Features(("y",)), ["--features", "y"]),
            (Features(("app/y", "a"), False), ["--no-default-features", "--features", "app/y,a"]),
        ]
        for place, (features, words) in enumerate(rows):
            with self.subTest(words=words):
                self.folder = os.path.join(self.folder, str(place))
                self.compared(WORKSPACES["features"], "2", features, words)

    def test_unified_features(self):
        # With the second resolver, a build has `b` where the feature is asked for.
        for name, packages in UNIFIED.items():
            self.folder = os.path.join(self.folder, name.replace(" ", ""))
            with self.subTest(name=name):
                _, extra = self.compared(packages, more={"b"})
                self.assertGreater(extra, 0)

    def test_each_package_of_the_lock_file(self):
        path = self.write_locked(WORKSPACES["features"])
        with open(os.path.join(self.folder, "Cargo.lock"), encoding="utf-8") as file:
            locked = re.findall(r'^name = "(.*)"\nversion = "(.*)"$', file.read(), re.M)
        for features in (Features(), Features(has_all=True), Features(has_default=False)):
            report = manifest.resolved(path, TARGETS, features=features)
            found = [(row.package.name, row.package.version) for row in report.rows]
            self.assertEqual(sorted(found), sorted(locked))

    def test_what_is_chosen(self):
        path = self.write_locked(WORKSPACES["tests"])
        rows = [({}, "a app app2 b c f"), ({"packages": ["app2"]}, "a app app2 c"),
                ({"packages": ["app"]}, "a app app2 b f")]
        for options, wanted in rows:
            report = manifest.resolved(path, [TARGETS[1], TARGETS[0]], **options)
            found = {name for place in (0, 1) for name, _ in packages_of(report, place)}
            self.assertEqual(" ".join(sorted(found)), wanted)
        report = manifest.resolved(os.path.join(self.folder, "app2"), TARGETS[1:2])
        self.assertEqual({name for name, _ in packages_of(report, 0)}, {"a", "app", "app2", "c"})


@needs("cargo", "rustc", untested="what cargo does for a report on a lock file")
class Started(Locked):
    """How cargo is started, and what it leaves as it is."""

    def test_nothing_is_written(self):
        path = self.write_locked(WORKSPACES["hosts"])
        self.write("target/file")
        before = self.files()
        report = manifest.resolved(path, TARGETS)
        self.assertEqual(len(report.rows), len(WORKSPACES["hosts"]))
        self.assertEqual(self.files(), before)

    def test_a_lock_file_that_does_not_fit(self):
        path = self.write_locked(WORKSPACES["conditions"])
        lock = os.path.join(self.folder, "Cargo.lock")
        with open(lock, encoding="utf-8") as file:
            text = file.read()
        a_manifest = os.path.join(self.folder, "a/Cargo.toml")
        with open(a_manifest, encoding="utf-8") as file:
            added = file.read() + "[dependencies]\ng = { path = '../g' }\n"
        changes = [
            (lambda: os.remove(lock), "lock file"), (lambda: self.write("Cargo.lock", "x"), "lock"),
            (lambda: self.write("a/Cargo.toml", added), "lock file"),
        ]
        for change, message in changes:
            self.write("Cargo.lock", text)
            change()
            before = self.files()
            with self.assertRaisesRegex(manifest.CargoError, message) as caught:
                manifest.resolved(path, TARGETS)
            self.assertTrue(str(caught.exception).startswith(f"cargo refuses {path}:\n    "))
            self.assertEqual(self.files(), before)

    def test_packages_that_are_not_there(self):
        path = self.write_package("b", '[dependencies]\na = "1"', "[workspace]")
        self.write("b/Cargo.lock", (
            'version = 3\n[[package]]\nname = "a"\nversion = "1.0.0"\n'
            'source = "registry+https://github.com/rust-lang/crates.io-index"\n'
            '[[package]]\nname = "b"\nversion = "0.1.0"\ndependencies = ["a"]\n'
        ))
        with unittest.mock.patch.dict("os.environ", CARGO_HOME=os.path.join(self.folder, "home")), \
                self.assertRaisesRegex(manifest.CargoError, r"no matching package|offline"):
            manifest.resolved(path)

    def test_a_source_of_packages(self):
        # What the folder configures is not read, and a setting that is given is.
        self.write("store/a/Cargo.toml", '[package]\nname = "a"\nversion = "1.2.3"\n')
        self.write("store/a/src/lib.rs")
        self.write("store/a/.cargo-checksum.json", '{"files": {}}')
        path = self.write_package("b", '[dependencies]\na = "1"', "[workspace]")
        config = ('[source.crates-io]\nreplace-with = "store"\n[source.store]\n'
                  'directory = "../store"\n')
        file = self.write("b/.cargo/config.toml", config)
        home = {"CARGO_HOME": os.path.join(self.folder, "home")}
        words = ['source.crates-io.replace-with="store"',
                 f'source.store.directory="{self.folder}/store"']
        with unittest.mock.patch.dict("os.environ", home):
            self.cargo("generate-lockfile", "--offline", "--manifest-path", path, "--config", file)
            before = os.getcwd()
            self.addCleanup(os.chdir, before)
            os.chdir(self.folder)
            for settings in ([file], ["b/.cargo/config.toml"], words):
                [row, _] = manifest.resolved(path, TARGETS[:1], config=settings).rows
                self.assertEqual((row.package.name, row.package.version), ("a", "1.2.3"))
                self.assertEqual(row.package.source.kind, "registry")
                self.assertEqual(row.values, (Value.YES,))
            with self.assertRaises(manifest.CargoError):
                manifest.resolved(path)


class Fake(Made):
    """A `cargo` that is made up, which says how it was started."""

    def started(self, *words, **variables):
        """Returns what the command says of a cargo that refuses, and prints how it was started."""
        self.write_program("tools/cargo", (
            '#!/bin/sh\npwd >&2; echo "$CARGO_CACHE_RUSTC_INFO" >&2; echo "$@" >&2; exit 1\n'
        ))
        status, output, message = self.command("--resolved", *words, **variables)
        self.assertEqual((status, output), (3, ""))
        return message.split("\n")[1:-1]

    def test_how_cargo_is_started(self):
        start = "metadata --offline --locked --format-version 1"
        end = f"--manifest-path {self.path}"
        rows = [
            ([], ""), (["--all-features"], " --all-features"),
            (["--features", "a,b", "--features=c", "--no-default-features"],
             " --no-default-features --features=a --features=b --features=c"),
            (["--config", "a.b=1", "--config=."], f" --config=a.b=1 --config={self.audited}"),
        ]
        for words, wanted in rows:
            found = self.started(*words)
            self.assertEqual(found, ["    /", "    0", f"    {start}{wanted} {end}"])

    def test_limits(self):
        with unittest.mock.patch.object(_process, "run", side_effect=OSError) as run, \
                self.assertRaises(manifest.CargoError):
            manifest.resolved(self.path, cargo_timeout=7)
        [call] = run.call_args_list
        self.assertEqual(call.args[1:], (_process.Limits(7, 32 << 20, 1 << 30), _cargo.VARIABLES))

    def test_what_is_no_graph(self):
        for text in ("", "{", "{}", "[]", '{"packages": []}', '{"packages": [{}]}', "[" * 100_000):
            self.write("metadata.json", text)
            status, output, message = self.command("--resolved")
            self.assertEqual((status, output), (3, ""))
            self.assertIn(f"cfgx-deps: cargo lists no graph of {self.path}: ", message)

    def test_options_without_a_graph(self):
        rows = [["--features", "a"], ["--all-features"], ["--no-default-features"],
                ["--config", "a=1"]]
        for words in rows:
            status, output, message = self.command(*words)
            self.assertEqual((status, output), (2, ""))
            self.assertIn(f"{words[0]} needs --resolved", message)

    def test_statuses(self):
        graph = {"nodes": [{"id": "p", "features": [], "deps": [
            {"name": "q", "pkg": "q", "dep_kinds": [{"kind": None, "target": "cfg(loom)"}]},
            {"name": "r", "pkg": "r", "dep_kinds": [{"kind": None, "target": "cfg(any())"}]}]}]}
        packages = [{
            "name": name, "version": "1.0.0", "id": name, "source": None, "features": {},
            "manifest_path": self.path if name == "p" else f"/{name}", "dependencies": [],
            "targets": [{"kind": ["lib"], "crate_types": ["lib"]}],
        } for name in "pqr"]
        self.write("metadata.json", json.dumps({
            "packages": packages, "workspace_members": ["p"], "resolve": graph}))
        rows = [
            ([], 0, ""), (["--fail-on", "unknown"], 1, "cfgx-deps: unknown: q 1.0.0\n"),
            (["--fail-on", "never"], 1, "cfgx-deps: never true: r 1.0.0\n"),
            (["--fail-on", "unknown", "--no-other-cfg"], 0, ""),
            (["-p", "z"], 2, "cfgx-deps: the workspace has no package z\n"),
            (["-p", "q"], 2, "cfgx-deps: the workspace has no package q\n"),
        ]
        for words, status, message in rows:
            with self.subTest(words=words):
                found = self.command("--resolved", "--target", HOST, *words)
                self.assertEqual((found[0], found[2]), (status, message))
                self.assertEqual(found[1] == "", status == 2)
