"""What is taken from the list of Cargo, and how Cargo is started."""
import os
import unittest.mock

from . import needs
from .made import Folder, entry

from cfgx import manifest
from cfgx.manifest import _cargo

HOST = "x86_64-unknown-linux-gnu"
# What Cargo lists of a package with these tables, in order: the name, what it renames, the kind,
# whether it is optional, and the condition.
TABLES = [
    ('[dependencies]\nz = "1"\na = "1"\n[dev-dependencies]\nb = "1"\n'
     '[build-dependencies]\nc = "1"\n[target."cfg(unix)".dependencies]\nq = "1"\n'
     '[target."cfg(any(unix))".build-dependencies]\nr = "1"\n'
     '[target.aarch64-apple-ios.dev-dependencies]\ns = "1"\n',
     [("a", None, "normal", False, None), ("z", None, "normal", False, None),
      ("b", None, "dev", False, None), ("c", None, "build", False, None),
      ("s", None, "dev", False, "aarch64-apple-ios"),
      ("r", None, "build", False, "cfg(any(unix))"), ("q", None, "normal", False, "cfg(unix)")]),
    ('[dependencies]\nz = { version = "1", package = "a" }\n'
     'b = { version = "1", optional = true }\n[features]\nx = ["dep:b"]\n',
     [("b", None, "normal", True, None), ("z", "a", "normal", False, None)]),
    ('[dependencies]\na = { workspace = true, optional = true }\nb = { workspace = true }\n'
     '[workspace.dependencies]\na = "1"\nb = { version = "1", package = "c" }\n',
     [("a", None, "normal", True, None), ("b", "c", "normal", False, None)]),
    ('[target.\'cfg( all( r#unix,not(a) ,))\'.dependencies]\na = "1"\n',
     [("a", None, "normal", False, "cfg(all(r#unix, not(a)))")]),
    ('[target.t.dev-dependencies]\na = "1"\n[target.t.build-dependencies]\na = "1"\n'
     '[target.t.dependencies]\nz = "1"\na = { version = "1", optional = true }\n',
     [("a", None, "normal", True, "t"), ("z", None, "normal", False, "t"),
      ("a", None, "build", False, "t"), ("a", None, "dev", False, "t")]),
    ('[dev_dependencies]\na = "1"\n[dev-dependencies]\nb = "1"\n[build-dependencies]\nc = "1"\n'
     '[build_dependencies]\nd = "1"\n',
     [("b", None, "dev", False, None), ("c", None, "build", False, None)]),
    ('[target."cfg(a)".dev_dependencies]\na = "1"\n[build_dependencies]\nb = "1"\n',
     [("b", None, "build", False, None), ("a", None, "dev", False, "cfg(a)")]),
    ("", []),
]
# The lines and the sources of a package: whether it has a build script, a macro, and something for
# the target.
PARTS = [
    ("", ["src/lib.rs"], (False, False, True)),
    ("", ["src/main.rs", "build.rs"], (True, False, True)),
    ("[lib]\nproc-macro = true\n", ["src/lib.rs"], (False, True, False)),
    ('[lib]\ncrate-type = ["proc-macro"]\n', ["src/lib.rs"], (False, True, False)),
    ('[lib]\nproc-macro = false\ncrate_type = ["proc-macro"]\n', ["src/lib.rs"],
     (False, True, False)),
    ("[lib]\nproc_macro = true\n", ["src/lib.rs"], (False, True, False)),
    ("[lib]\nproc-macro = true\nproc_macro = false\n", ["src/lib.rs"], (False, True, False)),
    ("[lib]\nproc-macro = false\nproc_macro = true\n", ["src/lib.rs"], (False, False, True)),
    ("[lib]\nproc-macro = false\n", ["src/lib.rs"], (False, False, True)),
    ('[lib]\nproc-macro = true\ncrate-type = ["rlib"]\n', ["src/lib.rs"], (False, False, True)),
    ("[lib]\nproc-macro = true\n", ["src/lib.rs", "tests/t.rs"], (False, True, True)),
    ("[lib]\nproc-macro = true\n", ["src/lib.rs", "build.rs"], (True, True, False)),
    ('[[example]]\nname = "e"\ncrate-type = ["proc-macro"]\n', ["src/lib.rs", "examples/e.rs"],
     (False, True, True)),
]
# The lines and the sources of a package: whether something that reads dev-dependencies is built for
# the host, and for the target.
TESTED = [
    ("", ["src/lib.rs"], (False, True)), ("", ["src/main.rs"], (False, True)),
    ("[lib]\ntest = false\n", ["src/lib.rs"], (False, True)),
    ("[lib]\ndoctest = false\n", ["src/lib.rs"], (False, True)),
    ("[lib]\ntest = false\ndoctest = false\n", ["src/lib.rs"], (False, False)),
    ("[lib]\nproc-macro = true\n", ["src/lib.rs"], (True, False)),
    ("[lib]\nproc-macro = true\ntest = false\n", ["src/lib.rs"], (True, False)),
    ("[lib]\nproc-macro = true\ntest = false\ndoctest = false\n", ["src/lib.rs"],
     (False, False)),
    ('[[bin]]\nname = "a"\ntest = false\n', ["src/main.rs"], (False, False)),
    ('[[bin]]\nname = "a"\ntest = false\ndoctest = true\n', ["src/main.rs"], (False, False)),
    ('[lib]\ntest = false\ndoctest = false\n[[test]]\nname = "t"\ntest = false\n',
     ["src/lib.rs", "tests/t.rs"], (False, False)),
    ("[lib]\ntest = false\ndoctest = false\n", ["src/lib.rs", "tests/t.rs"], (False, True)),
    ("[lib]\ntest = false\ndoctest = false\n", ["src/lib.rs", "examples/e.rs"], (False, True)),
    ("[lib]\ntest = false\ndoctest = false\n", ["src/lib.rs", "benches/b.rs"], (False, True)),
    ("[lib]\ntest = false\ndoctest = false\n", ["src/lib.rs", "src/main.rs"], (False, True)),
    ('[lib]\ntest = false\ndoctest = false\n[[example]]\nname = "e"\n'
     'crate-type = ["proc-macro"]\n', ["src/lib.rs", "examples/e.rs"], (True, False)),
]
# Manifests that Cargo refuses, and words of its message.
REFUSED = [
    ("[package", "Cargo.toml"), ("a = " + "[" * 500, "Cargo.toml"),
    ("a." * 5000 + "a = 1", "recursion limit"), ("[dependencies]\na = 3\n", "Cargo.toml"),
    ('[target."cfg(all(unix)".dependencies]\na = "1"\n', "all(unix"),
    ('[target."cfg(unix,)".dependencies]\na = "1"\n', "unix,"),
    ('[target."cfg(\\u009b\\u202e\\nerror)".dependencies]\na = "1"\n', "Cargo.toml"),
    ('[dependencies]\n"\\u202e" = "1"\n', "Cargo.toml"),
]


@needs("cargo", untested="what Cargo lists of a manifest")
class Listed(Folder):
    """Manifests that Cargo reads."""

    def listed(self, text, *sources):
        """Returns the package that Cargo lists of a manifest with these lines."""
        path = self.write_package("a", text, sources=sources or ("src/lib.rs",))
        [package] = _cargo.workspace_of(path).own
        return package

    def test_dependencies(self):
        for text, wanted in TABLES:
            with self.subTest(text=text):
                found = [(one.name, one.renamed_from, one.kind, one.is_optional, one.condition)
                         for one in self.listed(text).dependencies]
                self.assertEqual(found, wanted)
                self.assertEqual({one.package for one in self.listed(text).dependencies},
                                 {"a"} if wanted else set())

    def test_parts(self):
        for place, (text, sources, wanted) in enumerate(PARTS):
            with self.subTest(text=text, sources=sources):
                self.folder = os.path.join(self.folder, str(place))
                one = self.listed(text, *sources)
                found = one.has_build_script, one.has_macro, one.has_target_units
                self.assertEqual(found, wanted)

    def test_what_reads_dev_dependencies(self):
        for place, (text, sources, wanted) in enumerate(TESTED):
            with self.subTest(text=text, sources=sources):
                self.folder = os.path.join(self.folder, str(place))
                one = self.listed(text, *sources)
                self.assertEqual((one.has_macro_tests, one.has_target_tests), wanted)

    def test_the_order_of_parts(self):
        for kinds in (("proc-macro", "bin"), ("bin", "proc-macro", "test")):
            targets = [{"kind": [kind], "crate_types": [kind]} for kind in kinds]
            one = _cargo.package_of(
                {"name": "a", "version": "1.0.0", "id": "a", "source": None,
                 "manifest_path": "/a", "targets": targets, "dependencies": []}
            )
            self.assertEqual((one.has_macro, one.has_target_units), (True, True))

    def test_what_cargo_refuses(self):
        for text, words in REFUSED:
            with self.subTest(text=text[:60]):
                head = '[package]\nname = "a"\nversion = "0.1.0"\n' if text[1] != "p" else ""
                path = self.write("Cargo.toml", head + text + "\n")
                self.write("src/lib.rs")
                with self.assertRaises(manifest.CargoError) as caught:
                    manifest.report(path)
                lines = str(caught.exception).split("\n")
                self.assertEqual(lines[0], f"cargo refuses {path}:")
                self.assertTrue(all(line.startswith("    ") for line in lines[1:]), lines)
                self.assertTrue("".join(lines).isprintable())
                self.assertIn(words, "".join(lines))

    def test_packages_of_a_workspace(self):
        for name in ("one", "two", "three"):
            self.write_package(name, '[dependencies]\nb = "1"')
        root = self.write_workspace("one", "two", "three")
        rows = [
            ({"manifest": root}, "one two three"), ({"manifest": self.folder}, "one two three"),
            ({"manifest": self.folder + "/one"}, "one"),
            ({"manifest": self.folder + "/one/Cargo.toml", "workspace": True}, "one two three"),
            ({"manifest": self.folder + "/one", "packages": ["two"]}, "two"),
            ({"manifest": root, "packages": ["three", "one"]}, "one three"),
            ({"manifest": root, "packages": ["three", "one", "three"]}, "one three"),
        ]
        listed = [one.name for one in _cargo.workspace_of(root).packages]
        self.assertEqual(sorted(listed), ["one", "three", "two"])
        for options, wanted in rows:
            with self.subTest(options=options):
                report = manifest.report(**options)
                # In the order of Cargo, and each once, however they are named.
                self.assertEqual([row.dependency.package for row in report.rows],
                                 [name for name in listed if name in wanted.split()])
        for name, hint in (("thre", "; is it three?"), ("x", "")):
            with self.assertRaises(manifest.RequestError) as caught:
                manifest.report(root, packages=["one", name])
            message = f"the workspace has no package {name}{hint}"
            self.assertEqual(str(caught.exception), message)

    def test_a_workspace_with_one_member(self):
        self.write_package("one", '[dependencies]\nb = "1"')
        [row] = manifest.report(self.write_workspace("one")).rows
        self.assertEqual((row.dependency.package, row.dependency.name), ("one", "b"))

    def test_a_root_with_a_package(self):
        self.write_package("two", '[dependencies]\nb = "1"')
        self.folder, below = os.path.dirname(self.folder), os.path.basename(self.folder)
        path = self.write_package(below, '[dependencies]\nb = "1"', '[workspace]\nmembers = ["two"]'
                                  ).replace(f'"{below}"', '"root"')
        self.assertEqual(len(manifest.report(path).rows), 1)
        self.assertEqual(len(manifest.report(path, workspace=True).rows), 2)

    def test_ways_to_a_manifest(self):
        self.write_package("a", entry("dependencies", "b"))
        os.symlink(self.folder, os.path.join(self.folder, "link"))
        os.makedirs(os.path.join(self.folder, "a/deep/er"))
        ways = [(None, "a"), (None, "a/deep/er"), ("a", ""), ("a/", ""), ("a/Cargo.toml", ""),
                ("../a/./Cargo.toml", "a"), ("link/a", ""), ("link/link/a/Cargo.toml", ""),
                (".", "a")]
        before = os.getcwd()
        self.addCleanup(os.chdir, before)
        for way, folder in ways:
            with self.subTest(way=way, folder=folder):
                os.chdir(os.path.join(self.folder, folder))
                report = manifest.report(way)
                self.assertEqual([row.dependency.name for row in report.rows], ["b"])
                # The path is whole, and keeps the links on the way.
                whole = os.path.normpath(os.path.join(self.folder, folder, way or "../" * 2))
                wanted = f"{self.folder}/a" if way is None else whole.replace("/Cargo.toml", "")
                self.assertEqual(report.manifest_path, f"{wanted}/Cargo.toml")
                self.assertEqual("link" in report.manifest_path, "link" in (way or ""))


class Started(Folder):
    """A `cargo` that is made up."""

    def start(self, script):
        """Lets `cargo` be this script, and reads a manifest. Returns the message of the error."""
        self.write_program("tools/cargo", script)
        path = os.pathsep.join([os.path.join(self.folder, "tools"), os.environ["PATH"]])
        with unittest.mock.patch.dict("os.environ", PATH=path), \
                self.assertRaises(manifest.CargoError) as caught:
            manifest.report(self.folder)
        return str(caught.exception)

    def test_cargo_starts_in_another_folder(self):
        message = self.start('#!/bin/sh\npwd >&2; echo "$@" >&2; exit 1\n')
        words = f"metadata --no-deps --format-version 1 --manifest-path {self.folder}/Cargo.toml"
        self.assertEqual(message.split("\n")[1:], ["    /", f"    {words}"])

    def test_cargo_that_fails(self):
        rows = [
            ("#!/bin/sh\nexit 0\n", "cargo lists no packages of "),
            ("#!/bin/sh\necho '{\"packages\": [{\"name\": 1}]}'\n", "cargo lists no packages of "),
            ("#!/bin/sh\necho '{\"packages\": [3]}'\n", "cargo lists no packages of "),
            ("#!/bin/sh\nyes '[' | head -n 100000\n", "cargo lists no packages of "),
            ("#!/bin/sh\nprintf '\\377'\n", "cargo lists no packages of "),
            ("#!/bin/sh\nprintf 'a\\033[2J\\nb\\342\\200\\256' >&2; exit 101\n",
             "    a\\x1b[2J\n    b\\u202e"),
            ("#!/bin/sh\nprintf 'a\\377b' >&2; exit 1\n", "    a\ufffdb"),
            ("#!/bin/sh\nkill -KILL $$\n", "    "),
        ]
        for script, message in rows:
            with self.subTest(script=script):
                found = self.start(script)
                refused = f"cargo refuses {self.folder}/Cargo.toml:\n"
                start = refused + message if message.startswith(" ") else message
                self.assertTrue(found.startswith(start), found)
                self.assertTrue(found.replace("\n", "").isprintable())

    def test_no_cargo(self):
        with unittest.mock.patch.dict("os.environ", PATH=self.folder), \
                self.assertRaises(manifest.CargoError) as caught:
            manifest.report(self.folder)
        self.assertEqual(str(caught.exception),
                         "there is no cargo on the path, and only cargo reads a manifest")

    def test_cargo_that_names_no_host(self):
        for printed in ("", "hosts: none", "none: a"):
            found = self.start(f"#!/bin/sh\n[ $1 != -vV ] || exec echo '{printed}'\n"
                               "echo '{\"packages\": []}'\n")
            self.assertEqual(found, "cargo -vV names no host")

    def test_no_manifest(self):
        with unittest.mock.patch("os.getcwd", lambda: self.folder), \
                self.assertRaises(manifest.CargoError) as caught:
            manifest.report()
        message = f"there is no Cargo.toml in {self.folder} or above it"
        self.assertEqual(str(caught.exception), message)

    def test_a_manifest_above_a_repository(self):
        self.write("Cargo.toml")
        self.write("a/.git/config")
        self.write("a/b/.git")
        for folder in ("", "/a", "/a/b"):
            with unittest.mock.patch("os.getcwd", lambda: self.folder + folder):
                self.assertEqual(_cargo.manifest_at(None), f"{self.folder}/Cargo.toml")

    def test_a_current_folder_that_is_gone(self):
        with unittest.mock.patch("os.getcwd", side_effect=FileNotFoundError(2, "No such file")), \
                self.assertRaisesRegex(manifest.CargoError, "the current folder cannot be read"):
            manifest.report()

    def test_texts_that_are_no_lists(self):
        for name in ("targets", "packages", "kinds", "flags", "rustflags"):
            with self.assertRaisesRegex(TypeError, "'a' is a text, and no list of texts"):
                manifest.report(self.folder, **{name: "a"})

    def test_names_of_kinds(self):
        with self.assertRaises(manifest.RequestError):
            manifest.report(self.folder, kinds=["normal", "test"])

    def test_each_error_has_the_base(self):
        for error in (manifest.CargoError, manifest.CompilerError, manifest.FactsError,
                      manifest.RequestError):
            self.assertTrue(issubclass(error, manifest.ManifestError))
            self.assertEqual(error.__module__, "cfgx.manifest")
