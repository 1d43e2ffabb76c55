"""Each version stands in one place, from which `release/versions` writes it into the others."""
import ctypes
import os
import re
import subprocess
import sys
import tempfile
import unittest

from . import RUST, SONAME, VERSION

import repository
from targets import FAMILIES

# What says in which version each member of the JSON of `cfgx-deps` came.
MEMBERS = ("bindings/python/src/cfgx/manifest/schema.json", "docs/MANIFESTS.md")

# Each installed file that has the version, and what stands around it there.
INSTALLED = (
    ("lib/pkgconfig/cfgx.pc", r"^Version: (.*)$"),
    ("share/man/man1/cfgx.1", r'^\.TH "CFGX" 1 "" "cfgx (.*?)"'),
    ("share/man/man3/cfgx.3", r'^\.TH "CFGX" 3 "" "cfgx (.*?)"'),
    ("share/man/man3/cfgx_check.3", r'^\.TH "CFGX_CHECK" 3 "" "cfgx (.*?)"'),
)

# Each place of a version: a file, what stands around a number there, and another number.
SOURCES = (
    (repository.HEADER, r"^(#define CFGX_VERSION_LANGUAGE) \d+$", r"\1 4"),
    (repository.HEADER, r"^(#define CFGX_VERSION_MAJOR) \d+$", r"\1 5"),
    (repository.HEADER, r"^(#define CFGX_VERSION_MINOR) \d+$", r"\1 6"),
    ("bindings/rust/Cargo.toml", r'^version = ".*"$', 'version = "7.8.9"'),
    ("bindings/rust/cfg-expr/Cargo.toml", r'^version = ".*"$', 'version = "0.99.1"'),
)

# What a file has then: the place of a version of each form.
CHANGED = (
    ("bindings/python/src/cfgx/__init__.py", '\n__version__ = "4.5.6"\n'),
    ("bindings/python/src/cfgx/__init__.py", "`libcfgx.so.4.5`"),
    ("crates/cfgx_c/tests/library.py", "\nVERSION = 4_005_006\n"),
    ("crates/cfgx_c/tests/version.c", "CFGX_VERSION, 4005006);"),
    ("docs/C.md", "--exists 'cfgx >= 4.5.6' 'cfgx < 4.6'"),
    ("docs/C.md", "\n4.5.6\n"),
    ("docs/C.md", "['>=4.5.6', '<4.6']"),
    ("docs/C.md", "| `lib/libcfgx.so.4.5.6` |"),
    ("docs/RELEASE.md", "tar -xzf cfgx-rust-4.5.6.tar.gz"),
    ("docs/RUST.md", "\n| 7.8.9 | 0.99.1 |\n"),
    ("CHANGELOG.md", "| the language, as RULES has it | 4 |"),
    ("CHANGELOG.md", "the version of the calls from C: 5.6. A new"),
    ("CHANGELOG.md", "| the same, as `cfgx_version` returns it | 4005006 |"),
    ("CHANGELOG.md", "| the Rust crate `cfgx` | 7.8.9 |"),
)


def number():
    """Returns the version as one number."""
    language, major, minor = map(int, VERSION.split("."))
    return language * 1000000 + major * 1000 + minor


class Versions(unittest.TestCase):
    """One version in all places."""

    def test_written(self):
        """No file differs from what `release/versions` writes."""
        words = [sys.executable, "-B", "release/versions", "--check"]
        run = subprocess.run(words, cwd=repository.ROOT, check=False, stdout=subprocess.PIPE,
                             stderr=subprocess.STDOUT, encoding="utf-8")
        self.assertEqual((run.returncode, run.stdout), (0, ""))

    def test_installed(self):
        self.assertRegex(VERSION, r"^\d+\.\d+\.\d+$")
        for path, around in INSTALLED:
            with self.subTest(path=path, around=around):
                found = re.findall(around, repository.read_text(f"out/cfgx/{path}"), re.M)
                self.assertEqual(found, [VERSION])

    def test_number(self):
        library = ctypes.CDLL(os.path.join(repository.ROOT, "out/cfgx/lib/libcfgx.so"))
        self.assertEqual(library.cfgx_version(), number())

    def test_files(self):
        found = sorted(os.listdir(os.path.join(repository.ROOT, "out/cfgx/lib")))
        self.assertEqual(found, ["libcfgx.a", "libcfgx.so", SONAME, f"libcfgx.so.{VERSION}",
                                 "pkgconfig"])
        page = repository.read_text("docs/RELEASE.md")
        named = re.findall(r"^\| `(.*?)` \|", page, re.M)
        self.assertEqual(named, [f"{RUST}.tar.gz", "cfgx.html", f"cfgx-{VERSION}.tgz",
                                 "MANIFEST.txt", "SHA256SUMS"])
        for family in FAMILIES:
            self.assertIn(f"`cfgx-{VERSION}-{family}.tar.gz`", page)


class Changes(unittest.TestCase):
    """A clone of the repository at its commit, in which versions are changed."""

    def setUp(self):
        room = tempfile.TemporaryDirectory()
        self.addCleanup(room.cleanup)
        self.top = os.path.join(room.name, "clone")
        subprocess.run(["git", "clone", "-q", "--shared", repository.ROOT, self.top], check=True)

    def read(self, path):
        """Returns the text of a file of the clone."""
        with open(os.path.join(self.top, path), encoding="utf-8") as file:
            return file.read()

    def change(self, path, old, new):
        """Replaces what a pattern matches once in a file of the clone."""
        text, count = re.subn(old, new, self.read(path), flags=re.M)
        self.assertEqual(count, 1)
        with open(os.path.join(self.top, path), "w", encoding="utf-8") as file:
            file.write(text)

    def run_versions(self, *words):
        """Returns the status of `release/versions` in the clone, and the lines that it prints."""
        command = [sys.executable, "-B", os.path.join(self.top, "release/versions"), *words]
        run = subprocess.run(command, check=False, stdout=subprocess.PIPE,
                             stderr=subprocess.STDOUT, encoding="utf-8")
        return run.returncode, run.stdout.splitlines()

    def changed(self):
        """Returns the paths of the files of the clone that differ from the commit."""
        words = ["git", "diff", "--name-only"]
        return subprocess.run(words, cwd=self.top, check=True, stdout=subprocess.PIPE,
                              encoding="utf-8").stdout.split()

    def test_a_change(self):
        for path, old, new in SOURCES:
            self.change(path, old, new)
        sources = {path for path, _, _ in SOURCES}
        status, told = self.run_versions("--check")
        self.assertEqual((status, {*self.changed()}), (1, sources))
        self.assertEqual(self.run_versions(), (0, [one.split(" has ")[0] for one in told]))
        self.assertEqual({*self.changed()}, {*sources, *(one.split(" has ")[0] for one in told)})
        for path, wanted in CHANGED:
            self.assertIn(wanted, self.read(path), path)
        self.assertEqual(self.run_versions("--check"), (0, []))
        self.check_no_old_version()
        for path in sources:
            with open(os.path.join(self.top, path), "wb") as file:
                file.write(repository.read(path))
        self.assertEqual(self.run_versions()[0], 0)
        self.assertEqual(self.changed(), [])

    def check_no_old_version(self):
        """Expects that no file names the old version, but for CHANGELOG, and for what says since
        when a member of the JSON is there."""
        short, shown = re.escape(VERSION.rsplit(".", 1)[0]), re.escape(VERSION)
        forms = (rf"\b{shown}\b", rf"libcfgx\.so\.{short}\b", str(number()), f"{number():_}")
        found = []
        for path in {*repository.tracked()} - {"CHANGELOG.md", *MEMBERS}:
            with open(os.path.join(self.top, path), "rb") as file:
                text = file.read().decode(errors="replace")
            found += [(path, form) for form in forms if re.search(form, text)]
        self.assertEqual(found, [])

    def test_a_place_that_is_missing(self):
        self.change("docs/RELEASE.md", rf"\bIn {re.escape(VERSION)},", "In this version,")
        status, told = self.run_versions()
        self.assertEqual((status, self.changed()), (1, ["docs/RELEASE.md"]))
        self.assertRegex(told[0], r"^versions: docs/RELEASE.md has no place like this: ")

    def test_usage(self):
        self.assertEqual(self.run_versions("--help"), (2, ["usage: versions [--check]"]))
