"""Tests of the files that `release/make` put into `out/release`. `python3 -m unittest` in the
folder `release` runs them.
"""
import os
import subprocess
import tarfile
import tempfile
import unittest
import zipfile

import repository

FOLDER = os.path.join(repository.ROOT, "out", "release")
VERSION = repository.version()
# The name by which the loader finds the library has the first two numbers.
SONAME = "libcfgx.so." + VERSION.rsplit(".", 1)[0]
C = f"cfgx-{VERSION}-x86_64-linux"
RUST = f"cfgx-rust-{VERSION}"
WHEEL = f"cfgx-{VERSION}-py3-none-manylinux_2_17_x86_64.manylinux2014_x86_64.whl"

# The package for JavaScript, and the page.
PACKAGE = f"cfgx-{VERSION}.tgz"
HTML = "cfgx.html"

# The archives for C for other platforms: the end of the name, and the folders of `out/platforms`
# from which the libraries are.
FAMILIES = (
    ("aarch64-linux", ("aarch64-unknown-linux-gnu",)),
    ("x86_64-windows", ("x86_64-pc-windows-gnu", "x86_64-pc-windows-msvc")),
    ("x86_64-macos", ("x86_64-apple-darwin",)),
    ("aarch64-macos", ("aarch64-apple-darwin",)),
)

# The wheels: the systems in their names, the library, the folder of `out/platforms` from which it
# is, and what it is for.
WHEELS = (
    ("manylinux_2_17_x86_64.manylinux2014_x86_64", SONAME, "x86_64-unknown-linux-gnu",
     "Linux x86_64"),
    ("manylinux_2_17_aarch64.manylinux2014_aarch64", SONAME, "aarch64-unknown-linux-gnu",
     "Linux arm64"),
    ("musllinux_1_1_x86_64", SONAME, "x86_64-unknown-linux-gnu", "Linux x86_64"),
    ("musllinux_1_1_aarch64", SONAME, "aarch64-unknown-linux-gnu", "Linux arm64"),
    ("win_amd64", "cfgx.dll", "x86_64-pc-windows-gnu", "Windows x86_64"),
    ("macosx_11_0_x86_64", "libcfgx.dylib", "x86_64-apple-darwin", "macOS x86_64"),
    ("macosx_11_0_arm64", "libcfgx.dylib", "aarch64-apple-darwin", "macOS arm64"),
)
# The folders of the wheel for what it says of itself, and for what pip puts into the environment.
INFORMATION = f"cfgx-{VERSION}.dist-info"
DATA = f"cfgx-{VERSION}.data"

# The files with the terms of use, and the licence field of a package.
LICENSES = ("LICENSE-APACHE", "LICENSE-MIT", "LICENSES/LicenseRef-cfgx-kit.txt", "NOTICE")
LICENSE = "(MIT OR Apache-2.0) AND LicenseRef-cfgx-kit"


def path_of(name):
    """Returns the path of a file of the release."""
    return os.path.join(FOLDER, name)


def files_in(name):
    """Returns the bytes of the files of an archive for C, Rust or JavaScript, by their paths."""
    with tarfile.open(path_of(name)) as archive:
        return {one.name: archive.extractfile(one).read() for one in archive if one.isfile()}


def files_of(name):
    """Returns the bytes of the files of an archive for C or Rust, whose ending is left out."""
    return files_in(f"{name}.tar.gz")


def c_for(family):
    """Returns the name of the archive for C for other platforms, without its ending."""
    return f"cfgx-{VERSION}-{family}"


def wheel_for(systems):
    """Returns the name of the wheel for some systems."""
    return f"cfgx-{VERSION}-py3-none-{systems}.whl"


def files_of_wheel(name=WHEEL):
    """Returns the bytes of the files of a wheel, by their paths."""
    with zipfile.ZipFile(path_of(name)) as archive:
        return {name: archive.read(name) for name in archive.namelist()}


def is_of_a_user(folder):
    """Returns whether a folder of the path is neither one of the repository nor one with `rt`."""
    is_below = os.path.abspath(folder).startswith(repository.ROOT + os.sep)
    return not is_below and not os.path.lexists(os.path.join(folder, "rt"))


class User(unittest.TestCase):
    """Someone who has these files in a folder, and neither the kit nor the repository. No variable
    is set but for those below, and HOME is empty."""

    def setUp(self):
        room = tempfile.TemporaryDirectory()
        self.addCleanup(room.cleanup)
        self.folder = os.path.join(room.name, "files")
        home = os.path.join(room.name, "home")
        for folder in (self.folder, home):
            os.mkdir(folder)
        for name in os.listdir(FOLDER):
            os.symlink(os.path.join(FOLDER, name), os.path.join(self.folder, name))
        path = filter(is_of_a_user, os.environ["PATH"].split(os.pathsep))
        self.variables = {"HOME": home, "PATH": os.pathsep.join(path)}
        # Where rustup has its compilers, if `cargo` is a program of it.
        rustup = os.environ.get("RUSTUP_HOME") or os.path.expanduser("~/.rustup")
        if os.path.isdir(rustup):
            self.variables["RUSTUP_HOME"] = rustup
        # Where `.ci/crates` tells Cargo of the crates that it fetched, in place of a registry.
        if "CARGO_HOME" in os.environ:
            self.variables["CARGO_HOME"] = os.environ["CARGO_HOME"]

    def runs(self, tool):
        """Returns whether a tool runs here."""
        return not self.run_words(*tool.split(), "--version").returncode

    def need(self, untested, *tools):
        """Skips a test, and says what is not tested, if a tool does not run here."""
        for tool in tools:
            if not self.runs(tool):
                self.skipTest(f"{untested}, since {tool} does not run here")

    def need_crates(self, untested):
        """Skips a test, and says what is not tested, if the crates that `cfgx` depends on are not
        here."""
        if "CARGO_HOME" not in self.variables:
            self.skipTest(f"{untested}, since the crates that it depends on are not here")

    def run_words(self, *words, **variables):
        """Runs a program in the folder. Returns its status and what it prints."""
        try:
            return subprocess.run(
                words, cwd=self.folder, env={**self.variables, **variables}, check=False,
                stdin=subprocess.DEVNULL, stdout=subprocess.PIPE, stderr=subprocess.STDOUT,
                encoding="utf-8",
            )
        except FileNotFoundError as error:
            return subprocess.CompletedProcess(words, 127, str(error))

    def succeed(self, *words, **variables):
        """Returns what a program prints, which has to succeed."""
        run = self.run_words(*words, **variables)
        self.assertEqual(run.returncode, 0, f"{words}: {run.stdout}")
        return run.stdout

    def unpacked(self, name):
        """Unpacks an archive, and returns the path of its folder."""
        self.succeed("tar", "-xzf", f"{name}.tar.gz")
        return os.path.join(self.folder, name)

    def lines_of(self, *words):
        """Returns the lines that a program prints, which has to succeed."""
        return self.succeed(*words).splitlines()
