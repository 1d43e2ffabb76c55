"""`release/make`: where a tool is missing or fails, and in copies of the repository that differ."""
import hashlib
import os
import re
import shlex
import shutil
import subprocess
import sys
import tarfile
import tempfile
import unittest
import unittest.mock
import zipfile

from . import RUST, SONAME, VERSION, WHEEL, WHEELS

import repository
import stamp
from targets import FAMILIES

MAKE = os.path.join(repository.ROOT, "release", "make")
TOOLS = ("git", "rt", "cc", "ld")
# What `crates/cfgx_c/stamp` needs beside these.
OTHERS = ("bash", "cat", "dirname", "env", "find", "sed", "sha256sum", "sort", "xargs")
STAMP = "out/cfgx/share/cfgx/stamp"
PLATFORMS_STAMP = "out/platforms/stamp"
STAMPS = {"out/cfgx": STAMP, "out/platforms": PLATFORMS_STAMP}

# A tool that fails, and what is said of it.
FAILING = (
    ("git", "`git log -1 --format=%H %ct` ends with status 3"),
    ("rt", "`rt doc` ends with status 3"),
    ("ld", "`ld --version` ends with status 3"),
)


class Tools(unittest.TestCase):
    """The tools stand in a folder of their own, which is the whole path."""

    def setUp(self):
        room = tempfile.TemporaryDirectory()
        self.addCleanup(room.cleanup)
        self.tools = os.path.join(room.name, "tools")
        self.folder = os.path.join(room.name, "release")

    def write_tools(self, others):
        """Writes a script for each tool: that in `others`, or else one that runs the tool. `None`
        stands for a tool that is missing."""
        shutil.rmtree(self.tools, ignore_errors=True)
        os.mkdir(self.tools)
        path = shlex.quote(os.environ["PATH"])
        scripts = {tool: f'PATH={path} exec {shutil.which(tool)} "$@"'
                   for tool in (*TOOLS, *OTHERS)}
        for name, script in {**scripts, **others}.items():
            if script is not None:
                with open(os.path.join(self.tools, name), "w", encoding="utf-8") as file:
                    file.write(f"#!/bin/sh\n{script}\n")
                os.chmod(file.name, 0o755)

    def check_refusal(self, said):
        """Expects that nothing is written, and that one line says why."""
        run = subprocess.run(
            [sys.executable, MAKE, self.folder], env={**os.environ, "PATH": self.tools},
            check=False, stdout=subprocess.PIPE, stderr=subprocess.PIPE, encoding="utf-8",
        )
        self.assertEqual((run.returncode, run.stdout, run.stderr), (1, "", f"make: {said}\n"))
        self.assertFalse(os.path.exists(self.folder))

    def test_a_tool_that_is_missing(self):
        for tool in TOOLS:
            self.write_tools({tool: None})
            self.check_refusal(f"there is no `{tool}` on the path")

    def test_a_kit_that_does_not_say_what_it_is(self):
        self.write_tools({"rt": f"echo {self.tools}/START-HERE.md"})
        self.check_refusal(f"the kit has no file {self.tools}/WHAT")

    def test_a_tool_that_fails(self):
        for tool, said in FAILING:
            self.write_tools({tool: "exit 3"})
            self.check_refusal(said)


class Makers(unittest.TestCase):
    """The sum of what makes the libraries for all platforms."""

    def test_a_system_lists_a_folder_in_any_order(self):
        names, found = os.listdir, set()
        for is_reversed in (False, True):
            def listed(path, is_reversed=is_reversed):
                return sorted(names(path), reverse=is_reversed)

            with unittest.mock.patch("os.listdir", listed):
                found.add(stamp.makers())
        self.assertEqual(len(found), 1)


class Copy(unittest.TestCase):
    """A clone of the repository at its commit, with copies of `out/cfgx` and `out/platforms` whose
    stamps fit it. Its `rt` says at once what the one on the path says."""

    @classmethod
    def setUpClass(cls):
        cls.kit = {word: repository.output_of("rt", word).strip() for word in ("doc", "version")}

    def setUp(self):
        room = tempfile.TemporaryDirectory()
        self.addCleanup(room.cleanup)
        self.top, self.folder, tools = (
            os.path.join(room.name, name) for name in ("clone", "release", "tools")
        )
        os.mkdir(tools)
        with open(os.path.join(tools, "rt"), "w", encoding="utf-8") as file:
            arms = "".join(f"{word}) echo '{said}' ;; " for word, said in self.kit.items())
            file.write(f"#!/bin/sh\ncase $1 in {arms}*) exit 2 ;; esac\n")
        os.chmod(file.name, 0o755)
        self.variables = {**os.environ, "PATH": tools + os.pathsep + os.environ["PATH"]}
        self.run_words("git", "clone", "-q", "--shared", repository.ROOT, self.top, cwd=room.name)
        for folder, stamp in STAMPS.items():
            shutil.copytree(os.path.join(repository.ROOT, folder), self.path(folder), symlinks=True)
            self.change(stamp, r"^sources .*$", f"sources {self.sources()}")

    def run_words(self, *words, **options):
        """Returns what a command prints, which has to succeed."""
        return subprocess.run(words, check=True, stdout=subprocess.PIPE, encoding="utf-8",
                              **options).stdout

    def sources(self):
        """Returns the sum of the sources of the clone."""
        return self.run_words(self.path("crates/cfgx_c/stamp"), "sources").strip()

    def path(self, path):
        """Returns the whole path of a file of the clone."""
        return os.path.join(self.top, path)

    def write(self, path, text, mode="w"):
        """Writes a file of the clone."""
        with open(self.path(path), mode, encoding="utf-8") as file:
            file.write(text)

    def change(self, path, old, new):
        """Replaces what a pattern matches once in a file of the clone."""
        with open(self.path(path), encoding="utf-8") as file:
            text, count = re.subn(old, new, file.read(), flags=re.M)
        self.assertEqual(count, 1)
        self.write(path, text)

    def run_make(self, *words, **variables):
        """Runs `release/make` in the clone, by default into the folder of the test."""
        return subprocess.run(
            [self.path("release/make"), *(words or [self.folder])], check=False,
            env={**self.variables, **variables}, stdout=subprocess.PIPE, stderr=subprocess.PIPE,
            cwd=self.top, encoding="utf-8",
        )

    def made(self, **variables):
        """Returns the sizes and the sums of the files that `release/make` makes, by their names."""
        run = self.run_make(**variables)
        self.assertEqual((run.returncode, run.stderr), (0, ""))
        found = self.files_in(self.folder)
        sizes = {line.split()[1]: int(line.split()[0]) for line in run.stdout.splitlines()}
        self.assertEqual(sizes, {name: size for name, (size, _) in found.items()})
        return found

    def files_in(self, folder):
        """Returns the sizes and the sums of the files in a folder."""
        found = {}
        for name in os.listdir(folder):
            with open(os.path.join(folder, name), "rb") as file:
                data = file.read()
            found[name] = len(data), hashlib.sha256(data).hexdigest()
        return found

    def manifest(self):
        """Returns the lines of the MANIFEST.txt that was made."""
        with open(os.path.join(self.folder, "MANIFEST.txt"), encoding="utf-8") as file:
            return file.read().splitlines()

    def check_refusal(self, said):
        """Expects that nothing is written, and that one line says why."""
        run = self.run_make()
        self.assertEqual((run.returncode, run.stdout, run.stderr), (1, "", f"make: {said}\n"))
        self.assertFalse(os.path.exists(self.folder))


class Runs(Copy):
    """What is made, and on what it does not depend."""

    def test_usage(self):
        for words in (["a", "b"], ["-x"], ["--help"], ["a", "--built"]):
            run = self.run_make(*words)
            self.assertEqual((run.returncode, run.stdout, run.stderr),
                             (2, "", "usage: make [FOLDER]\n"))
        self.assertEqual(self.run_words("git", "status", "--porcelain", cwd=self.top), "")

    def test_a_second_run_in_one_folder(self):
        first = self.made()
        for name in first:
            with open(os.path.join(self.folder, name), "ab") as file:
                file.write(b"more")
        self.assertEqual(self.made(), first)

    def test_the_folder_by_default(self):
        first = self.made()
        run = self.run_words(self.path("release/make"), cwd="/", env=self.variables)
        self.assertEqual(len(run.splitlines()), len(first))
        self.assertEqual(self.files_in(self.path("out/release")), first)

    def test_time_zone_and_words_of_the_environment(self):
        first = self.made()
        for variables in ({"TZ": "Pacific/Auckland", "LC_ALL": "C"},
                          {"TZ": "EST5", "PYTHONHASHSEED": "7", "SOURCE_DATE_EPOCH": "1"}):
            with self.subTest(**variables):
                self.assertEqual(self.made(**variables), first)

    def test_changes_after_the_commit(self):
        name = self.run_words("git", "rev-parse", "HEAD", cwd=self.top).strip()
        for changed, wanted in (("", ""), ("README.md", ", and changes after it")):
            if changed:
                self.write(changed, "\n", "a")
            self.made()
            self.assertEqual(self.manifest()[2], f"commit    {name}{wanted}")
        # A change counts too where the index has it already.
        self.run_words("git", "add", "README.md", cwd=self.top)
        self.made()
        self.assertEqual(self.manifest()[2], f"commit    {name}, and changes after it")

    def test_the_time_is_that_of_the_commit(self):
        """Not of its author, and in UTC."""
        who = {f"GIT_{role}_{field}": "someone@example.com" for role in ("AUTHOR", "COMMITTER")
               for field in ("NAME", "EMAIL")}
        dates = {"GIT_AUTHOR_DATE": "2001-02-03T04:05:06Z",
                 "GIT_COMMITTER_DATE": "2031-01-01T05:06:07+0900"}
        self.run_words("git", "commit", "-q", "--allow-empty", "-m", "Later", cwd=self.top,
                       env={**self.variables, **who, **dates})
        self.made()
        self.assertEqual(self.manifest()[3], "          of 2030-12-31 20:06:07 UTC")
        with tarfile.open(os.path.join(self.folder, f"{RUST}.tar.gz")) as archive:
            self.assertEqual({one.mtime for one in archive}, {1924977967})
        with zipfile.ZipFile(os.path.join(self.folder, WHEEL)) as archive:
            self.assertEqual({one.date_time for one in archive.infolist()},
                             {(2030, 12, 31, 20, 6, 6)})

    def test_files_that_are_not_of_the_commit(self):
        first = self.made()
        for path in ("bindings/rust/src/other.rs", "bindings/python/src/cfgx/other.py",
                     "crates/cfgx_c/examples/other.c", "docs/OTHER.md"):
            self.write(path, "")
        self.assertEqual(self.made(), first)

    def test_a_link_to_what_is_not_packed(self):
        self.write("docs/C.md", "[a link](../crates.txt)\n", "a")
        self.check_refusal("docs/C.md has a link to crates.txt, which is not in the archive")

    def test_a_page_that_is_linked_is_packed(self):
        self.write("docs/OTHER.md", "# Other\n\n[a link](RULES.md)\n")
        self.write("docs/C.md", "[a link](OTHER.md)\n", "a")
        self.assertEqual(self.run_make().returncode, 0)
        sums = self.run_words("sha256sum", self.path("docs/OTHER.md"))[:64]
        rows = [line[66:] for line in self.manifest() if line.startswith(sums)]
        # The archives for C, the wheels, the crate and the package for JavaScript.
        self.assertEqual([row[row.index("/"):] for row in rows], [
            *["/docs/OTHER.md"] * len(FAMILIES),
            *["/data/share/doc/cfgx/docs/OTHER.md"] * len(WHEELS),
            "/docs/OTHER.md", "/docs/OTHER.md",
        ])


class Stamps(Copy):
    """What stands in `out/cfgx` has to be what was built of the sources here, by this kit."""

    again = "run crates/cfgx_c/install out/cfgx"

    def test_nothing_is_installed(self):
        shutil.rmtree(self.path("out"))
        self.check_refusal(f"there is no out/cfgx: {self.again}")

    def test_no_stamp(self):
        os.remove(self.path(STAMP))
        self.check_refusal(f"out/cfgx has no stamp: {self.again}")

    def test_libraries_that_something_else_made(self):
        for path in ("release/runtime/heap.ll.in", "release/compiling.py",
                     "crates/cfgx_c/examples/cfgx.c"):
            with self.subTest(path=path):
                text = self.read(path)
                self.write(path, "\n", "a")
                self.check_refusal("out/platforms was not made by what stands here: "
                                   "run release/platforms")
                self.write(path, text)

    def read(self, path):
        """Returns the text of a file of the clone."""
        with open(self.path(path), encoding="utf-8") as file:
            return file.read()

    def test_other_sources(self):
        said = f"out/cfgx was not built of the sources that stand here: {self.again}"
        for path in ("crates.txt", "crates/cfg_expr/src/expr.rt", "crates/cfgx/src/main.rt",
                     "crates/cfgx_syntax/specs/Lib.antt", "crates/cfgx_c/proofs/Lib.antt",
                     "crates/cfgx_c/include/cfgx.h", "crates/cfgx_c/install", "docs/RULES.md",
                     "manual/header.py"):
            with self.subTest(path=path), open(self.path(path), encoding="utf-8") as file:
                text = file.read()
                self.write(path, "\n", "a")
                self.check_refusal(said)
                self.write(path, text)
        self.assertEqual(self.run_make().returncode, 0)

    def test_unknown_sources(self):
        """Such as those of a stub that was put where the compiler puts the archive."""
        self.change(STAMP, r"^sources .*$", "sources unknown")
        self.change(STAMP, r"^kit .*$", "")
        self.check_refusal(f"out/cfgx was not built of the sources that stand here: {self.again}")

    def test_libraries_of_other_sources(self):
        """Or by another kit, or changed since. They have a stamp of their own."""
        again, path = "run release/platforms", "out/platforms/x86_64-apple-darwin/libcfgx.dylib"
        text = self.read(PLATFORMS_STAMP)
        for line, said in (("sources", "not built of the sources that stand here"),
                           ("compiler", "built by another kit")):
            with self.subTest(line=line):
                self.change(PLATFORMS_STAMP, rf"^{line} .*$", f"{line} unknown")
                self.check_refusal(f"out/platforms was {said}: {again}")
                self.write(PLATFORMS_STAMP, text)
        self.write(path, "a stub")
        self.check_refusal(f"{path} is not as it was installed: {again}")

    def test_other_tests_and_pages(self):
        for path in ("crates/cfgx_c/tests/check.c", "crates/cfgx_vectors/stdout", "docs/C.md"):
            self.write(path, "\n", "a")
        self.assertEqual(self.run_make().returncode, 0)

    def test_another_kit(self):
        for name in ("kit", "archive", "commit", "compiler"):
            with self.subTest(name=name):
                with open(self.path(STAMP), encoding="utf-8") as file:
                    text = file.read()
                self.change(STAMP, rf"^{name} .*$", f"{name} another one")
                self.check_refusal(f"out/cfgx was built by another kit: {self.again}")
                self.write(STAMP, text)

    def test_other_files(self):
        """A stub in the place of a file, a file too much and one too few."""
        for path in ("bin/cfgx", "lib/libcfgx.a", f"lib/libcfgx.so.{VERSION}", "include/cfgx.h",
                     "lib/pkgconfig/cfgx.pc", "share/man/man3/cfgx.3", "lib/more"):
            with self.subTest(path=path):
                kept, place = self.path("kept"), self.path(f"out/cfgx/{path}")
                if os.path.exists(place):
                    os.rename(place, kept)
                    self.check_refusal(f"out/cfgx/{path} is not as it was installed: {self.again}")
                self.write(f"out/cfgx/{path}", "a stub")
                self.check_refusal(f"out/cfgx/{path} is not as it was installed: {self.again}")
                os.remove(place)
                if os.path.exists(kept):
                    os.rename(kept, place)
        self.assertEqual(self.run_make().returncode, 0)

    def test_a_link_that_leads_elsewhere(self):
        for path in ("libcfgx.so", SONAME):
            place = self.path(f"out/cfgx/lib/{path}")
            leads = os.readlink(place)
            for other in ("libcfgx.a", "../../../README.md"):
                with self.subTest(path=path, other=other):
                    os.remove(place)
                    os.symlink(other, place)
                    self.check_refusal(
                        f"out/cfgx/lib/{path} is not as it was installed: {self.again}"
                    )
            os.remove(place)
            os.symlink(leads, place)
        self.assertEqual(self.run_make().returncode, 0)
