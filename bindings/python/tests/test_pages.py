"""The examples of the pages and of the docstrings."""
import doctest
import os
import re
import subprocess

from . import ROOT, needs
from . import test_budget
from .made import Shell

import cfgx
import cfgx.manifest
from cfgx import _command, _files
from cfgx.manifest import _cargo, _flags, _reach, _search

PAGE = os.path.join(ROOT, "docs", "PYTHON.md")
README = os.path.join(ROOT, "README.md")
MANIFESTS_PAGE = os.path.join(ROOT, "docs", "MANIFESTS.md")
HOST = "x86_64-unknown-linux-gnu"

# What has examples.
SHOWN = {
    "PYTHON.md", "cfgx", "cfgx.Expression.answers", "cfgx.Expression.decide",
    "cfgx.Expression.eval", "cfgx.Expression.original", "cfgx.Expression.predicates",
    "cfgx.FactError", "cfgx.ParseError", "cfgx.Predicate", "cfgx.audit", "cfgx.flag",
    "cfgx.key_value", "cfgx.manifest", "cfgx.parse", "cfgx.target_facts", "cfgx.targets",
}


def blocks(page):
    """Returns the language and the text of each block of a page."""
    with open(page, encoding="utf-8") as file:
        return re.findall(r"^```([\w,]*)\n(.*?)^```$", file.read(), re.M | re.S)


class Manifests(Shell):
    """The examples on the page for manifests."""

    def write_watcher(self):
        """Writes the package on the page. Returns its folder."""
        manifest, _ = [text for language, text in blocks(MANIFESTS_PAGE) if language == "toml"]
        self.write("watcher/Cargo.toml", manifest)
        self.write("watcher/src/lib.rs")
        return os.path.join(self.folder, "watcher")

    def write_app(self):
        """Writes the package on the page that has a lock file, with all packages that it uses.
        Returns its folder."""
        packages = {
            "app": ("dependencies.net", "build-dependencies.codegen"),
            "net": ("target.'cfg(windows)'.dependencies.winsock",),
            "codegen": ("target.'cfg(windows)'.dependencies.console",), "winsock": (),
            "console": (),
        }
        for name, rows in packages.items():
            lines = [f'[{row}]\npath = "../{row.rpartition(".")[2]}"' for row in rows]
            sources = ["src/lib.rs", "build.rs"] if name == "app" else ["src/lib.rs"]
            self.write_package(name, *lines, sources=sources)
        path = os.path.join(self.folder, "app")
        subprocess.run(["cargo", "generate-lockfile", "--offline", "-q"], cwd=path, check=True)
        return path

    @needs(
        "cargo", "rustc", "jq",
        untested="the commands and tables of cfgx-deps on the page MANIFESTS",
    )
    def test_commands(self):
        watcher, app = self.write_watcher(), self.write_app()
        host = cfgx.manifest.report(watcher).platforms[0]
        consoles = [text for language, text in blocks(MANIFESTS_PAGE) if language == "console"]
        self.assertEqual(len(consoles), 6)
        for text in consoles:
            folder = app if "--resolved" in text else watcher
            lines = text.splitlines(keepends=True)
            command = "".join(line[2:] for line in lines if line[:2] in ("$ ", "> "))
            wanted = "".join(line for line in lines if line[:2] not in ("$ ", "> "))
            found = self.output_of(command, folder)
            self.assertEqual(found.replace(f"host {host.triple};", f"host {HOST};"), wanted)

    def test_the_table_of_the_readme(self):
        with open(README, encoding="utf-8") as file:
            [shown] = re.findall(r"^```\n(\$ cfgx-deps .*?)^```$", file.read(), re.M | re.S)
        page = next(text for language, text in blocks(MANIFESTS_PAGE) if language == "console")
        lines = [[line.split() for line in text.splitlines()] for text in (shown, page)]
        self.assertEqual(len(lines[0]), 6)
        self.assertEqual([line for line in lines[0] if line not in lines[1]], [])

    @needs("cargo", untested="the command of the page MANIFESTS that finds what is never true")
    def test_the_command_for_what_is_never_true(self):
        folder = self.write_watcher()
        command, _ = [text for language, text in blocks(MANIFESTS_PAGE)
                      if language == "bash" and text.startswith("cfgx-deps ")]
        self.assertNotIn("never", self.output_of(command, folder))
        self.write("watcher/Cargo.toml", '[package]\nname = "a"\nversion = "0.1.0"\n'
                   "[target.'cfg(target_os = \"macosx\")'.dependencies]\nb = \"1\"\n")
        with self.assertRaises(subprocess.CalledProcessError) as caught:
            self.output_of(command, folder)
        self.assertEqual(caught.exception.returncode, 1)
        self.assertIn("never", caught.exception.stdout.decode())

    @needs("cargo", "Python 3.11 or tomli", untested="the command for a CI on the page MANIFESTS")
    def test_the_command_for_a_ci(self):
        folder = self.write_watcher()
        _, command = [text for language, text in blocks(MANIFESTS_PAGE)
                      if language == "bash" and text.startswith("cfgx-deps ")]
        _, known = [text for language, text in blocks(MANIFESTS_PAGE) if language == "toml"]
        self.write("watcher/known.toml", known)
        with self.assertRaises(subprocess.CalledProcessError) as caught:
            self.output_of(command, folder)
        self.assertEqual(caught.exception.returncode, 1)
        with open(MANIFESTS_PAGE, encoding="utf-8") as file:
            [told] = re.findall("^`(cfgx-deps: unknown: .*)`:$", file.read(), re.M)
        self.assertEqual(caught.exception.stderr.decode(), f"{told}\n")
        self.assertIn("6 of 7 rows", caught.exception.stdout.decode())

    @needs("cargo", untested="the example in Python on the page MANIFESTS")
    def test_the_function(self):
        before = os.getcwd()
        os.chdir(self.write_watcher())
        self.addCleanup(os.chdir, before)
        [text] = [text for language, text in blocks(MANIFESTS_PAGE) if language == "python"]
        example = doctest.DocTestParser().get_doctest(text, {}, "MANIFESTS.md", MANIFESTS_PAGE, 0)
        self.assertEqual(doctest.DocTestRunner().run(example).failed, 0)

    def test_commands_take_no_module_of_the_folder(self):
        for page in (PAGE, MANIFESTS_PAGE, README):
            texts = [text for _, text in blocks(page)]
            self.assertTrue(texts, page)
            self.assertFalse(any("-m cfgx" in text for text in texts), page)

    def test_options(self):
        with open(MANIFESTS_PAGE, encoding="utf-8") as file:
            table = re.findall(r"^\| (`[^|]*) \|", file.read().split("| option |")[1], re.M)
        told = {word for cell in table for word in re.findall(r"(?<!\w)--?[a-z][\w-]*", cell)}
        known = {word for one in _command.parser()._actions for word in one.option_strings}
        self.assertEqual(told | {"--help", "-h", "--package", "--version"}, known)

    def test_limits(self):
        with open(MANIFESTS_PAGE, encoding="utf-8") as file:
            text = " ".join(file.read().split("## Limits")[1].split("\n## ")[0].split())
        told = [
            f"regular files of at most {_files.MOST_BYTES:,} bytes",
            f"At most {_flags.MOST_CONFIGURATIONS} of these are read",
            f"It waits {_cargo.TIMEOUT:g} seconds",
            f"print {_cargo.MOST_PRINTED >> 20} MiB", f"{_cargo.MOST_DATA >> 30} GiB of data",
            f"{_search.BUDGET:,} evaluated predicates",
            f"counts as {_search.BEGIN_EACH} for each predicate",
            f"a try as {_search.TRY:,} and as {_search.TRY_EACH} for each predicate",
            f"evaluation of the condition as {_search.CALL} and", f"is kept as {_search.KEPT}.",
            f"a flag that is listed as {_search.LISTED},",
            f"search for ways takes counts as {_reach.STEP}, and a step in a way that is kept as"
            f" {_reach.KEPT_STEP:,}", f"less than {test_budget.SECONDS} seconds of a processor",
            f"and {test_budget.MEGABYTES} MB on 320 targets",
        ]
        self.assertEqual([one for one in told if one not in text], [])

    def test_how_many_steps_are_shown(self):
        with open(MANIFESTS_PAGE, encoding="utf-8") as file:
            text = " ".join(file.read().split())
        self.assertIn(f"Of a way with more than {_reach.MOST_STEPS} steps, the last"
                      f" {_reach.MOST_STEPS} are shown.", text)


def load_tests(loader, tests, pattern):
    """Adds the examples to the tests."""
    page = "".join(text for language, text in blocks(PAGE) if language == "python")
    found = [doctest.DocTestParser().get_doctest(page, {}, "PYTHON.md", PAGE, 0)]
    # Without `module=False` the finder leaves out what another module defines.
    found += doctest.DocTestFinder().find(cfgx, "cfgx", module=False, globs={})
    found += doctest.DocTestFinder().find(cfgx.manifest, "cfgx.manifest", module=False, globs={})
    examples = [one for one in found if one.examples]
    missing = SHOWN - {one.name for one in examples}
    if missing:
        raise ValueError(f"there is no example of {missing}")
    tests.addTests(map(doctest.DocTestCase, examples))
    return tests
