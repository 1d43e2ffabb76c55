"""SARIF of the command, over manifests that a real cargo reads."""
import json
import os
import re
import subprocess
import sys

from . import PACKAGE, needs
from .test_command import WINDOWS, Made

from cfgx import _library

HEAD = '[package]\nname = "{}"\nversion = "0.1.0"\nedition = "2021"\n\n'
# Tables of a manifest, with marks around each condition that is never true on the targets below.
MANIFEST = """\
[dependencies]
always = "1"

[target.«'cfg(target_os = "plain")'».dependencies]
plain = "1"
two = "1"

[target.«"cfg(target_os = \\"quo\\\\u0074ed\\")"».dependencies.quoted]
version = "1"

[ target . «'cfg( any( target_os="日本{0}" ,))'» . dev-dependencies ]
wide = "1"

[target]
«'cfg(target_os = "[a](http://b)")'».dependencies.dotted = "1"
«'cfg(target_os = "inline")'» = { dependencies = { "inl\\u0069ne" = "1" } }

[target.«riscv64gc-unknown-linux-gnu».build-dependencies]
'triple' = { version = "1" }

[target.'cfg(windows)'.dependencies]
sometimes = "1"

[target.«'cfg(loom)'».dependencies]
flag = "1"
"""
# The rules, names and texts of the results, in the order of the manifest.
FOUND = [
    ("never", "p plain", 'cfg(target_os = "plain") is false on each of 2 platforms'),
    ("never", "p two", 'cfg(target_os = "plain") is false on each of 2 platforms'),
    ("never", "p quoted", 'cfg(target_os = "quo\\u0074ed") is false on each of 2 platforms'),
    ("never", "p wide (dev)", 'cfg(any(target_os = "日本{{0}}")) is false on each of 2 platforms'),
    ("never", "p dotted", 'cfg(target_os = "\\[a\\](http://b)") is false on each of 2 platforms'),
    ("never", "p inline", 'cfg(target_os = "inline") is false on each of 2 platforms'),
    ("never", "p triple (build)", "riscv64gc-unknown-linux-gnu is false on each of 2 platforms"),
    ("unknown", "p flag",
     "cfg(loom) is unknown on 1 of 2 platforms, by flags that RUSTFLAGS may set: loom"),
]
# In which of the marked conditions each of them stands.
MARKED = [0, 0, 1, 2, 3, 4, 5, 6]


@needs("cargo", untested="SARIF of the command beside a real cargo")
class Sarif(Made):
    """What the command writes."""

    def setUp(self):
        super().setUp()
        parts = re.split("[«»]", HEAD.format("p") + MANIFEST)
        self.write("audited/Cargo.toml", "".join(parts))
        self.write("audited/src/lib.rs")
        self.marked = parts[1::2]

    def log(self, *words, status=0):
        """Returns what the command writes, and what it prints on stderr."""
        kept = {name: os.environ[name] for name in ("RUSTUP_HOME", "CARGO_HOME")
                if name in os.environ}
        found = self.command("--format", "sarif", "--target", WINDOWS, *words,
                             PATH=os.environ["PATH"], HOME=os.path.expanduser("~"), **kept)
        self.assertEqual(found[0], status, found)
        self.assertTrue(found[1].isascii())
        return json.loads(found[1]), found[2]

    def results(self, *words, status=0):
        """Returns the results that the command writes, by the names of rows."""
        [run] = self.log(*words, status=status)[0]["runs"]
        found = {one["message"]["text"].split(": ")[0]: one for one in run["results"]}
        self.assertEqual(len(found), len(run["results"]))
        return found

    def test_the_run(self):
        log, _ = self.log()
        self.assertEqual(log["version"], "2.1.0")
        self.assertRegex(log["$schema"], r"^https://.*/sarif-schema-2\.1\.0\.json$")
        [run] = log["runs"]
        self.assertEqual(run["columnKind"], "unicodeCodePoints")
        driver = run["tool"]["driver"]
        self.assertEqual(driver["name"], "cfgx-deps")
        self.assertEqual([rule["id"] for rule in driver["rules"]], ["unknown", "never"])
        self.assertTrue(run["invocations"][0]["executionSuccessful"])

    def test_results(self):
        found = self.results()
        self.assertEqual(len(found), len(FOUND))
        for rule, name, text in FOUND:
            one = found[name]
            self.assertEqual((one["ruleId"], one["message"]["text"]), (rule, f"{name}: {text}"))
            self.assertEqual(one["level"], "note" if rule == "unknown" else "warning")

    def test_places(self):
        with open(self.path, encoding="utf-8") as file:
            lines = file.read().split("\n")
        found = self.results()
        for (_, name, _), number in zip(FOUND, MARKED):
            [place] = found[name]["locations"]
            file, region = map(place["physicalLocation"].get, ("artifactLocation", "region"))
            self.assertEqual(file, {"uri": "Cargo.toml", "uriBaseId": "SRCROOT"})
            self.assertEqual(region["startLine"], region["endLine"])
            line = lines[region["startLine"] - 1]
            text = line[region["startColumn"] - 1:region["endColumn"] - 1]
            with self.subTest(name=name):
                self.assertEqual(text, self.marked[number])

    def test_where_paths_begin(self):
        member = self.write("audited/a b/é/Cargo.toml", HEAD.format("m") + (
            "[target.'cfg(target_os = \"x\")'.dependencies]\nb = \"1\"\n"))
        self.write("audited/a b/é/src/lib.rs")
        with open(self.path, "a", encoding="utf-8") as file:
            file.write('[workspace]\nmembers = ["a b/é"]\n')
        found = self.results("--workspace")
        [place] = found["m b"]["locations"]
        uri = place["physicalLocation"]["artifactLocation"]["uri"]
        self.assertEqual(uri, "a%20b/%C3%A9/Cargo.toml")
        self.assertEqual(place["physicalLocation"]["region"]["startLine"], 6)
        self.assertEqual(len(found), len(FOUND) + 1)
        self.assertTrue(os.path.exists(member))

    def test_what_the_command_fails_for(self):
        found = self.results("--fail-on", "never", status=1)
        self.assertEqual(set(found), {name for rule, name, _ in FOUND if rule == "never"})
        self.assertEqual({one["level"] for one in found.values()}, {"error"})
        self.assertEqual(list(self.results("--fail-on", "unknown", status=1)), ["p flag"])

    @needs("Python 3.11 or tomli", untested="known rows in SARIF")
    def test_what_is_known(self):
        path = self.write("known.toml", "[[known]]\nfinding = 'never'\nname = 'plain'\n"
                                        "reason = 'because'\n")
        found = self.results("--fail-on", "never", "--known", path, status=1)
        known = {"kind": "external", "status": "accepted", "justification": "because"}
        self.assertEqual(found["p plain"]["suppressions"], [known])
        self.assertEqual(found["p plain"]["level"], "warning")
        self.assertEqual([name for name in found if "suppressions" in found[name]], ["p plain"])

    @needs("cargo", untested="the subcommand of cargo")
    def test_a_subcommand_of_cargo(self):
        script = os.path.abspath(os.path.join(PACKAGE, "cfgx_deps.py"))
        text = f"#!{sys.executable}\nimport sys\n" \
               f"sys.path.insert(0, {os.path.dirname(script)!r})\n" \
               "import cfgx_deps\nsys.exit(cfgx_deps.cargo_main())\n"
        self.write_program("bin/cargo-cfgx-deps", text)
        path = os.path.join(self.folder, "bin") + os.pathsep + os.environ["PATH"]

        def run(*words):
            done = subprocess.run(
                words, cwd=self.audited, stdout=subprocess.PIPE, stderr=subprocess.PIPE,
                check=False, env={**os.environ, "PATH": path, "CFGX_LIBRARY": _library.path_of()},
            )
            return done.returncode, done.stdout.decode(), done.stderr.decode()

        command = [sys.executable, script]
        for words in (["--target", WINDOWS, "--summary"], ["--fail-on", "never"], ["--version"],
                      ["--kind", "build", "Cargo.toml"], ["-p", "none"]):
            with self.subTest(words=words):
                self.assertEqual(run("cargo", "cfgx-deps", *words), run(*command, *words))
                self.assertEqual(run("cargo-cfgx-deps", *words), run(*command, *words))
        usage = "usage: cargo cfgx-deps "
        self.assertTrue(run("cargo", "cfgx-deps", "--help")[1].startswith(usage))
        self.assertTrue(run("cargo", "cfgx-deps", "-x")[2].startswith(usage))
