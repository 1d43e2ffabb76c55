"""The targets in the package, beside those of the `rustc` on the path."""
import concurrent.futures
import os
import re
import stat
import subprocess
import sys
import tempfile
import unittest
import unittest.mock

from . import PACKAGE, ROOT, needs

import cfgx
from cfgx import _targets

TRIPLE = "x86_64-unknown-linux-musl"
# What rustc 1.95 prints for this target to Cargo, without `proc_macro`.
FACTS = """\
debug_assertions
panic="unwind"
target_abi=""
target_arch="x86_64"
target_endian="little"
target_env="musl"
target_family="unix"
target_feature="fxsr"
target_feature="sse"
target_feature="sse2"
target_has_atomic="16"
target_has_atomic="32"
target_has_atomic="64"
target_has_atomic="8"
target_has_atomic="ptr"
target_os="linux"
target_pointer_width="64"
target_vendor="unknown"
unix
"""
# A `rustc` that writes its words into a file, each on a line, if it is asked about a target.
LOGGING = """#!/bin/sh
case " $* " in *" --target "*) printf '%s\\n' "$@" > {log} ;; esac
exec rustc "$@"
"""
# Targets that are not in the table, and the end of the message.
UNKNOWN = [
    ("x86_64-linux-gnu", ". Did you mean 'x86_64-unknown-linux-gnu'?"),
    ("aarch64-aple-darwin", ". Did you mean 'aarch64-apple-darwin'?"),
    ("", ""), ("triple", ""), ("?", ""), (f"{TRIPLE}\n", f". Did you mean {TRIPLE!r}?"),
]


def printed(*words):
    """Returns what the `rustc` on the path prints with these words and no input."""
    run = subprocess.run(
        ["rustc", *words], stdin=subprocess.DEVNULL, stdout=subprocess.PIPE,
        stderr=subprocess.PIPE, check=True,
    )
    return run.stdout.decode()


def words_of_cargo():
    """Returns the words with which Cargo asks rustc about the target `TRIPLE`."""
    with tempfile.TemporaryDirectory() as folder:
        log, compiler, source = (os.path.join(folder, name) for name in ("log", "rustc", "lib.rs"))
        manifest = os.path.join(folder, "Cargo.toml")
        texts = {
            compiler: LOGGING.format(log=log), source: "",
            manifest: '[package]\nname = "a"\nedition = "2021"\n[lib]\npath = "lib.rs"\n',
        }
        for path, text in texts.items():
            with open(path, "w", encoding="utf-8") as file:
                file.write(text)
        os.chmod(compiler, stat.S_IRWXU)
        subprocess.run(
            ["cargo", "tree", "--offline", "--manifest-path", manifest, "--target", TRIPLE],
            env={**os.environ, "RUSTC": compiler}, stdout=subprocess.PIPE, check=True,
        )
        with open(log, encoding="utf-8") as file:
            return file.read().splitlines()


def cargo_facts(words, triple):
    """Returns what Cargo takes from rustc for a target, with its words for `TRIPLE`. The facts
    stand behind the line that `--print=crate-name` makes."""
    lines = printed(*(triple if word == TRIPLE else word for word in words)).splitlines()
    start = len(lines) - lines[::-1].index("___")
    return [line for line in lines[start:] if line != "proc_macro"]


class Table(unittest.TestCase):
    """The table by itself."""

    def test_triples(self):
        triples = cfgx.targets()
        self.assertIsInstance(triples, tuple)
        self.assertEqual(list(triples), sorted(set(triples)))
        self.assertGreater(len(triples), 300)
        self.assertIn(TRIPLE, triples)
        self.assertRegex(cfgx.rustc_version(), r"^1\.\d+\.\d+")

    def test_the_facts_of_a_target(self):
        self.assertEqual(cfgx.target_facts(TRIPLE), FACTS.splitlines())

    def test_a_target_without_system(self):
        facts = cfgx.target_facts("thumbv6m-none-eabi")
        for fact in ('target_os="none"', 'target_env=""', 'target_abi="eabi"', 'panic="abort"'):
            self.assertIn(fact, facts)
        self.assertFalse([one for one in facts if one.startswith("target_family")])
        self.assertFalse({"unix", "windows"} & set(facts))

    def test_lists_belong_to_the_caller(self):
        cfgx.target_facts(TRIPLE).clear()
        self.assertEqual(cfgx.target_facts(TRIPLE), FACTS.splitlines())

    def test_unknown_targets(self):
        for triple, hint in UNKNOWN:
            with self.assertRaises(ValueError) as caught:
                cfgx.target_facts(triple)
            message = f"{triple!r} is no target of rustc {cfgx.rustc_version()}{hint}"
            self.assertEqual(str(caught.exception), message)

    def test_the_table_is_read_when_it_is_needed(self):
        code = (
            "import pkgutil, unittest.mock\n"
            "with unittest.mock.patch('pkgutil.get_data', side_effect=pkgutil.get_data) as read:\n"
            "    import cfgx\n"
            "    assert read.call_count == 0\n"
            "    cfgx.targets(), cfgx.target_facts('wasm32-unknown-unknown'), cfgx.targets()\n"
            "    assert read.call_count == 1\n"
        )
        environment = {**os.environ, "PYTHONPATH": PACKAGE}
        subprocess.run([sys.executable, "-c", code], env=environment, check=True)

    def test_other_files(self):
        for data, error in ((None, OSError), (b"# Targets\n", ValueError)):
            with unittest.mock.patch("pkgutil.get_data", return_value=data):
                with self.assertRaisesRegex(error, "the package cfgx"):
                    _targets.table.__wrapped__()

    def test_pages_name_the_compiler(self):
        shown = f" {len(cfgx.targets())} targets of rustc {cfgx.rustc_version()}"
        for name in ("CHANGELOG.md", "docs/MANIFESTS.md", "docs/PYTHON.md", "docs/RUST.md",
                     "bindings/rust/README.md"):
            with open(os.path.join(ROOT, name), encoding="utf-8") as page:
                self.assertIn(shown, " ".join(page.read().split()), name)


class Compiler(unittest.TestCase):
    """The table beside a compiler."""

    @needs("cargo", "rustc", untested="the facts of each target beside those that Cargo is told")
    def test_facts_are_those_that_cargo_takes(self):
        version = re.search(r"^release: (.*)$", printed("-vV"), re.M)[1]
        triples = printed("--print", "target-list").split()
        shared = [triple for triple in cfgx.targets() if triple in triples]
        words = words_of_cargo()
        with concurrent.futures.ThreadPoolExecutor(os.cpu_count()) as executor:
            facts = list(executor.map(lambda triple: cargo_facts(words, triple), shared))
        own = cfgx.rustc_version()
        if version == own:
            self.assertEqual(list(cfgx.targets()), sorted(triples))
            self.assertEqual(list(map(cfgx.target_facts, shared)), facts)
            return
        # A compiler of another version may print more, as a nightly one does.
        differing = [
            triple for triple, found in zip(shared, facts)
            if not set(cfgx.target_facts(triple)) <= set(found)
        ]
        print(
            f"skipped: the targets in the package are those of rustc {own}, and here is {version},"
            f" so only {len(shared)} of {len(cfgx.targets())} were compared with its"
            f" {len(triples)}; {len(differing)} lack a fact: {differing}", file=sys.stderr,
            flush=True,
        )
        self.assertGreater(len(shared) * 10, len(cfgx.targets()) * 9)
        self.assertLess(len(differing) * 10, len(shared))
