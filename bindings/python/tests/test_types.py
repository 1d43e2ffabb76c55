"""The types of the package, as a strict checker sees them."""
import inspect
import os
import subprocess
import tempfile
import unittest

from . import PACKAGE, needs

import cfgx

# The functions that make predicates of a value, and their parameters.
VALUED = [
    "feature", "panic", "target_abi", "target_arch", "target_endian", "target_env",
    "target_family", "target_feature", "target_has_atomic", "target_os", "target_pointer_width",
    "target_vendor",
]
# A program whose calls name their parameters.
PROGRAM = """
from typing import List, Optional
import cfgx
import cfgx.manifest

predicates: List[cfgx.Predicate] = [
    cfgx.feature(value="x"), cfgx.panic(value="abort"), cfgx.target_os(value="linux"),
    cfgx.flag(key="loom"), cfgx.key_value(key="key", value="x"), cfgx.test(),
]
expression: cfgx.Expression = cfgx.parse(text="unix")
value: Optional[bool] = expression.eval(answers={one: True for one in predicates})
answers: List[Optional[bool]] = expression.answers(facts="unix", otherwise=False)
table: List[List[Optional[bool]]] = cfgx.audit(
    conditions=[expression], targets=[cfgx.target_facts(triple="x")], otherwise=None
)
lines: List[str] = cfgx.rustc_facts(triple="x")
report = cfgx.manifest.report(manifest="Cargo.toml", targets=["x"], cargo_timeout=1)
tried: bool = report.is_tried and report.rows[0].is_tried and report.rows[0].unknown[0].is_tried
"""
# Calls that are wrong.
WRONG = [
    'cfgx.feature(valu="x")', "cfgx.feature(value=1)", "cfgx.feature()", 'cfgx.test(value="x")',
    'cfgx.manifest.report(cargo_timeout="1")',
]


class Names(unittest.TestCase):
    """The names of parameters."""

    def test_functions_that_make_predicates(self):
        for name in VALUED:
            made = getattr(cfgx, name)
            self.assertEqual(list(inspect.signature(made).parameters), ["value"])
        self.assertEqual(cfgx.feature(value="x"), cfgx.feature("x"))
        self.assertEqual(cfgx.key_value(key="a", value="x"), cfgx.key_value("a", "x"))


@needs("mypy", untested="the types of the package")
class Mypy(unittest.TestCase):
    """What mypy says."""

    def complaints(self, program):
        """Returns the errors that mypy finds in a program, and in the package."""
        with tempfile.TemporaryDirectory() as folder:
            path = os.path.join(folder, "program.py")
            with open(path, "w", encoding="utf-8") as file:
                file.write(program)
            words = ["--strict", "--no-error-summary", "--cache-dir", os.path.join(folder, "cache")]
            run = subprocess.run(
                ["mypy", *words, os.path.join(PACKAGE, "cfgx"), path], cwd=PACKAGE,
                stdout=subprocess.PIPE, stderr=subprocess.STDOUT, check=False,
            )
        return [line for line in run.stdout.decode().splitlines() if " error: " in line]

    def test_the_package_and_a_program(self):
        # There is an error for each call that is wrong, and no other.
        program = PROGRAM + "".join(f"{call}\n" for call in WRONG)
        found = [line.split(":")[:2] for line in self.complaints(program)]
        first = PROGRAM.count("\n") + 1
        self.assertEqual([os.path.basename(path) for path, _ in found], ["program.py"] * len(WRONG))
        self.assertEqual([int(number) for _, number in found],
                         list(range(first, first + len(WRONG))))
