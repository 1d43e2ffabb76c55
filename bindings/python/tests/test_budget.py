"""What the command takes for manifests of a megabyte on 320 targets."""
import itertools
import json
import os
import subprocess
import sys
import threading
import time
import unittest

from . import PACKAGE
from .test_command import Made, dependency_of

import cfgx
from cfgx import _library, manifest
from cfgx.manifest import _conditions
from cfgx.manifest._search import BUDGET, Budget

MOST = 1 << 20
HEAD = '[package]\nname = "p"\nversion = "0.1.0"\nedition = "2021"\n'
# What the command may take: seconds of a processor, and megabytes. Of cargo, which the command
# waits for, the time counts as well. It was measured for each manifest: at most 0.9 s.
SECONDS, CARGO, MEGABYTES = 5, 0.9, 300
LETTERS = "abcdefghijklmnopqrst"


def either(one, other):
    """Returns a condition that is true if one of two flags is set, and not both."""
    return f"any(all({one},not({other})),all(not({one}),{other}))"


def facts_of_targets(*keys):
    """Returns the facts with some keys that some targets have and others do not."""
    found = {fact for triple in cfgx.targets() for fact in cfgx.target_facts(triple)}
    return sorted(fact for fact in found if fact.split("=")[0] in keys)


SYSTEMS = facts_of_targets("target_os", "target_env", "target_abi", "target_arch", "target_vendor")
FEATURES = facts_of_targets("target_feature")
# Manifests: the conditions, one for each dependency, as many as fit; and whether all answers are
# tried out that have to be.
MANIFESTS = {
    "one condition of 40,000 flags": (
        lambda number: f"any({','.join(f'f{n}' for n in range(40_000))})", True, 1),
    "one condition that needs 40,000 flags": (
        lambda number: f"all({','.join(f'f{n}' for n in range(40_000))})", True, 1),
    "40,000 flags, of which one stands twice": (
        lambda number: f"any({','.join(f'f{n}' for n in range(40_000))},not(f0))", True, 1),
    "40,000 flags that stand twice": (
        lambda number: f"any({','.join(f'all(f{n},not(f{n}))' for n in range(40_000))})", False, 1),
    "pairs of flags of which one is set": (
        lambda number: f"all({','.join(either(f'a{n}', f'b{n}') for n in range(18_000))})", False,
        1),
    "flags that stand a hundred thousand times": (
        lambda number: f"any({'a,b,' * 130_000}z)", True, 1),
    "10,000 conditions of 20 flags": (
        lambda number: f"any({LETTERS[0]}{number},{','.join(LETTERS[1:])})", True, 10_000),
    "10,000 conditions that need each answer to 20 flags": (
        lambda number: "all({},any(z{},not(z{})),all(y,not(y)))".format(
            ",".join(map(either, LETTERS[::2], LETTERS[1::2])), number, number), False, 10_000),
    "many conditions": (lambda number: f"a{number}", True, 40_000),
    "many conditions on targets": (
        lambda number: f"all({SYSTEMS[number % len(SYSTEMS)]},f{number})", True, 40_000),
    "conditions that differ on each target": (
        lambda number: "any({})".format(",".join(
            f"all({fact},h{number}_{place})" for place, fact in enumerate(SYSTEMS))), False, 5000),
    "flags that differ on each target": (
        lambda number: "all({},{})".format(
            ",".join(f"any(not({fact}),h{place})" for place, fact in enumerate(SYSTEMS)),
            ",".join(f"b{n}" for n in range(40_000))), False, 1),
    "conditions over features of processors": (
        lambda number: f"any(f{number},all(any({{}}),any({{}})))".format(*(
            ",".join(facts[(number * 7 + place * 13) % len(facts)] for place in range(5))
            for facts in (SYSTEMS, FEATURES))), False, 10_000),
    "conditions that the engine refuses": (lambda number: f'unix="é{number}"', True, 40_000),
}


def slowness():
    """Returns how many times as long as on a machine that does nothing else the processor takes, by
    work like that of the command. There it takes 0.3 s."""
    before = time.process_time()
    for _ in range(5):
        rows = [{"name": f"a{n}", "values": [n % 7, n % 11]} for n in range(20_000)]
        sorted(len(row["name"]) for row in json.loads(json.dumps(rows)))
    return max(1.0, (time.process_time() - before) / 0.3)


class Measured(Made):
    """Measures how much time and memory the command takes."""

    def list_conditions(self, conditions):
        """Makes `cargo` list a dependency for each of some conditions, with all that a real one
        says, as long as a manifest has a megabyte. Returns how many there are."""
        usual = dependency_of("b")
        size = itertools.accumulate(len(f'"cfg({one})".dependencies.b="1"\n'.encode())
                                    for one in conditions)
        fitting = [one for one, end in zip(conditions, size) if end <= MOST - len(HEAD)]
        self.list(*({**usual, "target": f"cfg({one})".replace(",", ", ").replace("=", " = ")}
                    for one in fitting))
        return len(fitting)

    def measured(self, *words):
        """Returns the status of the command, what it prints on stderr, how many bytes on stdout,
        the seconds, and the megabytes."""
        variables = {"PATH": self.tools, "CFGX_LIBRARY": _library.path_of(), "HOME": self.folder,
                     "PYTHONDONTWRITEBYTECODE": "1"}
        script = os.path.abspath(os.path.join(PACKAGE, "cfgx_deps.py"))
        command = [sys.executable, script, "--target", "all", *words]
        process = subprocess.Popen(command, env=variables, cwd=self.audited,
                                   stdout=subprocess.PIPE, stderr=subprocess.PIPE)
        sizes = []

        def read():
            with process.stdout as stream:
                sizes.extend(map(len, iter(lambda: stream.read(MOST), b"")))

        reader = threading.Thread(target=read)
        reader.start()
        with process.stderr as stream:
            errors = stream.read().decode()
        reader.join()
        _, status, usage = os.wait4(process.pid, 0)
        process.returncode = os.WEXITSTATUS(status) if os.WIFEXITED(status) else -1
        seconds = usage.ru_utime + usage.ru_stime
        return process.returncode, errors, sum(sizes), seconds, usage.ru_maxrss / 1024

    def assert_bounded(self, *words, is_whole=True, what="answers to flags"):
        """Runs the command, and compares what it takes with what it may take. `what` was not tried
        out in whole, if it was not."""
        # On a busy machine, all that a processor does takes longer.
        for _ in range(3):
            before = slowness()
            status, errors, size, seconds, megabytes = self.measured(*words)
            seconds /= (before + slowness()) / 2
            if seconds < SECONDS - CARGO:
                break
        told = f"cfgx-deps: not all {what} were tried out: the budget of a report is spent"
        wanted = (0, "") if is_whole else (3, f"{told}\n")
        self.assertEqual((status, errors), wanted)
        self.assertGreater(size, 1000)
        self.assertLess(seconds, SECONDS - CARGO)
        self.assertLess(megabytes, MEGABYTES)


class Costs(Measured):
    """How much time and memory the command takes."""

    def test_conditions(self):
        for name, (condition, is_whole, count) in MANIFESTS.items():
            with self.subTest(name=name):
                found = self.list_conditions([condition(number) for number in range(count)])
                self.assertGreater(found, 0)
                self.assert_bounded("--format", "json", is_whole=is_whole)

    def test_rows(self):
        flags = ",".join(f"f{number}" for number in range(12))
        forms = ["--format=table"], ["--format=tsv", "--summary"], ["--format=json"]
        for target, words in zip((None, None, f"cfg(any({flags}))"), forms):
            usual = dependency_of("b", target)
            self.list(*({**usual, "name": f"a{number}"} for number in range(90_000)))
            with self.subTest(target=target, words=words):
                self.assert_bounded(*words)

    def test_sarif(self):
        # The manifest is read for the places of the conditions.
        count = self.list_conditions([f"a{number}" for number in range(40_000)])
        lines = (f"[target.'cfg(a{number})'.dependencies]\nb=\"1\"\n" for number in range(count))
        text = "".join(lines)
        self.assertLess(len(text) / MOST, 1.4)
        self.write("audited/Cargo.toml", text[:MOST])
        self.assert_bounded("--format=sarif")

    def test_triples(self):
        self.list(*(dependency_of("b", f"a{number}") for number in range(40_000)))
        for words in (["--format=tsv"], ["--summary"]):
            with self.subTest(words=words):
                self.assert_bounded(*words)


class Shares(unittest.TestCase):
    """How the budget of a report is divided."""

    def values_of(self, *conditions, budget=None):
        """Returns the values of conditions on a target without facts."""
        platform = manifest.Platform("t", "t", False, frozenset(), True)
        found = _conditions.values_of([f"cfg({one})" for one in conditions], [platform], budget)
        return {name[4:-1]: values for name, values in found.items()}

    def test_what_a_report_may_spend(self):
        self.assertEqual((BUDGET, Budget().left), (75_000_000, 75_000_000))

    def test_short_conditions_come_first(self):
        hard = [f"all({','.join(either(f'a{k}_{n}', f'b{n}') for n in range(40))},all(x,not(x)))"
                for k in range(20)]
        easy = ["any(a, b)", "all(not(a), any(b, not(c)))", "any(a, not(a))"]
        for order in ([*hard, *easy], [*easy, *hard]):
            budget = Budget(1_000_000)
            found = self.values_of(*order, budget=budget)
            self.assertEqual([found[one].on for one in easy], [(None,), (None,), (True,)])
            for one in easy[:2]:
                self.assertTrue(found[one].unknown[0].is_tried)
            self.assertEqual({found[one].unknown[0].is_tried for one in hard}, {False})
            self.assertGreaterEqual(budget.left, 0)

    def test_without_a_budget(self):
        [found] = self.values_of("any(a, b)", budget=Budget(0)).values()
        self.assertEqual(found.on, (None,))
        reason = found.unknown[0]
        self.assertEqual((reason.flags, reason.if_yes, reason.if_no), (("a", "b"), None, None))
        self.assertFalse(reason.is_tried)

    def test_what_is_left_is_given_back(self):
        budget = Budget(1_000_000)
        self.values_of("any(a, b)", budget=budget)
        self.assertTrue(980_000 < budget.left < 999_000, budget.left)

    def test_examples_that_are_not_made_shorter(self):
        # There is a budget for the search, and none to leave flags out.
        flags = [f"f{number}" for number in range(50)]
        condition = f"any({', '.join(flags)})"
        least = 2000 + (60 + 20 + 20 + 2 * 80) * 50
        [found] = self.values_of(condition, budget=Budget(least)).values()
        reason = found.unknown[0]
        self.assertTrue(reason.is_tried)
        self.assertEqual(reason.if_no, dict.fromkeys(sorted(flags), False))
        self.assertGreater(len(reason.if_yes), 1)
        self.assertIn(True, reason.if_yes.values())
        [found] = self.values_of(condition, budget=Budget(least - 8001)).values()
        self.assertFalse(found.unknown[0].is_tried)
