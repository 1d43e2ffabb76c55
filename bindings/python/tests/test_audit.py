"""Values and answers on targets."""
import itertools
import os
import pickle
import unittest
import unittest.mock

from . import needs
from .made import Folder

import cfgx
from cfgx import _facts

LINUX = 'debug_assertions\npanic="unwind"\ntarget_os="linux"\ntarget_thread_local\nunix\n'


class Audits(unittest.TestCase):
    """Tables and errors."""

    def test_a_table(self):
        conditions = ["unix", cfgx.parse("cfg(windows)"), 'any(windows, feature = "x")', "test"]
        targets = [LINUX, ["windows"], ["unix", '?feature = "x"', "test"], []]
        wanted = [
            [True, False, True, False],
            [False, True, False, False],
            [None, True, None, None],
            [None, None, True, None],
        ]
        self.assertEqual(cfgx.audit(conditions, targets), wanted)
        wanted[2] = [False, True, None, False]
        wanted[3] = [False, False, True, False]
        self.assertEqual(cfgx.audit(iter(conditions), iter(targets), otherwise=False), wanted)

    def test_tables_without_rows_or_columns(self):
        self.assertEqual(cfgx.audit([], []), [])
        self.assertEqual(cfgx.audit([], [LINUX]), [])
        self.assertEqual(cfgx.audit(["unix", "test"], []), [[], []])
        self.assertEqual(cfgx.audit(["unix"], ["", []]), [[False, False]])

    def test_lines_of_a_text(self):
        lines = ['a = "\u2028"', 'b = "\x0b\x1c\x85"']
        facts = f"{lines[0]}\r\n\n\r\n{lines[1]}\n"
        self.assertEqual(_facts.lines_of(facts), lines)
        self.assertEqual(cfgx.audit(lines, [facts]), [[True], [True]])

    def test_ends_of_lines(self):
        rows = [
            ("", []), ("\n", []), ("\r\n", []), ("\r", []), ("a", ["a"]), ("a\n\nb", ["a", "b"]),
            ("a\r\n", ["a"]), ("a\r\r\n", ["a\r"]), ("\r\r", ["\r"]), ("a\rb", ["a\rb"]),
            (" \n", [" "]), ("\t\r\n\u3000", ["\t", "\u3000"]), (" a \n", [" a "]),
        ]
        for text, lines in rows:
            with self.subTest(text=text):
                self.assertEqual(_facts.lines_of(text), lines)

    def test_facts_with_zero_bytes_line_feeds_and_characters(self):
        facts = ['a = "\0"', 'a = "x\ny"', '?a = "日本𝄞"']
        conditions = ['a = "\0"', 'a = "\0\0"', 'a = "x\ny"', 'a = "日本𝄞"', "a"]
        values = cfgx.audit(conditions, [facts], otherwise=False)
        self.assertEqual(values, [[True], [False], [True], [None], [False]])

    def test_a_faulty_condition(self):
        with self.assertRaises(cfgx.ParseError) as caught:
            cfgx.audit(["unix", 'all(a = "é", 8)', "all("], [LINUX])
        error = caught.exception
        self.assertEqual((error.text, error.span), ('all(a = "é", 8)', (13, 14)))
        with self.assertRaises(cfgx.ParseError):
            cfgx.audit(["unix\0"], [])

    def test_a_faulty_fact(self):
        rows = [
            ([["all("]], (0, 0, "all(")),
            ([[], ["unix"], [], ["test", "é"], ["b)"]], (3, 1, "é")),
            ([["unix"], ["windows", "a", "b)", "a)"]], (1, 2, "b)")),
            ([["unix"], ["b)"], []], (1, 0, "b)")),
            (["unix\n\nx y\n"], (0, 1, "x y")),
            (["unix\n \n"], (0, 1, " ")), ([[""]], (0, 0, "")), (["a\nx y\r\r\n"], (0, 1, "x y\r")),
        ]
        for targets, wanted in rows:
            with self.subTest(targets=targets), self.assertRaises(cfgx.FactError) as caught:
                cfgx.audit(["unix"], targets)
            error = pickle.loads(pickle.dumps(caught.exception))
            self.assertEqual((error.target, error.number, error.fact), wanted)
            self.assertEqual(vars(error), vars(caught.exception))
            self.assertEqual((error.args[:3], error.args), (wanted, caught.exception.args))
            self.assertEqual(vars(cfgx.FactError(*error.args)), vars(error))
            number, target, fact = wanted[1], wanted[0], wanted[2]
            self.assertEqual(str(error), f"fact {number} of target {target} is faulty: {fact}")

    def test_what_is_wrong_with_a_fact(self):
        rows = [
            ("all(", "("), ("", ""), ("\u3000", "\u3000"), ("cfg()", ""), ("cfg( )", " "),
            ("a ?", "?"), ("x é", "é"), ("b)", ")"), ("a, b", "a, b"), ('a = "é', '"é'),
            ('cfg(all(a = "日𝄞", 8))', "8"), ('cfg(all(e = "é", test = "é\0", b c))', "é\0"),
            ("cfg(not(a, b, c))", "not(a, b, c)"), ('all(target_endian = "grün")', "grün"),
            ('any(a = "𝄞", target_has_atomic = "é")', "é"), ('cfg(not(any("é"))', '"é"'),
        ]
        for (text, at_fault), mark in itertools.product(rows, ("", "?")):
            fact = mark + text
            with self.assertRaises(cfgx.ParseError) as caught:
                cfgx.parse(text)
            wanted = caught.exception
            with self.subTest(fact=fact):
                with self.assertRaises(cfgx.FactError) as caught:
                    cfgx.audit(["unix"], [["a"], ["b", fact, "all("]])
                error = caught.exception
                self.assertEqual(error.args[:3], (1, 1, fact))
                self.assertEqual(fact[slice(*error.span)], at_fault)
                self.assertEqual(tuple(place - len(mark) for place in error.span), wanted.span)
                found = error.reason, error.members, error.terms
                self.assertEqual(found, (wanted.reason, wanted.members, wanted.terms))
                with self.assertRaises(cfgx.FactError) as caught:
                    cfgx.parse("unix").answers(["a", "b", fact, "all("])
                self.assertEqual(caught.exception.args, (0, 2, *error.args[2:]))

    def test_facts_come_before_conditions(self):
        with self.assertRaises(cfgx.FactError) as caught:
            cfgx.audit(["all(", "unix"], [["unix"], ["windows", "b)", "all("]])
        self.assertEqual(caught.exception.args[:3], (1, 1, "b)"))

    def test_what_is_no_answer(self):
        for otherwise in (0, 1, 0.0, 1.0, "", "false", b"", [], ()):
            with self.subTest(otherwise=otherwise), self.assertRaises(TypeError):
                cfgx.audit(["unix"], [LINUX], otherwise=otherwise)

    def test_other_arguments(self):
        with self.assertRaises(ValueError):
            cfgx.audit(["unix"], [LINUX], otherwise=True)
        rows = [
            ([b"unix"], []), ([1], []), ([], [[b"unix"]]), ([], [b"unix"]), ([], [None]),
            ("unix", []), (cfgx.parse("unix"), []), ([], LINUX),
        ]
        for conditions, targets in rows:
            with self.subTest(row=(conditions, targets)), self.assertRaises(TypeError):
                cfgx.audit(conditions, targets)


class Answers(unittest.TestCase):
    """The answers of a target to the predicates of one condition."""

    def test_they_are_the_values_of_the_predicates(self):
        expression = cfgx.parse(
            'cfg(any(all(unix, not(windows)), test, loom, unix, a = "\0é", feature = "x",'
            ' panic = "unwind", not(target_has_atomic = "+08")))'
        )
        rows = [
            LINUX, "", [], ["windows", "?test"], ["?loom", "loom"], ['?a = "\0é"', "unix"],
            ['all(feature = "x", not(unix))', 'target_has_atomic = "8"'], "?unix\r\n\nloom\n",
        ]
        for facts, otherwise in itertools.product(rows, (None, False)):
            with self.subTest(facts=facts, otherwise=otherwise):
                texts = map(str, expression.predicates)
                wanted = [value for value, in cfgx.audit(texts, [facts], otherwise)]
                answers = expression.answers(facts, otherwise)
                self.assertEqual(answers, wanted)
                value = cfgx.audit([expression], [facts], otherwise)[0][0]
                self.assertIs(expression.eval(answers), value)
        self.assertEqual(expression.answers(iter(["unix"]))[:3], [False, True, False])

    def test_a_condition_without_predicates(self):
        self.assertEqual(cfgx.parse("all()").answers(LINUX), [])
        self.assertEqual(cfgx.parse("cfg(true)").answers([]), [])

    def test_a_faulty_fact(self):
        rows = [
            (["all("], 0, "all("), (["unix", "é", "b)"], 1, "é"), ("unix\n\n\nx y\n", 1, "x y"),
            (["unix", ""], 1, ""),
        ]
        for (facts, number, fact), text in itertools.product(rows, ("unix", "all()")):
            with self.subTest(facts=facts), self.assertRaises(cfgx.FactError) as caught:
                cfgx.parse(text).answers(facts)
            self.assertEqual(caught.exception.args[:3], (0, number, fact))

    def test_many_predicates(self):
        count = 20_000
        expression = cfgx.parse(f"all({'a, b, ' * (count // 2)})")
        self.assertEqual(expression.answers(["a", "?b"]), [True, None] * (count // 2))

    def test_other_arguments(self):
        expression = cfgx.parse("unix")
        with self.assertRaises(ValueError):
            expression.answers(LINUX, otherwise=True)
        for facts, otherwise in [(b"unix", None), ([b"unix"], None), (None, None), (1, None),
                                 ([["unix"]], None), (LINUX, 0), (LINUX, "")]:
            with self.subTest(facts=facts, otherwise=otherwise), self.assertRaises(TypeError):
                expression.answers(facts, otherwise)
        with self.assertRaises(UnicodeEncodeError):
            expression.answers(["\ud800"])


@needs("rustc", untested="the facts of a real rustc")
class Rustc(Folder):
    """What the `rustc` on the path says."""

    def test_facts(self):
        facts = [cfgx.rustc_facts(f"x86_64-{rest}") for rest in ("unknown-linux-gnu", "apple-ios")]
        self.assertIn('target_arch="x86_64"', facts[0])
        conditions = ["unix", 'target_os = "linux"', 'target_vendor = "apple"', "loom"]
        wanted = [[True, True], [True, False], [False, True], [None, None]]
        self.assertEqual(cfgx.audit(conditions, facts), wanted)

    def test_a_target_that_it_does_not_know(self):
        with self.assertRaises(cfgx.RustcError) as caught:
            cfgx.rustc_facts("nowhere")
        message = "rustc refused --print cfg --target nowhere: error"
        self.assertTrue(str(caught.exception).startswith(message))

    def test_a_toolchain_of_the_current_folder(self):
        # rustup runs the programs below a path that this file has.
        mark = os.path.join(self.folder, "mark")
        self.write_program("here/bin/rustc", f"#!/bin/sh\n: > {mark}\nexit 1\n")
        self.write("here/rust-toolchain.toml", f'[toolchain]\npath = "{self.folder}/here"\n')
        before = os.getcwd()
        self.addCleanup(os.chdir, before)
        os.chdir(os.path.join(self.folder, "here"))
        self.assertIn("unix", cfgx.rustc_facts("x86_64-unknown-linux-gnu"))
        self.assertFalse(os.path.exists(mark))


class MadeRustc(Folder):
    """A `rustc` that is made up, or none."""

    def refusal_of(self, script, triple="t"):
        """Returns the message of the error if `rustc` is this script."""
        self.write_program("tools/rustc", script)
        with unittest.mock.patch.dict("os.environ", PATH=os.path.join(self.folder, "tools")), \
                self.assertRaises(cfgx.RustcError) as caught:
            cfgx.rustc_facts(triple)
        return str(caught.exception)

    def test_a_message_that_is_not_utf8(self):
        message = self.refusal_of("#!/bin/sh\nprintf 'a\\377b\\n' >&2\nexit 1\n")
        self.assertEqual(message, "rustc refused --print cfg --target t: a\ufffdb")

    def test_facts_that_are_not_utf8(self):
        message = self.refusal_of("#!/bin/sh\nprintf 'a\\377b\\n'\n")
        self.assertTrue(message.startswith("rustc printed what is not UTF-8: "), message)

    def test_a_triple_with_a_zero_byte(self):
        message = self.refusal_of("#!/bin/sh\n", "a\0b")
        self.assertEqual(message, "rustc takes no word with a zero byte: 'a\\x00b'")

    def test_it_is_not_there(self):
        with unittest.mock.patch.dict("os.environ", PATH="/nowhere"):
            with self.assertRaises(cfgx.RustcError) as caught:
                cfgx.rustc_facts("x86_64-unknown-linux-gnu")
        self.assertTrue(str(caught.exception).startswith("rustc could not be run: "))
