"""Expressions, predicates and errors."""
import collections
import copy
import copyreg
import dataclasses
import decimal
import itertools
import pickle
import unittest
import unittest.mock

from . import PACKAGE  # noqa: F401

import cfgx
from cfgx import Kind, Predicate, Reason

# What `char::is_whitespace` of Rust accepts.
WHITE_SPACE = "\t\n\v\f\r \x85\xa0\u1680" + "".join(map(chr, range(0x2000, 0x200B)))
WHITE_SPACE += "\u2028\u2029\u202f\u205f\u3000"


def error_of(text):
    """Returns the error of a faulty text."""
    try:
        cfgx.parse(text)
    except cfgx.ParseError as error:
        return error
    raise AssertionError(f"{text!r} is a condition")


class Forged:
    """What a pickle makes by these calls."""

    def __init__(self, reduced):
        self.reduced = tuple(reduced)

    def __reduce__(self):
        return self.reduced


class Asked(dict):
    """A mapping that can be called."""

    def __call__(self, predicate):
        raise AssertionError("it was called")


class Predicates(unittest.TestCase):
    """What predicates say."""

    def test_each_kind(self):
        rows = [
            ("loom", Kind.FLAG, "loom", None),
            ('a = "b"', Kind.KEY_VALUE, "a", "b"),
            ("test", Kind.TEST, "test", None),
            ("debug_assertions", Kind.DEBUG_ASSERTIONS, "debug_assertions", None),
            ("proc_macro", Kind.PROC_MACRO, "proc_macro", None),
            ('feature = ""', Kind.FEATURE, "feature", ""),
            ('target_feature = "sse"', Kind.TARGET_FEATURE, "target_feature", "sse"),
            ('target_abi = "sim"', Kind.ABI, "target_abi", "sim"),
            ('target_arch = "x86"', Kind.ARCH, "target_arch", "x86"),
            ('target_endian = "big"', Kind.ENDIAN, "target_endian", "big"),
            ('target_endian = "little"', Kind.ENDIAN, "target_endian", "little"),
            ('target_env = "gnu"', Kind.ENV, "target_env", "gnu"),
            ('target_family = "wasm"', Kind.FAMILY, "target_family", "wasm"),
            ("unix", Kind.FAMILY, "target_family", "unix"),
            ("windows", Kind.FAMILY, "target_family", "windows"),
            ('target_has_atomic = "+08"', Kind.HAS_ATOMIC, "target_has_atomic", "8"),
            ('target_has_atomic = "65535"', Kind.HAS_ATOMIC, "target_has_atomic", "65535"),
            ('target_has_atomic = "ptr"', Kind.HAS_ATOMIC, "target_has_atomic", "ptr"),
            ('target_os = "linux"', Kind.OS, "target_os", "linux"),
            ('panic = "abort"', Kind.PANIC, "panic", "abort"),
            ('target_pointer_width = "064"', Kind.POINTER_WIDTH, "target_pointer_width", "64"),
            ('target_vendor = "apple"', Kind.VENDOR, "target_vendor", "apple"),
        ]
        self.assertEqual({row[1] for row in rows}, set(Kind))
        others = {Kind.FLAG: cfgx.flag, Kind.KEY_VALUE: cfgx.key_value}
        for text, kind, key, value in rows:
            with self.subTest(text=text):
                found, = cfgx.parse(f"cfg({text})").predicates
                self.assertEqual((found.kind, found.key, found.value), (kind, key, value))
                self.assertEqual(found.span, (4, 4 + len(text)))
                make = others.get(kind) or getattr(cfgx, key)
                words = [key] * (kind in others) + [value] * (value is not None)
                self.assertEqual({make(*words), Predicate(kind, key, value)}, {found})
                self.assertEqual(make.__name__, kind.name.lower() if kind in others else key)

    def test_predicates_that_no_text_asks(self):
        rows = [
            ((Kind.FEATURE, "featre", "x"), "(<Kind.KEY_VALUE: 2>, 'featre', 'x')"),
            ((Kind.FLAG, "test"), "(<Kind.TEST: 3>, 'test', None)"),
            ((Kind.FLAG, "unix"), "(<Kind.FAMILY: 12>, 'target_family', 'unix')"),
            ((Kind.FAMILY, "unix"), "(<Kind.FAMILY: 12>, 'target_family', 'unix')"),
            ((Kind.FLAG, "true"), "nothing"), ((Kind.FLAG, "all()"), "nothing"),
            ((Kind.FLAG, "a "), "(<Kind.FLAG: 1>, 'a', None)"),
            ((Kind.FLAG, "a,"), "(<Kind.FLAG: 1>, 'a', None)"),
            ((Kind.FLAG, "cfg(a)"), "(<Kind.FLAG: 1>, 'a', None)"),
            ((Kind.FLAG, "any(a, b)"),
             "(<Kind.FLAG: 1>, 'a', None) and (<Kind.FLAG: 1>, 'b', None)"),
            ((Kind.FLAG, "a", "b"), "(<Kind.KEY_VALUE: 2>, 'a', 'b')"),
            ((Kind.KEY_VALUE, "a"), "(<Kind.FLAG: 1>, 'a', None)"),
            ((Kind.KEY_VALUE, 'a = "b"'), "(<Kind.KEY_VALUE: 2>, 'a', 'b')"),
            ((Kind.KEY_VALUE, "a", 5), "(<Kind.KEY_VALUE: 2>, 'a', '5')"),
            ((6, "feature", "x"), "(<Kind.FEATURE: 6>, 'feature', 'x')"),
            ((Kind.POINTER_WIDTH, "target_pointer_width", "064"),
             "(<Kind.POINTER_WIDTH: 16>, 'target_pointer_width', '64')"),
            ((Kind.HAS_ATOMIC, "target_has_atomic", "+8"),
             "(<Kind.HAS_ATOMIC: 13>, 'target_has_atomic', '8')"),
        ]
        for given, asked in rows:
            with self.subTest(given=given), self.assertRaises(ValueError) as caught:
                Predicate(*given)
            self.assertRegex(str(caught.exception), r"^no text asks \(.*\): ['\"].*['\"] asks ")
            self.assertTrue(str(caught.exception).endswith(f" asks {asked}"), caught.exception)

    def test_predicates_whose_text_is_faulty(self):
        rows = [
            (cfgx.flag, ""), (cfgx.flag, "é"), (cfgx.flag, "8"), (cfgx.flag, "a b"),
            (cfgx.flag, "not"), (cfgx.flag, "feature"), (cfgx.flag, "target_os"),
            (cfgx.flag, "a-b"), (cfgx.key_value, "all", "x"),
            (cfgx.key_value, "test", "x"), (cfgx.key_value, "true", "x"),
            (cfgx.key_value, "target_foo", "x"), (cfgx.key_value, "a", '"'),
            (cfgx.key_value, "a", 'x", b = "y'), (cfgx.target_feature, ""),
            (cfgx.target_endian, "middle"), (cfgx.target_pointer_width, "256"),
            (cfgx.target_has_atomic, "pointer"), (Predicate, Kind.FEATURE, "feature"),
        ]
        for make, *words in rows:
            with self.subTest(words=words), self.assertRaises(cfgx.ParseError):
                make(*words)
        with self.assertRaises(UnicodeEncodeError):
            cfgx.feature("\ud800")

    def test_copies(self):
        for predicate in cfgx.parse('cfg(any(test, a = "é", unix))').predicates:
            protocols = range(pickle.HIGHEST_PROTOCOL + 1)
            kept = [pickle.loads(pickle.dumps(predicate, protocol)) for protocol in protocols]
            for other in (*kept, copy.copy(predicate), copy.deepcopy(predicate)):
                self.assertEqual(vars(other), vars(predicate))
        kept = pickle.dumps(cfgx.flag("loom"))
        self.assertEqual(pickle.loads(kept.replace(b"loom", b"mool")), cfgx.flag("mool"))
        for key in (b"test", b"a, b", b"true"):
            with self.subTest(key=key), self.assertRaises(ValueError):
                pickle.loads(kept.replace(b"loom", key))

    def test_spans_count_characters(self):
        text = 'cfg(all(e = "日本𝄞", not(any(test\u3000, feature\u2028=\xa0"ü")),a , unix))'
        found = cfgx.parse(text).predicates
        self.assertEqual(
            [text[slice(*predicate.span)] for predicate in found],
            ["test", 'feature\u2028=\xa0"ü"', 'e = "日本𝄞"', "a", "unix"],
        )
        self.assertEqual([found[1].value, found[2].value], ["ü", "日本𝄞"])

    def test_each_white_space(self):
        for space in WHITE_SPACE:
            with self.subTest(space=space):
                text = f'all({space}a{space}={space}"b",{space}c{space})'
                spans = [predicate.span for predicate in cfgx.parse(text).predicates]
                self.assertEqual([text[slice(*span)] for span in spans], [text[5:12], "c"])

    def test_values_with_parentheses_zero_bytes_and_line_feeds(self):
        text = 'any(a = ")(all(,", b = "\0", not(c = "\n\r\0x"))'
        found = cfgx.parse(text).predicates
        self.assertEqual([predicate.value for predicate in found], ["\n\r\0x", ")(all(,", "\0"])
        self.assertEqual(text[slice(*found[2].span)], 'b = "\0"')

    def test_they_are_keys_and_never_change(self):
        first, second = cfgx.parse('any(unix, target_family = "unix")').predicates
        self.assertEqual({first: 1}[second], 1)
        self.assertNotEqual(first.span, second.span)
        self.assertNotEqual(Predicate(Kind.FLAG, "a"), Predicate(Kind.KEY_VALUE, "a", ""))
        with self.assertRaises(dataclasses.FrozenInstanceError):
            first.key = "a"

    def test_the_list_is_the_callers(self):
        expression = cfgx.parse("all(a, b)")
        expression.predicates.clear()
        self.assertEqual(len(expression.predicates), 2)


class Expressions(unittest.TestCase):
    """What expressions say, and their values."""

    def test_texts(self):
        expression = cfgx.parse("cfg(any(unix, u_))")
        self.assertEqual(expression.original, "any(unix, u_)")
        self.assertEqual(str(expression), "any(unix, u_)")
        self.assertEqual(expression.text, "cfg(any(unix, u_))")
        self.assertEqual(repr(expression), "cfgx.parse('cfg(any(unix, u_))')")
        self.assertEqual(cfgx.parse("cfg").original, "cfg")

    def test_equality(self):
        self.assertEqual(cfgx.parse("cfg(key)"), cfgx.parse("key"))
        self.assertEqual(hash(cfgx.parse("cfg(key)")), hash(cfgx.parse("key")))
        self.assertNotEqual(cfgx.parse("key,"), cfgx.parse("key"))
        self.assertNotEqual(cfgx.parse("key"), "key")

    def test_what_is_equal_to_everything(self):
        # Another type may say what it is equal to.
        self.assertEqual(cfgx.parse("key"), unittest.mock.ANY)
        self.assertFalse(cfgx.parse("key") != unittest.mock.ANY)

    def test_copies(self):
        expression = cfgx.parse('cfg(any(test, a = "é"))')
        protocols = range(pickle.HIGHEST_PROTOCOL + 1)
        kept = [pickle.loads(pickle.dumps(expression, protocol)) for protocol in protocols]
        for other in (*kept, copy.copy(expression), copy.deepcopy(expression)):
            self.assertEqual(other.predicates, expression.predicates)
            self.assertEqual(other.text, expression.text)
            self.assertIs(other.eval([None, True]), True)

    def test_a_copy_is_parsed(self):
        kept = pickle.dumps(cfgx.parse("unix"))
        self.assertEqual(pickle.loads(kept.replace(b"unix", b"loom")).predicates[0].key, "loom")
        with self.assertRaises(cfgx.ParseError):
            pickle.loads(kept.replace(b"unix", b"all("))

    def test_a_forged_pickle(self):
        expression = cfgx.Expression
        state = None, {"_text": "all(", "_encoded": b"all(", "_predicates": ()}
        empty = copyreg._reconstructor, (expression, object, None)
        rows = [
            (TypeError, copyreg.__newobj__, (expression,)),
            (TypeError, copyreg.__newobj__, (expression,), state),
            (TypeError, *empty, state), (TypeError, *empty, {}),
            (TypeError, expression, ("unix",), state), (TypeError, expression, (b"unix",)),
            (cfgx.ParseError, expression, ("all(",)),
            (cfgx.ParseError, copyreg.__newobj__, (expression, "all(")),
        ]
        for wanted, *reduced in rows:
            forged = pickle.dumps(Forged(reduced), 0)
            with self.subTest(reduced=reduced), self.assertRaises(wanted):
                pickle.loads(forged)
        # Of what has no text, nothing is said.
        found = pickle.loads(pickle.dumps(Forged(empty)))
        for call in (str, repr, hash, expression.text.fget, expression.predicates.fget,
                     lambda one: one.eval([]), lambda one: one.decide({}),
                     lambda one: one.answers([]), copy.copy):
            with self.subTest(call=call), self.assertRaises(AttributeError):
                call(found)

    def test_a_callable_is_asked_in_order(self):
        asked = []
        cfgx.parse("all(a, any(b, not(a)), true)").eval(asked.append)
        self.assertEqual([predicate.key for predicate in asked], ["a", "b", "a"])

    def test_answers_of_each_form(self):
        expression = cfgx.parse('all(unix, feature = "x", not(loom))')
        loom, unix, feature = expression.predicates
        known = {loom: False, unix: True}
        forms = [
            known, known.get, collections.OrderedDict(known), [False, True, None],
            (False, True, None), iter([False, True, None]), collections.ChainMap({}, known),
            Asked(known), collections.defaultdict(int, known),
            {**known, cfgx.feature("y"): True, cfgx.key_value("featre", "x"): True},
        ]
        for answers in forms:
            with self.subTest(answers=answers):
                self.assertIsNone(expression.eval(answers))
        decision = expression.decide(known)
        self.assertEqual(decision, (None, [False, True, True], [False, True, False]))
        known[feature] = True
        self.assertIs(expression.eval(known), True)
        self.assertEqual(expression.decide(known.__getitem__), (True, None, None))
        self.assertIsNone(expression.eval({}))

    def test_a_condition_without_predicates(self):
        for text, value in [("all()", True), ("cfg(any())", False), ("not(true)", False)]:
            for answers in [{}, [], lambda predicate: None]:
                expression = cfgx.parse(text)
                self.assertIs(expression.eval(answers), value)
                self.assertEqual(expression.decide(answers), (value, None, None))

    def test_other_answers(self):
        expression = cfgx.parse("all(a, b)")
        a, b = expression.predicates
        rows = [
            "01", [True, "false"], [[], 1], lambda predicate: 2, b"\0\2", b"\0\1", range(2), [0, 1],
            [True, 1], [False, 0], [0.0, 1.0], [True, 1.0], [1 + 0j, True],
            [decimal.Decimal(1), None],
            lambda predicate: 0, lambda predicate: 1, {a: 1}, {a: True, b: 0}, [NotImplemented] * 2,
        ]
        for answers, call in itertools.product(rows, (expression.eval, expression.decide)):
            with self.subTest(answers=answers), self.assertRaises(TypeError) as caught:
                call(answers)
            message = "^an answer is True, False or None, and not "
            self.assertRegex(str(caught.exception), message)

    def test_lists_of_other_lengths(self):
        expression = cfgx.parse("all(a, b)")
        rows = ([], [True], [True] * 3)
        for answers, call in itertools.product(rows, (expression.eval, expression.decide)):
            with self.subTest(answers=answers), self.assertRaises(ValueError) as caught:
                call(answers)
            wanted = f"the condition has 2 predicates, and there are {len(answers)} answers"
            self.assertEqual(str(caught.exception), wanted)

    def test_an_error_of_a_callable_comes_through(self):
        with self.assertRaises(ZeroDivisionError):
            cfgx.parse("a").eval(lambda predicate: 1 // 0)

    def test_texts_that_are_none(self):
        for text in (b"unix", None, 1):
            with self.subTest(text=text), self.assertRaises(TypeError):
                cfgx.parse(text)
        with self.assertRaises(UnicodeEncodeError):
            cfgx.parse("\ud800")


class ParseErrors(unittest.TestCase):
    """What is wrong with texts."""

    def test_it_is_a_value_error(self):
        error = error_of("cfg(not(a, b))")
        self.assertIsInstance(error, ValueError)
        self.assertEqual(error.text, "cfg(not(a, b))")
        wanted = "not(a, b)\n^^^^^^^^^ not() takes 1 predicate, found 2"
        self.assertEqual((str(error), error.message), (wanted, wanted))
        self.assertEqual((error.reason, error.members), (Reason.INVALID_NOT, 2))
        self.assertEqual(error.text[slice(*error.span)], "not(a, b)")

    def test_spans_count_characters(self):
        rows = [
            ('all(a = "é𝄞", 𝄞)', "𝄞", Reason.UNEXPECTED),
            ('cfg(all(a = "é", target_os))', "target_os", Reason.UNEXPECTED),
            ('any(a = "日本", b = "é', '"é', Reason.UNCLOSED_QUOTES),
            ('all(a = "é", target_endian = "grün")', "grün", Reason.INVALID_INTEGER),
            ('a = "é",', None, None),
            ('a = "é", b = ', "", Reason.UNEXPECTED),
            ('a = "é", b', 'a = "é", b', Reason.MULTIPLE_ROOT_PREDICATES),
            ("\u3000\u2028", "\u3000\u2028", Reason.EMPTY),
            ("cfg(\u3000)", "\u3000", Reason.EMPTY),
            ('all(a = "\0é\0", test = "é\0")', "é\0", Reason.UNEXPECTED),
            ('not(a = "é"))', ")", Reason.UNOPENED_PARENS),
            ('not(any(a = "é")', '(any(a = "é")', Reason.UNCLOSED_PARENS),
            ('a = "é", target_has_atomic = "é"', "é", Reason.INVALID_HAS_ATOMIC),
        ]
        for text, at_fault, reason in rows:
            with self.subTest(text=text):
                if reason is None:
                    cfgx.parse(text)
                    continue
                error = error_of(text)
                self.assertEqual(error.reason, reason)
                self.assertEqual(text[slice(*error.span)], at_fault)
        self.assertEqual(error_of('a = "é", target_has_atomic = "é"').span, (30, 31))

    def test_terms(self):
        self.assertEqual(error_of("key (").terms, ("=", ",", ")"))
        self.assertEqual(error_of('unix = "x"').terms, ())
        self.assertEqual(error_of("").terms, ())

    def test_copies(self):
        error = pickle.loads(pickle.dumps(error_of('all(a = "é", 8)')))
        self.assertEqual(vars(error), vars(error_of('all(a = "é", 8)')))
        self.assertEqual(str(error), error.message)

    def test_they_are_made_of_their_arguments(self):
        for text in ("all(a, 8)", "not(a, b)", "all("):
            error = error_of(text)
            self.assertEqual(vars(cfgx.ParseError(*error.args)), vars(error))
