"""Generated conditions, long ones, and threads."""
import random
import unittest
from concurrent.futures import ThreadPoolExecutor

from . import rows

import cfgx
from conditions import Condition

LEAVES = (
    "a", 'b = "é,(\\"', "unix", "test", "true", "false", 'feature = "𝄞"', 'panic = ""',
    'target_has_atomic="8"', 'target_endian\u3000= "big"', "target_pointer_width\n=\t\"064\"",
)
ANSWERS = (True, False, None)


def condition_of(source, depth):
    """Returns a condition at random, of functions at most `depth` deep."""
    function = source.choice(("all", "any", "not", "leaf")) if depth > 0 else "leaf"
    if function == "leaf":
        return source.choice(LEAVES)
    count = 1 if function == "not" else source.randrange(5)
    members = [condition_of(source, depth - 1) for _ in range(count)]
    comma = source.choice((",", " ,\u2028", ",,"))
    return f"{function} ({comma.join(members)})"


class Generated(unittest.TestCase):
    """What the package says of generated conditions, and what another reader does."""

    def test_values_and_spans(self):
        source = random.Random(1)
        for _ in range(2000):
            text = condition_of(source, 4)
            with self.subTest(text=text):
                self.compare(source, text)

    def test_values_and_spans_of_the_rows(self):
        source = random.Random(2)
        for text in rows.accepted_texts():
            if len(text) < 1000:
                with self.subTest(text=text):
                    self.compare(source, text)

    def test_literals_at_each_depth(self):
        source = random.Random(3)
        for depth in range(131):
            text = "any(a, " * depth + "all(b, true, false, c)" + ", false, d)" * depth
            with self.subTest(depth=depth):
                self.compare(source, text)

    def test_lists_of_each_length(self):
        source = random.Random(4)
        for length in range(131):
            with self.subTest(length=length):
                self.compare(source, f"any({'true, a, ' * length}{'unix,' * length})")

    def compare(self, source, text):
        """Compares the predicates, their spans and the values over answers at random."""
        expression, other = cfgx.parse(text), Condition(text.encode())
        self.compare_spans(text, expression.predicates, other.predicates())
        answers = [source.choice(ANSWERS) for _ in expression.predicates]
        value = other.value(answers)
        self.assertIs(expression.eval(answers), value)
        decision = expression.decide(answers)
        self.assertIs(decision.value, value)
        if value is None:
            self.assertIs(other.value(decision.if_true), True)
            self.assertIs(other.value(decision.if_false), False)

    def compare_spans(self, text, found, wanted):
        """Compares the kinds and the spans, which begin with the key, or with the word that is the
        value."""
        spans = [[len(text[:place].encode()) for place in one.span] for one in found]
        both = [(one.kind.value, *span) for one, span in zip(found, spans)]
        self.assertEqual(both, [(kind, start, end) for kind, _, start, end, *_ in wanted])
        for predicate in found:
            is_word = text[slice(*predicate.span)] in ("unix", "windows")
            words = predicate.value if is_word else predicate.key
            self.assertTrue(text.startswith(words, predicate.span[0]))


class Long(unittest.TestCase):
    """Texts of a megabyte."""

    def test_a_deep_condition(self):
        expression = cfgx.parse("not(" * 200_001 + "a" + ")" * 200_001)
        self.assertEqual(expression.predicates[0].span, (800_004, 800_005))
        self.assertIs(expression.eval([True]), False)
        self.assertEqual(expression.decide({}), (None, [False], [True]))

    def test_a_wide_condition(self):
        expression = cfgx.parse('any(e = "",' + 'b = "é",' * 100_000 + ")")
        self.assertEqual(len(expression.predicates), 100_001)
        self.assertEqual(expression.predicates[-1].span, (800_003, 800_010))
        self.assertIsNone(expression.eval({}))
        self.assertIs(expression.eval(lambda predicate: predicate.value == "é"), True)

    def test_a_long_fault(self):
        with self.assertRaises(cfgx.ParseError) as caught:
            cfgx.parse("cfg(" + 'a = "é",' * 100_000 + "))")
        self.assertEqual(caught.exception.span, (800_004, 800_005))


class Threads(unittest.TestCase):
    """Threads that share expressions."""

    def test_they_find_the_same(self):
        texts = [text for text in rows.accepted_texts() if len(text) < 1000]
        shared = [cfgx.parse(text) for text in texts]

        def decisions(_):
            fresh = [cfgx.parse(text) for text in texts]
            return [one.decide({}) for one in shared], [one.decide({}) for one in fresh]

        with ThreadPoolExecutor(4) as pool:
            for found, fresh in pool.map(decisions, range(8)):
                self.assertEqual(found, [one.decide({}) for one in shared])
                self.assertEqual(fresh, found)
