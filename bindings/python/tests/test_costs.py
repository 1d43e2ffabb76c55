"""How long audits take over facts that somebody chose."""
import time
import unittest

from . import PACKAGE  # noqa: F401

import cfgx

# Facts with one hash in a table whose hash is not keyed at random: eight bytes of them are free.
# Their number stands there.
COLLIDING = 'feature = "kxdxw2p8tf2wmki2VgO?ZL4Q{:08d}tailtailtailtail"'
# The same with other letters.
OTHERS = 'feature = "aaaaaaaaaaaaaaaaaaaaaaaa{:08d}tailtailtailtail"'
# What a call may take beside what it takes for other facts: so many times as much, and seconds
# that the clock does not tell apart.
TIMES, SECONDS = 2, 0.05


def facts(form, count):
    """Returns facts of a form."""
    return [form.format(number) for number in range(count)]


def spent(call):
    """Returns the time that a call takes, in seconds of a processor."""
    before = time.process_time()
    call()
    return time.process_time() - before


class Chosen(unittest.TestCase):
    """Calls over facts that have one hash, beside the same calls over others."""

    def compare(self, call):
        """Compares the time that a call takes over 16,000 and over 80,000 facts."""
        for count in (16_000, 80_000):
            others, colliding = facts(OTHERS, count), facts(COLLIDING, count)
            most = TIMES * min(spent(lambda: call(others)) for _ in range(3)) + SECONDS
            # Another process may have taken the processor's caches meanwhile.
            tries = (spent(lambda: call(colliding)) for _ in range(3))
            self.assertTrue(any(seconds < most for seconds in tries), (count, most))

    def test_an_audit(self):
        self.compare(lambda chosen: self.assertEqual(
            cfgx.audit([chosen[0], "unix"], [chosen]), [[True], [False]]
        ))

    def test_an_audit_of_many_targets(self):
        self.compare(lambda chosen: self.assertEqual(
            cfgx.audit([chosen[0]], [chosen[place::80] for place in range(80)]),
            [[True] + [None] * 79],
        ))

    def test_an_audit_of_many_conditions(self):
        self.compare(lambda chosen: self.assertEqual(
            cfgx.audit(chosen, [chosen[:1000]])[0], [True]
        ))

    def test_answers(self):
        self.compare(lambda chosen: self.assertEqual(
            cfgx.parse(chosen[0]).answers(chosen), [True]
        ))

    def test_answers_to_many_predicates(self):
        expression = cfgx.parse(f"all({', '.join(facts(COLLIDING, 1000))})")
        self.compare(lambda chosen: self.assertEqual(len(expression.answers(chosen)), 1000))

    def test_a_mapping(self):
        def call(chosen):
            expression = cfgx.parse(f"all({', '.join(chosen)})")
            answers = dict.fromkeys(expression.predicates, True)
            self.assertIs(expression.eval(answers), True)

        self.compare(call)
