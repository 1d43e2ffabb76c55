"""The recorded rows."""
import re
import unittest
import unittest.mock

from . import rows

import cfgx

VALUES = {"1": True, "0": False, "?": None}
PRINTED = {"true\n": True, "false\n": False, "unknown\n": None}
EQUAL = {"equal": True, "different": False}
# The checks whose rows are tested here.
TESTED = {
    "equality", "fault", "fault in the stripped text", "fillings", "predicates", "run", "spelling",
    "stripped text",
}
# The checks of what the package does not have: parts of the parser, the predicates of Rattle,
# targets that are built in or made by hand, what a `Debug` of Rust prints, the streams of the
# program; its long rows; and the tables of a page, whose rows are not texts alone.
OTHERS = {
    "all built-in targets", "built-in target", "calls for the next predicate", "counted stream",
    "ending", "failed read", "fault of the page", "field", "items", "length of an input",
    "list of families", "list of widths", "located predicates", "long run", "long spelling",
    "nodes", "not UTF-8", "pick", "pick of the page", "pick on a target", "printed fault",
    "property", "reads", "reason", "run on each target", "spelling of the page", "streams of pick",
    "table", "type", "typed predicates", "values on built-in targets", "values on no target",
    "values on targets made by hand", "whole input", "width",
}


def answers_of(field):
    """Returns the answers that a field has a character for each of."""
    return [VALUES[answer] for answer in rows.unescaped(field)]


def decision_of(field):
    """Returns the decision that a field states."""
    if field in ("true", "false"):
        return cfgx.Decision(field == "true", None, None)
    if_true, if_false = field.split(" ")
    return cfgx.Decision(None, answers_of(if_true), answers_of(if_false))


def name_of(reason):
    """Returns the name that a row has for a reason."""
    return "".join(word.title() for word in reason.name.split("_"))


def fault_of(text):
    """Returns the fault of a faulty text, as rows write it."""
    try:
        cfgx.parse(text)
    except cfgx.ParseError as error:
        reason = name_of(error.reason)
        if error.reason is cfgx.Reason.INVALID_NOT:
            reason += f"({error.members})"
        if error.reason is cfgx.Reason.UNEXPECTED:
            reason = f"U[{' '.join(f'`{term}`' for term in error.terms)}]"
        return reason, error.span
    return None


def parsed(text):
    """Returns what the program `cfgx parse` returns and prints of a text."""
    try:
        return 0, "".join(f"{asked}\n" for asked in cfgx.parse(text).predicates)
    except cfgx.ParseError as error:
        assert error.message == str(error), error.message
        return 1, f"{error}\n"


class Tables(unittest.TestCase):
    """The files of rows, and how they are read."""

    def test_each_table_is_known(self):
        """Rows that stand for one of each size are for the calls of Rattle."""
        checks = {check for check, _ in rows.tables() if not check.startswith("each size of ")}
        self.assertEqual(checks, TESTED | OTHERS)

    def test_a_table_without_rows(self):
        for checks in ((), ("predicate",), ("predicates", "faults")):
            with self.subTest(checks=checks), self.assertRaises(AssertionError):
                rows.rows_of(*checks)

    def test_other_rows_than_the_head_counts(self):
        for head in ("[run: 0 rows]", "[run: 2 rows]"):
            with self.subTest(head=head), self.assertRaises(AssertionError):
                rows.tables_in([head, "status | words", "# a comment", "", "0 | parse | a"])
        table = "[run: 1 row]", "status | words", "0 | parse | a"
        self.assertEqual(rows.tables_in([*table, "", *table]), [("run", [["0", "parse", "a"]])] * 2)

    def test_a_word_that_is_misspelt(self):
        for row in (["0", "", "pasre", "a"], ["O", "", "parse", "a"]):
            with unittest.mock.patch.object(rows, "rows_of", lambda check: [row]), \
                    self.subTest(row=row), self.assertRaises((KeyError, ValueError)):
                rows.conditions_of_runs()

    def test_an_answer_that_is_misspelt(self):
        for field in ("ture", "1 0 1", "1", "2 0"):
            with self.subTest(field=field), self.assertRaises((KeyError, ValueError)):
                decision_of(field)


class Recorded(unittest.TestCase):
    """The rows of files, and what the package finds."""

    def test_texts_of_the_rust_crate(self):
        count = 0
        for text, status, output in rows.rust_crate():
            count += 1
            with self.subTest(text=text):
                self.assertEqual(parsed(text), (status, output))
        self.assertEqual(count, 1962)

    def test_runs_of_parse(self):
        runs = [(int(status), *fields) for status, *fields in rows.rows_of("run")]
        runs = [run for run in runs if run[2:3] == ("parse",) and run[0] in (0, 1)]
        for status, output, _, *texts in runs:
            with self.subTest(texts=texts):
                text, = map(rows.unescaped, texts)
                self.assertEqual(parsed(text), (status, rows.unescaped(output)))
        self.assertEqual({status for status, *_ in runs}, {0, 1})

    def test_faults(self):
        for text, fault, *_ in rows.rows_of("fault", "fault in the stripped text"):
            text = rows.unescaped(text)
            reason, start, end = re.match(r"(.*) at (\d+)\.\.(\d+)$", fault).groups()
            offset = 4 if text.startswith("cfg(") and text.endswith(")") else 0
            places = [
                text.encode()[:offset + int(place)].decode(errors="replace")
                for place in (start, end)
            ]
            with self.subTest(text=text):
                self.assertEqual(fault_of(text), (reason, tuple(map(len, places))))

    def test_faults_of_facts(self):
        """A faulty fact has the fault of its text. Some faulty texts are passed over."""
        count = 0
        for text, *_ in rows.rows_of("fault", "fault in the stripped text"):
            text = rows.unescaped(text)
            # A mark is no part of the text.
            marked = text.startswith("?")
            with self.subTest(text=text):
                try:
                    cfgx.audit([], [[text if marked else f"?{text}"]])
                except cfgx.FactError as error:
                    count += 1
                    start, end = error.span
                    wanted = fault_of(text[1:] if marked else text)[1]
                    self.assertEqual((start - 1, end - 1), wanted)
        self.assertGreater(count, 100)

    def test_predicates(self):
        for text, predicates in rows.rows_of("predicates"):
            with self.subTest(text=text):
                found = cfgx.parse(rows.unescaped(text)).predicates
                self.assertEqual("\n".join(map(str, found)), rows.unescaped(predicates))

    def test_spellings(self):
        for text, spellings in rows.rows_of("spelling"):
            with self.subTest(text=text):
                found = cfgx.parse(rows.unescaped(text)).predicates
                self.assertEqual("".join(map(str, found)), rows.unescaped(spellings))

    def test_stripped_texts(self):
        for text, stripped in rows.rows_of("stripped text"):
            with self.subTest(text=text):
                expression = cfgx.parse(rows.unescaped(text))
                self.assertEqual(expression.original, rows.unescaped(stripped))

    def test_equality(self):
        for text, other, wanted in rows.rows_of("equality"):
            with self.subTest(text=text, other=other):
                one, another = cfgx.parse(rows.unescaped(text)), cfgx.parse(rows.unescaped(other))
                self.assertIs(one == another, EQUAL[wanted])

    def test_decisions(self):
        for text, answers, wanted in rows.rows_of("fillings"):
            expression, answers = cfgx.parse(rows.unescaped(text)), answers_of(answers)
            with self.subTest(text=text, answers=answers):
                decision = expression.decide(answers)
                self.assertEqual(decision, decision_of(wanted))
                self.assertEqual(expression.eval(answers), decision.value)
                if decision.value is None:
                    self.assertIs(expression.eval(decision.if_true), True)
                    self.assertIs(expression.eval(decision.if_false), False)

    def test_values_on_facts(self):
        conditions, targets, values = [], [], []
        for status, output, *words in rows.rows_of("run"):
            if int(status) == 0 and words[0] == "eval":
                condition, *facts = map(rows.unescaped, words[1:])
                conditions.append(condition)
                targets.append(facts)
                values.append(PRINTED[rows.unescaped(output)])
        for condition, facts, value in zip(conditions, targets, values):
            expression = cfgx.parse(condition)
            self.assertIs(expression.eval(expression.answers(facts, otherwise=False)), value)
        table = cfgx.audit(conditions, targets, otherwise=False)
        self.assertEqual([row[number] for number, row in enumerate(table)], values)
        self.assertGreater(len(values), 30)
