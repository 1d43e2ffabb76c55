#!/usr/bin/env python3
"""Compares the calls of the shared library with the rows of cfgx_vectors.

usage: rows.py LIBRARY CALL..   The calls are those that the library has.

A row that is wrong is printed with what was wanted and found. Predicates and steps are compared
with those that conditions.py finds. A table that is missing, or whose head has another number of
rows, ends the test.
"""
import os
import random
import re
import sys

from conditions import Condition, stripped, tokens_of, trees_of
from library import TOKENS, Cfgx, CfgxError

FOLDER = os.path.dirname(os.path.abspath(__file__))
DATA = os.path.join(FOLDER, "..", "..", "cfgx_vectors", "data")
# The files in which each check that is used here has a table.
TABLES = {
    "fault": {"faults.txt", "neighbours.txt", "predicates.txt", "tokens.txt"},
    "fault in the stripped text": {"stripping.txt"},
    "fillings": {"values.txt"},
    "items": {"tokens.txt"},
    "pick": {"long.txt", "pick.txt"},
    "predicates": {"grammar.txt", "order.txt", "predicates.txt", "tokens.txt"},
    "run": {"eval.txt", "parse.txt", "target.txt", "usage.txt"},
    "spelling": {"spelling.txt"},
}
ESCAPES = {"n": "\n", "t": "\t", "r": "\r", "0": "\0", "\\": "\\", "e": ""}
USAGE = "usage: cfgx parse TEXT | eval TEXT FLAG.. | target TRIPLE TEXT | pick TRIPLE\n"
REASONS = (
    "", "InvalidNot", "InvalidCharacters", "UnclosedParens", "UnopenedParens", "UnclosedQuotes",
    "UnopenedQuotes", "Empty", "Unexpected", "InvalidInteger", "MultipleRootPredicates",
    "InvalidHasAtomic", "UnknownBuiltin",
)
# The lists of terms, in the order of their numbers in docs/RULES.md.
TERMS = (
    None,
    "",
    "`<key>` `all` `any` `not`",
    "`<key>` `)` `all` `any` `not`",
    "`)` `<key>`",
    "`=` `,` `)`",
    '`"`',
    "`,` `)`",
    "`(`",
    "`)` `,`",
    '`"<value>"`',
    '`= "<feature_name>"`',
    '`= "<panic_strategy>"`',
    '`= "<target_cfg_value>"`',
    "`<feature>`",
    "`target_arch` `target_feature` `target_os` `target_family` `target_env` `target_endian`"
    " `target_has_atomic` `target_pointer_width` `target_vendor`",
)
# The place of the condition among the words of a command. `pick` has none there.
PLACES = {"parse": 1, "eval": 1, "target": 2}
# Words and an input of which several statuses are true, the status that counts, and the output.
MANY_STATUSES = (
    ((b"eval", b"a)", b"\xff"), b"", 4, b""),
    ((b"eval", b"a)", b"b)", b"\xff"), b"", 4, b""),
    ((b"pick", b"nowhere", b"\xff"), b"\xff", 4, b""),
    ((b"target", b"nowhere", b"a)"), b"", 2, b"unknown triple\n"),
    ((b"pick", b"nowhere"), b"\xff", 2, b"unknown triple\n"),
    ((b"parse", b"a)", b"b"), b"", 2, USAGE.encode()),
)
VALUES = {"1": True, "0": False, "?": None}
KNOWN = {"true": True, "false": False}
PRINTED = {True: b"true\n", False: b"false\n", None: b"unknown\n"}


def unescaped(field):
    """Returns the bytes that a field stands for."""
    field = re.sub(r"~(.*?)~(\d+)~", lambda piece: piece[1] * int(piece[2]), field)
    field = re.sub(r"\\u\{(\w+)\}", lambda number: chr(int(number[1], 16)), field)
    return re.sub(r"\\(.)", lambda escape: ESCAPES[escape[1]], field).encode()


def rows_below(head):
    """Returns the rows of a table, given its head and all that stands below it."""
    _, count, below = re.match(r"\[(.*): (\d+) rows?\]\n.*\n((?s:.*))", head).groups()
    rows = [line for line in below.split("\n") if line and not line.startswith("# ")]
    if len(rows) != int(count):
        raise ValueError(f"this table has {len(rows)} rows: {head[:200]}")
    return [line.split(" | ") for line in rows]


def tables_of(name):
    """Yields the file, the name of the check and the rows of each table of a file."""
    with open(os.path.join(DATA, name), encoding="utf-8") as file:
        _, *heads = re.split(r"^(?=\[.*: \d+ rows?\]$)", file.read(), flags=re.M)
    for head in heads:
        yield name, head[1:head.index(": ")], rows_below(head)


def tables():
    """Yields the file, the name of the check and the rows of each table."""
    for name in sorted(os.listdir(DATA)):
        if name.endswith(".txt"):
            yield from tables_of(name)


def rust_crate():
    """Yields the text, the status and the output of each row of the Rust crate."""
    with open(os.path.join(DATA, "rust_crate.tsv"), encoding="utf-8") as file:
        for line in file.read().rstrip("\n").split("\n"):
            if not line.startswith("# "):
                text, status, output = line.split("\t")
                yield unescaped(text), int(status), unescaped(output)


def rows_of(*checks):
    """Returns the fields of the rows with these checks, which have the tables that they should."""
    found = [(file, check, rows) for file, check, rows in tables() if check in checks]
    for check in checks:
        missing = TABLES[check] - {file for file, other, _ in found if other == check}
        if missing:
            raise ValueError(f"no table {check} is in {missing}")
    return [fields for _, _, rows in found for fields in rows]


def fault_of(text, fault):
    """Returns the fields of the fault that a row names."""
    reason, start, end = re.fullmatch(r"(.*) at (\d+)\.\.(\d+)", fault).groups()
    terms = re.fullmatch(r"U\[(.*)\]", reason)
    members = re.search(r"\((\d+)\)", reason)
    name = "Unexpected" if terms else re.match(r"\w+", reason)[0]
    return (
        0, stripped(text)[0], int(start), int(end), int(members[1]) if members else 0,
        REASONS.index(name), TERMS.index(terms[1]) if terms else 0,
    )


def fields_of(struct):
    """Returns the fields of a struct, or None."""
    return struct and tuple(getattr(struct, name) for name, _ in struct._fields_)


def conditions_of_runs():
    """Returns the condition of each run that accepts it."""
    texts = [
        unescaped(words[PLACES[words[0]]])
        for status, _, *words in rows_of("run") if status == "0" and words[0] in PLACES
    ]
    # At a wrong place stand the names of commands or triples, of which there are few.
    assert len(texts) >= 79 and len(set(texts)) >= 50, texts
    assert not any(text.decode() in PLACES for text in texts), texts
    return texts


def accepted_texts():
    """Returns each accepted text of the tables."""
    texts = [unescaped(row[0]) for row in rows_of("predicates", "fillings", "spelling")]
    texts += conditions_of_runs()
    return texts + [text for text, status, _ in rust_crate() if status == 0]


def check_check(cfgx):
    """Compares the faults."""
    for text, fault, *_ in rows_of("fault", "fault in the stripped text"):
        text = unescaped(text)
        yield text, fields_of(cfgx.check(text)), fault_of(text, fault)
    for text in accepted_texts():
        yield text, fields_of(cfgx.check(text)), None


def check_explain(cfgx):
    """Compares the messages with what the program prints of faults."""
    for text, status, output in rust_crate():
        yield text, cfgx.explain(text), output[:-1] if status == 1 else None


def check_predicates(cfgx):
    """Compares the predicates."""
    for text in accepted_texts():
        found = [fields_of(predicate) for predicate in cfgx.predicates(text)]
        yield text, found, Condition(text).predicates()


def answers_in(digits):
    """Returns the answers that a field has."""
    return [VALUES[digit] for digit in digits.replace("\\e", "")]


def decisions():
    """Yields the text and the answers of each row with fillings, its value and both fillings."""
    for text, answers, wanted in rows_of("fillings"):
        if wanted in KNOWN:
            decision = KNOWN[wanted], [], []
        else:
            if_true, if_false = wanted.split(" ")
            decision = None, answers_in(if_true), answers_in(if_false)
        yield unescaped(text), answers_in(answers), decision


def check_value(cfgx):
    """Compares the values over the answers of the rows, and over others."""
    for text, answers, (value, _, _) in decisions():
        yield (text, answers), cfgx.value(text, answers), value
    for text, answers in answered_texts():
        yield (text, answers), cfgx.value(text, answers), Condition(text).value(answers)


def answered_texts():
    """Yields the accepted texts, each with answers at random. They are the same in each run."""
    source = random.Random(1)
    for text in accepted_texts():
        for _ in range(3):
            count = len(Condition(text).predicates())
            yield text, [source.choice((True, False, None)) for _ in range(count)]


def check_decide(cfgx):
    """Compares the fillings of the rows, and the values over fillings at other answers."""
    for text, answers, decision in decisions():
        yield (text, answers), cfgx.decide(text, answers), decision
    for text, answers in answered_texts():
        value, if_true, if_false = cfgx.decide(text, answers)
        condition = Condition(text)
        yield (text, answers), value, condition.value(answers)
        if value is None:
            found = condition.value(if_true), condition.value(if_false)
            yield (text, answers), found, (True, False)


def check_compile(cfgx):
    """Compares the steps, the predicates, and the tree that both have."""
    for text in accepted_texts():
        steps, predicates = ([fields_of(one) for one in found] for found in cfgx.compile(text))
        condition = Condition(text)
        yield text, steps, condition.steps()
        yield text, predicates, condition.predicates()
        yield text, trees_of(steps, predicates), [condition.tree]


def check_apply(cfgx):
    """Compares the values of steps with those of their texts."""
    for text, answers in answered_texts():
        steps, _ = cfgx.compile(text)
        yield (text, answers), cfgx.apply(steps, answers), cfgx.value(text, answers)


def flag_rows():
    """Yields the text, the flags and the output of each `eval` that has a value."""
    for status, output, *words in rows_of("run"):
        if status == "0" and words[0] == "eval":
            yield unescaped(words[1]), [unescaped(word) for word in words[2:]], unescaped(output)


def check_answers(cfgx):
    """Compares the values over the answers of flags with those of `eval`."""
    for text, flags, output in flag_rows():
        answers = cfgx.answers(text, flags)
        yield (text, flags), PRINTED[Condition(text).value(answers)], output


def check_audit(cfgx):
    """Compares the values on targets with those of `eval`, all in one call and one by one."""
    rows = list(flag_rows())
    texts, targets = [row[0] for row in rows], [row[1] for row in rows]
    values = cfgx.audit(texts, targets)
    for place, (text, flags, output) in enumerate(rows):
        yield (text, flags), PRINTED[values[place][place]], output
        yield (text, flags), PRINTED[cfgx.audit([text], [flags])[0][0]], output


def token_in(item, offset):
    """Returns the kind and the span in the text of a token that an item names."""
    name, start, end = re.fullmatch(r"(\w+)(?:\(.*\))? at (\d+)\.\.(\d+), \d+ left", item).groups()
    name = re.sub(r"(?<=[a-z])(?=[A-Z])", "_", name).lower()
    return TOKENS.index(name), offset + int(start), offset + int(end)


def rows_of_items():
    """Yields the text of each row of items, its tokens, its offset and its fault, which is the last
    item."""
    for text, _, *items in rows_of("items"):
        text, fault = unescaped(text), None
        if items and items[-1].startswith(("U[", "UnclosedQuotes")):
            fault = fault_of(text, items.pop().rsplit(" in ", 1)[0])
        offset, _ = stripped(text)
        yield text, ([token_in(item, offset) for item in items], offset, fault)


def all_texts():
    """Yields each text of the tables, alone and in `cfg( )`."""
    texts = [unescaped(row[0]) for row in rows_of("fault", "fault in the stripped text")]
    for text in texts + accepted_texts() + [text for text, _, _ in rust_crate()]:
        yield from (text, b"cfg(" + text + b")")


def check_tokens(cfgx):
    """Compares the tokens with the items of the rows, and those of all texts with what
    conditions.py finds."""
    rows = list(rows_of_items()) + [(text, tokens_of(text)) for text in all_texts()]
    for text, wanted in rows:
        tokens, offset, fault = cfgx.tokens(text)
        yield text, ([fields_of(token) for token in tokens], offset, fields_of(fault)), wanted


def check_run(cfgx):
    """Compares the runs of the program."""
    for status, output, *words in rows_of("run"):
        output = USAGE.encode() if output == "USAGE" else unescaped(output)
        words = [unescaped(word) for word in words]
        yield words, cfgx.run(words), (int(status), output)
    for status, text, output in rows_of("pick"):
        if "SECTIONS" not in text:
            words = [b"pick", b"aarch64-apple-ios-sim"]
            found = cfgx.run(words, unescaped(text))
            yield text, found, (int(status), unescaped(output))
    for words, text, status, output in MANY_STATUSES:
        yield words, run_or_refusal(cfgx, words, text), (status, output)


def run_or_refusal(cfgx, words, text):
    """Returns the status and the output of a run, also if the program is not run."""
    try:
        return cfgx.run(words, text)
    except CfgxError as error:
        return error.status, b""


CHECKS = {
    "check": check_check,
    "explain": check_explain,
    "predicates": check_predicates,
    "value": check_value,
    "decide": check_decide,
    "compile": check_compile,
    "apply": check_apply,
    "answers": check_answers,
    "audit": check_audit,
    "tokens": check_tokens,
    "run": check_run,
}


def failures_of(name, cfgx):
    """Runs the check of a call, and prints and counts its failures."""
    rows = failures = 0
    for row, found, wanted in CHECKS[name](cfgx):
        rows += 1
        if found != wanted:
            failures += 1
            print(f"FAILED: cfgx_{name}: {row}\n  wanted {wanted}\n  found  {found}")
    print(f"cfgx_{name}: {rows} comparisons with the rows of cfgx_vectors, {failures} failures")
    return failures + (rows == 0)


def main():
    """Runs the checks of the calls. No row is about `cfgx_version`."""
    cfgx = Cfgx(sys.argv[1])
    if {*sys.argv[2:]} != {*CHECKS, "version"}:
        sys.exit(f"rows.py: these are not the calls that it knows: {sys.argv[2:]}")
    sys.exit(1 if sum(failures_of(name, cfgx) for name in CHECKS) else 0)


if __name__ == "__main__":
    main()
