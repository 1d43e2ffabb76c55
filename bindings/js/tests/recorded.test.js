/** The recorded rows, and what the package finds. */
import assert from "node:assert/strict";
import { test } from "node:test";
import * as cfgx from "../src/node.js";
import { rowsOf, rustCrate, tables, tablesIn, unescaped } from "./rows.js";

const VALUES = { 1: true, 0: false, "?": undefined };
const PRINTED = { "true\n": true, "false\n": false, "unknown\n": undefined };
// The checks whose rows are tested here.
const TESTED = [
  "equality", "fault", "fault in the stripped text", "fillings", "predicates", "run", "spelling",
  "stripped text",
];
// The checks of what the package does not have: parts of the parser, the predicates of Rattle,
// targets that are built in or made by hand, what a `Debug` of Rust prints, the streams of the
// program; its long rows; and the tables of a page, whose rows are not texts alone.
const OTHERS = [
  "all built-in targets", "built-in target", "calls for the next predicate", "counted stream",
  "ending", "failed read", "fault of the page", "field", "items", "length of an input",
  "list of families", "list of widths", "located predicates", "long run", "long spelling",
  "nodes", "not UTF-8", "pick", "pick of the page", "pick on a target", "printed fault",
  "property", "reads", "reason", "run on each target", "spelling of the page", "streams of pick",
  "table", "type", "typed predicates", "values on built-in targets", "values on no target",
  "values on targets made by hand", "whole input", "width",
];

/** Returns the answers that a field has a character for each of. */
function answersOf(field) {
  return [...unescaped(field)].map((answer) => {
    assert.ok(answer in VALUES, answer);
    return VALUES[answer];
  });
}

/** Returns the decision that a field states. */
function decisionOf(field) {
  if (["true", "false"].includes(field)) {
    return { value: field === "true", ifTrue: undefined, ifFalse: undefined };
  }
  const fillings = field.split(" ").map(answersOf);
  assert.equal(fillings.length, 2);
  const [ifTrue, ifFalse] = fillings;
  return { value: undefined, ifTrue, ifFalse };
}

/** Returns the error of a text, or `undefined` for a condition. */
function errorOf(text) {
  try {
    cfgx.parse(text);
  } catch (error) {
    assert.ok(error instanceof cfgx.ParseError, error);
    return error;
  }
  return undefined;
}

/** Returns the reason of a fault, as rows write it. */
function reasonOf({ reason, members, expected }) {
  if (reason === "invalidNot") {
    return `InvalidNot(${members})`;
  }
  const terms = expected.map((term) => `\`${term}\``).join(" ");
  return reason === "unexpected" ? `U[${terms}]` : reason[0].toUpperCase() + reason.slice(1);
}

/** Returns the status and the output of the program `cfgx parse` for a text. */
function parsed(text) {
  const error = errorOf(text);
  return error === undefined ?
    { status: 0, output: cfgx.parse(text).predicates.map((asked) => `${asked}\n`).join("") } :
    { status: 1, output: `${error.message}\n` };
}

/** Returns the place in UTF-16 code units of a byte. A character that the byte cuts counts
 * whole. */
function unitsBefore(text, byte) {
  let units = 0;
  for (let bytes = 0; bytes < byte;) {
    const character = String.fromCodePoint(text.codePointAt(units));
    bytes += Buffer.byteLength(character);
    units += character.length;
  }
  return units;
}

test("the files of rows have no table that is not known", () => {
  const checks = tables().map(({ check }) => check);
  const found = checks.filter((check) => !check.startsWith("each size of "));
  assert.deepEqual(new Set(found), new Set([...TESTED, ...OTHERS]));
});

test("the files of rows are refused if they have other rows than a head counts", () => {
  for (const head of ["[run: 0 rows]", "[run: 2 rows]"]) {
    assert.throws(() => tablesIn([head, "status | words", "# a comment", "", "0 | parse"]));
  }
  const table = ["[run: 1 row]", "status | words", "0 | parse | a"];
  const wanted = { check: "run", rows: [["0", "parse", "a"]] };
  assert.deepEqual(tablesIn([...table, "", ...table]), [wanted, wanted]);
});

test("the files of rows are refused if a word is misspelt", () => {
  for (const field of ["ture", "1 0 1", "1", "2 0"]) {
    assert.throws(() => decisionOf(field), { code: "ERR_ASSERTION" });
  }
});

test("the recorded rows of the Rust crate", () => {
  const rows = rustCrate();
  for (const { text, ...wanted } of rows) {
    assert.deepEqual(parsed(text), wanted, text);
  }
  assert.equal(rows.length, 1962);
});

test("the recorded rows of runs of parse", () => {
  const runs = rowsOf("run").filter(([status, , command]) => (
    command === "parse" && Number(status) < 2
  ));
  for (const [status, output, , ...texts] of runs) {
    assert.equal(texts.length, 1);
    const wanted = { status: Number(status), output: unescaped(output) };
    assert.deepEqual(parsed(unescaped(texts[0])), wanted, texts[0]);
  }
  assert.deepEqual(new Set(runs.map(([status]) => status)), new Set(["0", "1"]));
});

test("the recorded rows of faults", () => {
  for (const [field, fault] of rowsOf("fault", "fault in the stripped text")) {
    const text = unescaped(field);
    const [, reason, start, end] = /^(.*) at (\d+)\.\.(\d+)$/.exec(fault);
    const offset = text.startsWith("cfg(") && text.endsWith(")") ? 4 : 0;
    const bytes = [start, end].map((place) => offset + Number(place));
    const units = bytes.map((byte) => unitsBefore(text, byte));
    const error = errorOf(text);
    assert.deepEqual([reasonOf(error), error.byteStart, error.byteEnd], [reason, ...bytes], text);
    assert.deepEqual([error.start, error.end], units, text);
    const { start: from, end: to, byteStart, byteEnd, expected, members } = error;
    const wanted = { reason: error.reason, start: from, end: to, byteStart, byteEnd, expected,
                     members };
    assert.deepEqual(cfgx.check(text), wanted, text);
  }
});

test("the recorded rows of faults, as faults of facts", () => {
  let count = 0;
  for (const [field] of rowsOf("fault", "fault in the stripped text")) {
    const text = unescaped(field);
    // A mark is no part of the text.
    const fact = text.startsWith("?") ? text : `?${text}`;
    try {
      cfgx.audit([], [[fact]]);
    } catch (error) {
      const { reason, start, end } = errorOf(fact.slice(1));
      assert.ok(error instanceof cfgx.FactError, error);
      assert.deepEqual([error.reason, error.start - 1, error.end - 1], [reason, start, end]);
      count++;
    }
  }
  assert.ok(count > 100, String(count));
});

test("the recorded rows of predicates", () => {
  for (const [text, predicates] of rowsOf("predicates")) {
    const found = cfgx.parse(unescaped(text)).predicates;
    assert.equal(found.join("\n"), unescaped(predicates), text);
  }
});

test("the recorded rows of spellings", () => {
  for (const [text, spellings] of rowsOf("spelling")) {
    assert.equal(cfgx.parse(unescaped(text)).predicates.join(""), unescaped(spellings), text);
  }
});

test("the recorded rows of stripped texts", () => {
  for (const [text, stripped] of rowsOf("stripped text")) {
    const expression = cfgx.parse(unescaped(text));
    assert.equal(expression.original, unescaped(stripped), text);
    assert.equal(String(expression), unescaped(stripped), text);
  }
});

test("the recorded rows of equality", () => {
  for (const [text, other, wanted] of rowsOf("equality")) {
    const isEqual = cfgx.parse(unescaped(text)).equals(cfgx.parse(unescaped(other)));
    assert.equal(isEqual ? "equal" : "different", wanted, `${text} ${other}`);
  }
});

test("the recorded rows of fillings", () => {
  for (const [text, field, wanted] of rowsOf("fillings")) {
    const [expression, answers] = [cfgx.parse(unescaped(text)), answersOf(field)];
    const decision = expression.decide(answers);
    assert.deepEqual(decision, decisionOf(wanted), `${text} ${field}`);
    assert.equal(expression.eval(answers), decision.value);
    if (decision.value === undefined) {
      assert.equal(expression.eval(decision.ifTrue), true);
      assert.equal(expression.eval(decision.ifFalse), false);
    }
  }
});

test("the recorded rows of values on facts", () => {
  const runs = rowsOf("run").filter(([status, , command]) => status === "0" && command === "eval");
  const [conditions, facts, values] = [[], [], []];
  for (const [, output, , ...words] of runs) {
    const [condition, ...rest] = words.map(unescaped);
    const value = PRINTED[unescaped(output)];
    conditions.push(condition);
    facts.push(rest);
    values.push(value);
    const expression = cfgx.parse(condition);
    assert.equal(expression.eval(expression.answers(rest, { otherwise: false })), value);
  }
  const table = cfgx.audit(conditions, facts, { otherwise: false });
  assert.deepEqual(table.map((row, at) => row[at]), values);
  assert.ok(values.length > 30);
});
