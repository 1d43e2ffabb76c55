/** The conditions that stand in a text, one a line. */
import { ParseError } from "../src/errors.js";
import { Expression, parse, tokens } from "../src/expression.js";

/** The most conditions and code units that are read, so that the page answers each key at once. */
export const MOST_CONDITIONS = 60;
export const MOST_UNITS = 30_000;
// The most tokens of a line that are painted.
const MOST_TOKENS = 1500;

// Where a condition stands in an attribute of Rust, and in the head of a table of a Cargo.toml.
const FORMS = [
  /^(\s*#!?\[\s*)(cfg\([^]*\))\s*\]\s*$/u,
  /^(\s*\[\s*target\s*\.\s*')(cfg\([^']*\))'[^']*\]\s*$/u,
];

/** Returns the condition in a line, and where it begins there. White space may stand around it. */
function partOf(line) {
  const [form] = FORMS.map((one) => one.exec(line)).filter((found) => found !== null);
  return form ? { text: form[2], offset: form[1].length } :
    { text: line.trim(), offset: line.length - line.trimStart().length };
}

/** Returns the expression that a text is, or the error of a faulty one. */
function read(text) {
  try {
    return { expression: parse(text), fault: undefined };
  } catch (error) {
    if (error instanceof ParseError) {
      return { expression: undefined, fault: error };
    }
    throw error;
  }
}

/** A condition on a line, or a faulty text. */
export class Condition {
  #steps;

  /** `line` is the number of the line, from 0 on, and `offset` where the text begins in it. */
  constructor(line, offset, text) {
    Object.assign(this, { line, offset, text, ...read(text) });
    this.predicates = this.expression?.predicates ?? [];
    this.texts = this.predicates.map(String);
    // Each predicate once, and the number that each occurrence has among these.
    this.distinct = [...new Set(this.texts)];
    const numbers = new Map(this.distinct.map((one, at) => [one, at]));
    this.numbers = this.texts.map((one) => numbers.get(one));
  }

  /** The nodes of the tree as they stand in the text, each function in front of its members. */
  get steps() {
    this.#steps ??= Expression.stepsOf(this.expression);
    return this.#steps;
  }

  /** The condition as it is written into another one. */
  get inner() {
    return this.expression.original;
  }
}

/** Returns the condition of two that is true where this form of both is. */
export function joined(form, one, other) {
  return new Condition(-1, 0, form(one.inner, other.inner));
}

/** Reads texts, and keeps what it read of those that stay. While a line is faulty, its last
 * condition stays beside the fault, as long as there are as many lines. */
export class Reader {
  #read = new Map();
  #last = new Map();
  #lineCount = 0;

  /** Returns the conditions in a text that is not too long, and whether all were read. */
  read(text) {
    const lines = text.split("\n");
    const filled = lines.map((line, at) => ({ line: at, ...partOf(line) }))
      .filter(({ text: part }) => part !== "");
    const kept = new Map();
    const conditions = filled.slice(0, MOST_CONDITIONS).map((part) => {
      const key = `${part.line}:${part.offset}:${part.text}`;
      const found = this.#read.get(key) ?? new Condition(part.line, part.offset, part.text);
      kept.set(key, found);
      return found;
    });
    this.#read = kept;
    this.#keepLast(lines.length, conditions);
    return { lines, conditions, isWhole: filled.length <= MOST_CONDITIONS };
  }

  /** Keeps the last condition of each line. */
  #keepLast(lineCount, conditions) {
    const before = lineCount === this.#lineCount ? this.#last : new Map();
    this.#lineCount = lineCount;
    this.#last = new Map();
    for (const one of conditions) {
      one.shown = one.expression ? one : before.get(one.line);
      if (one.shown !== undefined) {
        this.#last.set(one.line, one.shown);
      }
    }
  }
}

/** Returns the pieces of a line: each has a text, the kind of its token or `undefined`, and whether
 * it is at fault. */
export function piecesOf(line, condition) {
  if (condition === undefined) {
    return [{ text: line, kind: undefined, isFaulty: false }];
  }
  const { offset, text, fault } = condition;
  const all = tokens(text).tokens;
  const found = all.length > MOST_TOKENS ? [] : all;
  // A fault that has no text, as at the end, is shown at the place before it.
  const from = fault && Math.min(fault.start, Math.max(text.length - 1, 0));
  const to = fault && Math.max(fault.end, from + 1);
  const marks = new Set([0, text.length, ...found.flatMap(({ start, end }) => [start, end])]);
  if (fault) {
    marks.add(from).add(to);
  }
  const places = [...marks].filter((place) => place <= text.length).sort((a, b) => a - b);
  let token = 0;
  const pieces = places.slice(1).map((end, at) => {
    const start = places[at];
    while (token < found.length && found[token].end <= start) {
      token += 1;
    }
    const kind = found[token]?.start <= start ? found[token].kind : undefined;
    return { text: text.slice(start, end), kind, isFaulty: fault && start >= from && end <= to };
  });
  const around = (part) => ({ text: part, kind: undefined, isFaulty: false });
  return [around(line.slice(0, offset)), ...pieces, around(line.slice(offset + text.length))];
}

