/** Conditions. */
import { UNKNOWN, numbersOf, valueOf } from "./answers.js";
import { FactError, ParseError } from "./errors.js";
import { factsOf, mayBeTrue } from "./facts.js";
import * as engine from "./module.js";
import { predicateOf } from "./predicate.js";
import { decoded, spanOf, unitsIn, utf8Of, utf8OfAll } from "./text.js";

/** The kinds of tokens by their numbers. */
const TOKEN_KINDS = [
  undefined, "key", "value", "equals", "all", "any", "not", "openParen", "closeParen", "comma",
];

/** Returns the error of a faulty text, which is passed also in UTF-8. */
export function parseError(text, bytes, found) {
  const message = engine.explain(bytes);
  return new ParseError(text, decoded(message, 0, message.length),
                        engine.faultIn(text, bytes, found));
}

/** Returns the error of a fact with this number of the target with this number. */
export function factError(target, number, fact, bytes, found) {
  return new FactError(target, number, fact, engine.faultIn(fact, bytes, found));
}

/** A condition. It never changes. */
export class Expression {
  #text;
  #steps;
  #predicates;

  constructor(text) {
    const bytes = utf8Of(text);
    const { fault, steps, predicates } = engine.compile(bytes);
    if (fault !== undefined) {
      throw parseError(text, bytes, fault);
    }
    const units = unitsIn(bytes, text);
    this.#text = text;
    this.#steps = steps;
    this.#predicates = Object.freeze(predicates.map((one) => predicateOf(bytes, units, one)));
  }

  get text() {
    return this.#text;
  }

  get original() {
    // No condition begins with `cfg(` unless it stands in `cfg( )`.
    return this.#text.startsWith("cfg(") ? this.#text.slice(4, -1) : this.#text;
  }

  get predicates() {
    return this.#predicates;
  }

  eval(answers) {
    return valueOf(engine.apply(this.#steps, numbersOf(answers, this.#predicates)));
  }

  decide(answers) {
    const numbers = numbersOf(answers, this.#predicates);
    const number = engine.apply(this.#steps, numbers);
    if (number !== UNKNOWN) {
      return { value: valueOf(number), ifTrue: undefined, ifFalse: undefined };
    }
    const both = engine.fillings(utf8Of(this.#text), numbers);
    const [ifTrue, ifFalse] = both.map((filling) => Array.from(filling, valueOf));
    return { value: undefined, ifTrue, ifFalse };
  }

  answers(facts, options) {
    const [listed, may] = [factsOf(facts), mayBeTrue(options)];
    const bytes = utf8OfAll(listed);
    const count = this.#predicates.length;
    const { fault, answers } = engine.answers(utf8Of(this.#text), count, bytes, may);
    if (fault !== undefined) {
      throw factError(0, fault.item, listed[fault.item], bytes[fault.item], fault);
    }
    return Array.from(answers, valueOf);
  }

  equals(other) {
    return other instanceof Expression && this.original === other.original;
  }

  toString() {
    return this.original;
  }

  /** Returns the kinds and the numbers of the steps of a condition. No member of the package. */
  static stepsOf(expression) {
    return engine.stepsIn(expression.#steps);
  }
}

/** Returns the condition that a text is. */
export function parse(text) {
  return new Expression(text);
}

/** Returns the fault of a text, or `undefined` if it is a condition. */
export function check(text) {
  const bytes = utf8Of(text);
  const found = engine.faultOf(bytes);
  return found && engine.faultIn(text, bytes, found);
}

/** Returns the tokens of a text, and the fault at which they end. */
export function tokens(text) {
  const bytes = utf8Of(text);
  const { tokens: found, fault } = engine.tokens(bytes);
  const units = unitsIn(bytes, text);
  return {
    tokens: found.map((one) => (
      { kind: TOKEN_KINDS[one.kind], ...spanOf(units, one.start, one.end) }
    )),
    fault: fault && engine.faultIn(text, bytes, fault),
  };
}
