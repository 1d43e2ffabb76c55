/** Conditions of `#[cfg(..)]`, such as `all(unix, feature = "x")`: parses them, lists their
 * predicates, evaluates and decides them.
 *
 * ```js
 * import { parse } from "cfgx";
 * const expression = parse('cfg(all(unix, not(feature = "x")))');
 * expression.predicates.map(String); // ['feature = "x"', 'target_family = "unix"']
 * expression.eval([false, true]); // true
 * expression.eval((asked) => (asked.kind === "family" ? true : undefined)); // undefined
 * ```
 *
 * `undefined` is an unknown value. As an answer, `null` is unknown too.
 *
 * Each call throws an `OutOfMemoryError` if it needs more memory than there is, after which other
 * calls work, and a `TypeError` for an argument that it does not take, such as a text with a lone
 * surrogate. */

/** A value, or `undefined` if it is unknown. */
export type Value = boolean | undefined;

/** An answer to a predicate. `undefined` and `null` are unknown. */
export type Answer = boolean | null | undefined;

/** Answers to the predicates of a condition:
 *
 * - an iterable that is no `Map`, with one answer for each of `predicates`, in order;
 * - or a function, which is called with each occurrence of a predicate once, in the order of
 *   `predicates`, and returns its answer;
 * - or a `Map` from predicates to answers, which are found by `equals`. A predicate that is not in
 *   it is unknown, and one that the condition does not ask is passed over. So nothing tells that a
 *   flag or a value is misspelt. */
export type Answers =
  | Iterable<Answer>
  | ((predicate: Predicate) => Answer)
  | ReadonlyMap<Predicate, Answer>;

/** What is known of a target: a text whose lines are facts, such as `rustc --print cfg` prints, or
 * an iterable of facts. Only a line feed ends a line, and a carriage return before it. Empty lines
 * of a text are no facts.
 *
 * The predicates in a fact are true. If a fact begins with `?`, the predicates in the rest of it
 * are unknown, except those that another fact makes true. */
export type Facts = string | Iterable<string>;

/** How predicates are answered that no fact names. */
export interface FactsOptions {
  /** Such a predicate is false if it tests the target, and otherwise this: unknown without it, or
   * `false`. */
  readonly otherwise?: false | null | undefined;
}

/** A part of a text: from a start up to but not including an end. */
export interface Span {
  /** The start, in UTF-16 code units, as the methods of a string count. */
  readonly start: number;
  /** The end, in UTF-16 code units. */
  readonly end: number;
  /** The start, in bytes of UTF-8. */
  readonly byteStart: number;
  /** The end, in bytes of UTF-8. */
  readonly byteEnd: number;
}

/** The kinds of predicates. */
export type Kind =
  /** A bare key without a meaning of its own, such as `loom`. */
  | "flag"
  /** A key without a meaning of its own, and a value. */
  | "keyValue"
  /** `test` */
  | "test"
  /** `debug_assertions` */
  | "debugAssertions"
  /** `proc_macro` */
  | "procMacro"
  /** `feature` */
  | "feature"
  /** `target_feature`, which a build may set: this kind does not test the target. */
  | "targetFeature"
  /** `target_abi`. This kind and those below test the target. */
  | "abi"
  /** `target_arch` */
  | "arch"
  /** `target_endian` */
  | "endian"
  /** `target_env` */
  | "env"
  /** `target_family`, and the bare keys `unix` and `windows` */
  | "family"
  /** `target_has_atomic` */
  | "hasAtomic"
  /** `target_os` */
  | "os"
  /** `panic` */
  | "panic"
  /** `target_pointer_width` */
  | "pointerWidth"
  /** `target_vendor` */
  | "vendor";

/** A predicate of a condition, which never changes. `parse` makes predicates, and so do the
 * functions with the names of the keys, such as `feature` and `targetOs`. */
export class Predicate implements Span {
  private constructor();
  /** The kind. */
  readonly kind: Kind;
  /** The key: that of the kind, also for the words `unix` and `windows`, or else as it stands in
   * the text. */
  readonly key: string;
  /** The value without its quotes, or `undefined` if there is none. A width has no sign and no
   * zeros in front. */
  readonly value: string | undefined;
  /** Where the predicate stands in the text that was passed: from its key to its last quote. */
  readonly start: number;
  readonly end: number;
  readonly byteStart: number;
  readonly byteEnd: number;
  /** Returns whether both ask the same, wherever they stand. */
  equals(other: unknown): boolean;
  /** Returns the predicate as `feature = "x"` or `test`: its key, and its value if it has one. Two
   * predicates are equal if these texts are. */
  toString(): string;
}

/** The reasons of faults. */
export type Reason =
  /** A `not` with no member or several. */
  | "invalidNot"
  /** A parenthesis is never closed. */
  | "unclosedParens"
  /** A parenthesis is closed that was never opened. */
  | "unopenedParens"
  /** A quote is never closed. */
  | "unclosedQuotes"
  /** The text has no predicate, literal or function. */
  | "empty"
  /** A term that may not stand there. */
  | "unexpected"
  /** A number that does not parse or is out of range, or a `target_endian` that is neither `big`
   * nor `little`. */
  | "invalidInteger"
  /** More than one predicate, literal or function stands outside of every function. */
  | "multipleRootPredicates"
  /** The width of an atomic is neither an integer nor `ptr`. */
  | "invalidHasAtomic";

/** What is wrong with a text, and where. */
export interface Fault extends Span {
  /** What is wrong. */
  readonly reason: Reason;
  /** The terms that may stand there, for the reason `unexpected`, and otherwise none. The list may
   * lack terms that are accepted, and have terms that are not. */
  readonly expected: readonly string[];
  /** The number of members of the `not`, for the reason `invalidNot`, and otherwise 0. */
  readonly members: number;
}

/** The first fault of a text that is no condition. */
export class ParseError extends Error implements Fault {
  private constructor();
  /** The text as it was passed, in which the span counts. */
  readonly text: string;
  /** The text without an outer `cfg( )` and, on the line below, marks and the reason, as the
   * program cfgx prints them. There is one mark for each byte, so behind characters beyond
   * ASCII the marks stand too far to the right. */
  readonly message: string;
  readonly reason: Reason;
  readonly start: number;
  readonly end: number;
  readonly byteStart: number;
  readonly byteEnd: number;
  readonly expected: readonly string[];
  readonly members: number;
}

/** The first fact that is no condition. A fact that no condition can ask is not faulty, such as
 * `target_thread_local`. */
export class FactError extends Error implements Fault {
  private constructor();
  /** The number of the target, from 0 on. */
  readonly target: number;
  /** The number of the fact among those of the target, from 0 on. Empty lines have none. */
  readonly number: number;
  /** The fact, in which the span counts. A `?` at its start counts too. */
  readonly fact: string;
  readonly reason: Reason;
  readonly start: number;
  readonly end: number;
  readonly byteStart: number;
  readonly byteEnd: number;
  readonly expected: readonly string[];
  readonly members: number;
}

/** A call needs more memory than there is. Other calls still work. */
export class OutOfMemoryError extends RangeError {}

/** What `Expression.decide` found. */
export interface Decision {
  /** The value, or `undefined` if it depends on the unknown answers. */
  readonly value: Value;
  /** Answers with which the condition is true, if `value` is `undefined`, and otherwise
   * `undefined`. There is one for each of `predicates`, in order, and those that were known
   * stay. */
  readonly ifTrue: boolean[] | undefined;
  /** Answers with which the condition is false, in the same way. */
  readonly ifFalse: boolean[] | undefined;
}

/** A condition, which never changes. */
export class Expression {
  /** Parses a text, as `parse` does. */
  constructor(text: string);
  /** The text as it was passed, in which spans count. */
  readonly text: string;
  /** The text without an outer `cfg( )`. */
  readonly original: string;
  /** The predicates in the order in which they are asked: in each list first those of its
   * functions, one function after another, and then its own. So `all(a, any(b), c)` asks `b`,
   * `a` and `c`. A predicate that stands twice is listed twice. */
  readonly predicates: readonly Predicate[];
  /** Returns the value over these answers, or `undefined` if it depends on the unknown ones. Two
   * occurrences of a predicate may have different answers, so `any(a, not(a))` is unknown if
   * `a` is.
   *
   * Throws a `TypeError` for what is no answer, also for 0 and 1, and for a list of another
   * length. */
  eval(answers: Answers): Value;
  /** Returns the value over these answers and, if it depends on the unknown ones, answers with
   * which the condition is true, and answers with which it is false. Throws what `eval` throws. */
  decide(answers: Answers): Decision;
  /** Returns the answers of a target to `predicates`, in order, for `eval` and `decide`. Throws a
   * `FactError` for the first faulty fact, with 0 as the number of the target. */
  answers(facts: Facts, options?: FactsOptions): Value[];
  /** Returns whether both have the same `original`. */
  equals(other: unknown): boolean;
  /** Returns `original`. */
  toString(): string;
}

/** Returns the condition that a text is, which may stand in `cfg( )`. Throws a `ParseError` with
 * the first fault if the text is no condition. */
export function parse(text: string): Expression;

/** Returns the first fault of a text, or `undefined` if the text is a condition. */
export function check(text: string): Fault | undefined;

/** The kinds of tokens. A key is any word but `all`, `any` and `not`. */
export type TokenKind =
  | "key" | "value" | "equals" | "all" | "any" | "not" | "openParen" | "closeParen" | "comma";

/** A token of a text. The span of a value has both quotes. */
export interface Token extends Span {
  /** The kind. */
  readonly kind: TokenKind;
}

/** What `tokens` found. */
export interface Tokens {
  /** The tokens, one after another. */
  readonly tokens: Token[];
  /** The fault at which the tokens end: a character with which no token can start, or a quote that
   * is never closed. `check` may find another one before it. */
  readonly fault: Fault | undefined;
}

/** Returns the tokens of a text without its outer `cfg( )`. The text need not be a condition. */
export function tokens(text: string): Tokens;

/** Returns for each condition its values on the targets. Each text and each fact is read once.
 *
 * Throws a `FactError` for the first faulty fact, or else a `ParseError` for the first text that is
 * no condition. */
export function audit(
  conditions: Iterable<Expression | string>, targets: Iterable<Facts>, options?: FactsOptions,
): Value[][];

/** Returns the triples of all targets of one rustc, in order. `rustcVersion` says of which one.
 * They come from a table in the package, so no compiler is needed. */
export function targets(): string[];

/** Returns the facts of one of `targets`, in order: the lines that rustc prints if Cargo asks,
 * without `proc_macro`, which Cargo passes over. Throws a `TypeError` for any other triple. */
export function targetFacts(triple: string): string[];

/** Returns the version of the rustc that has the targets of `targets`, such as `"1.95.0"`. */
export function rustcVersion(): string;

/** Returns the version of the engine: that of the language of conditions, and the major and the
 * minor version of its calls. */
export function version(): string;

/** Returns the predicate of a bare key without a meaning of its own, such as `loom`. Throws a
 * `TypeError` if no text asks it, as the functions below do. The spans of a predicate that is made
 * are those in its own text. */
export function flag(key: string): Predicate;

/** Returns the predicate of a key without a meaning of its own, and a value. */
export function keyValue(key: string, value: string): Predicate;

/** Returns the predicate `test`. */
export function test(): Predicate;

/** Returns the predicate `debug_assertions`. */
export function debugAssertions(): Predicate;

/** Returns the predicate `proc_macro`. */
export function procMacro(): Predicate;

/** Returns the predicate `feature = "value"`. */
export function feature(value: string): Predicate;

/** Returns the predicate `target_feature = "value"`. */
export function targetFeature(value: string): Predicate;

/** Returns the predicate `target_abi = "value"`. */
export function targetAbi(value: string): Predicate;

/** Returns the predicate `target_arch = "value"`. */
export function targetArch(value: string): Predicate;

/** Returns the predicate `target_endian = "value"`. */
export function targetEndian(value: string): Predicate;

/** Returns the predicate `target_env = "value"`. */
export function targetEnv(value: string): Predicate;

/** Returns the predicate `target_family = "value"`. */
export function targetFamily(value: string): Predicate;

/** Returns the predicate `target_has_atomic = "value"`. */
export function targetHasAtomic(value: string): Predicate;

/** Returns the predicate `target_os = "value"`. */
export function targetOs(value: string): Predicate;

/** Returns the predicate `panic = "value"`. */
export function panic(value: string): Predicate;

/** Returns the predicate `target_pointer_width = "value"`. */
export function targetPointerWidth(value: string): Predicate;

/** Returns the predicate `target_vendor = "value"`. */
export function targetVendor(value: string): Predicate;
