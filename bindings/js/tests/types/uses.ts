/** Uses of the package that its types accept, and below `@ts-expect-error` some that they
 * refuse. */
import * as cfgx from "cfgx";
import {
  type Answer, type Answers, type Decision, type Facts, type FactsOptions, type Fault, type Kind,
  type Reason, type Span, type Token, type TokenKind, type Tokens, type Value,
  Expression, FactError, OutOfMemoryError, ParseError, Predicate,
} from "cfgx";

const expression: Expression = cfgx.parse("all(unix, test)");
const other: Expression = new Expression("unix");
const predicates: readonly Predicate[] = expression.predicates;
const [first] = predicates;
const kind: Kind = first.kind;
const value: string | undefined = first.value;
const span: Span = first;
const places: number[] = [first.start, first.end, first.byteStart, first.byteEnd];
const isEqual: boolean = first.equals(cfgx.feature("x")) && expression.equals(other);

const answers: Answers[] = [
  [true, false], [null, undefined], new Set<Answer>([true]), () => undefined,
  (asked) => asked.kind === "os", new Map([[cfgx.test(), true]]),
  new Map<Predicate, Answer>([[cfgx.targetOs("linux"), null]]),
];
const values: Value[] = answers.map((one) => expression.eval(one));
const decision: Decision = expression.decide([null, true]);
const filling: boolean[] | undefined = decision.ifTrue ?? decision.ifFalse;

const options: FactsOptions = { otherwise: false };
const facts: Facts[] = ["unix\ntest", ["unix"], new Set(["unix"])];
const answered: Value[] = expression.answers(facts[0], options);
const table: Value[][] = cfgx.audit([expression, "unix"], facts, { otherwise: null });
const rows: Value[][] = cfgx.audit(new Set(["unix"]), cfgx.targets().map(cfgx.targetFacts));

const fault: Fault | undefined = cfgx.check("all(");
const reason: Reason | undefined = fault?.reason;
const expected: readonly string[] | undefined = fault?.expected;
const found: Tokens = cfgx.tokens("a");
const token: Token = found.tokens[0];
const tokenKind: TokenKind = token.kind;

try {
  cfgx.parse("all(");
} catch (error) {
  if (error instanceof ParseError) {
    const told: [string, string, Reason, number] = [
      error.text, error.message, error.reason, error.members,
    ];
    const same: Fault = error;
  } else if (error instanceof FactError) {
    const told: [number, number, string, number] = [
      error.target, error.number, error.fact, error.start,
    ];
  } else if (error instanceof OutOfMemoryError) {
    const range: RangeError = error;
  }
}

const made: Predicate[] = [
  cfgx.flag("loom"), cfgx.keyValue("key", "x"), cfgx.test(), cfgx.debugAssertions(),
  cfgx.procMacro(), cfgx.feature("x"), cfgx.targetFeature("sse2"), cfgx.targetAbi("eabi"),
  cfgx.targetArch("arm"), cfgx.targetEndian("big"), cfgx.targetEnv("gnu"),
  cfgx.targetFamily("unix"), cfgx.targetHasAtomic("8"), cfgx.targetOs("linux"),
  cfgx.panic("abort"), cfgx.targetPointerWidth("64"), cfgx.targetVendor("apple"),
];
const texts: string[] = [...cfgx.targets(), cfgx.rustcVersion(), cfgx.version(), String(made[0])];

// @ts-expect-error: a text is a string
cfgx.parse(1);
// @ts-expect-error: an answer is no number
expression.eval([1, 0]);
// @ts-expect-error: a function returns an answer
expression.eval(() => "yes");
// @ts-expect-error: the keys of a map are predicates
expression.eval(new Map([["unix", true]]));
// @ts-expect-error: otherwise is never true
cfgx.audit(["unix"], [], { otherwise: true });
// @ts-expect-error: a width is a string
cfgx.targetPointerWidth(64);
// @ts-expect-error: a predicate is made by functions
new Predicate();
// @ts-expect-error: an error is made by the package
new ParseError("");
// @ts-expect-error: no kind has this name
const wrong: Kind = "target_os";
// @ts-expect-error: a predicate never changes
first.key = "x";
// @ts-expect-error: predicates never change
expression.predicates.push(first);
// @ts-expect-error: an expression never changes
expression.text = "unix";
