/** Expressions, predicates, tokens and spans. */
import assert from "node:assert/strict";
import { test } from "node:test";
import * as cfgx from "../src/node.js";

/** Returns the part of a text that a span covers, by its code units and by its bytes. */
function parts(text, { start, end, byteStart, byteEnd }) {
  return [text.slice(start, end), Buffer.from(text).subarray(byteStart, byteEnd).toString()];
}

/** Returns the members of a predicate or a fault that say where it stands. */
function places({ start, end, byteStart, byteEnd }) {
  return [start, end, byteStart, byteEnd];
}

/** Returns what a call throws. */
function thrown(call) {
  try {
    call();
  } catch (error) {
    return error;
  }
  return assert.fail("nothing was thrown");
}

// A text, and the parts of it that its predicates are, in the order in which they are asked.
const SPANS = [
  ["unix", ["unix"]],
  ["cfg(unix)", ["unix"]],
  ["all(a, any(b), c)", ["b", "a", "c"]],
  ['feature = "é"', ['feature = "é"']],
  ['any(a = "日本", b)', ['a = "日本"', "b"]],
  ['cfg(all(a = "𝄞", not(b = "é𝄞"), c))', ['b = "é𝄞"', 'a = "𝄞"', "c"]],
  ['\u3000all(\u00a0a = "𝄞𝄞𝄞" \u2028, b\u3000)', ['a = "𝄞𝄞𝄞"', "b"]],
  [`any(${'a = "é日𝄞", '.repeat(40)}b)`, [...Array(40).fill('a = "é日𝄞"'), "b"]],
  [`all(a = "${"é".repeat(64)}", b, c = "${"𝄞".repeat(32)}")`,
   [`a = "${"é".repeat(64)}"`, "b", `c = "${"𝄞".repeat(32)}"`]],
];

// A text, its reason, its span in code units, and that in bytes.
const FAULTS = [
  ["", "empty", [0, 0, 0, 0]],
  ["cfg()", "empty", [4, 4, 4, 4]],
  ["8", "unexpected", [0, 1, 0, 1]],
  ["é", "unexpected", [0, 1, 0, 1]],
  ["𝄞", "unexpected", [0, 2, 0, 1]],
  ["all(a, 日)", "unexpected", [7, 8, 7, 8]],
  ['all(a = "é", 8)', "unexpected", [13, 14, 14, 15]],
  ['a = "𝄞" b', "unexpected", [9, 10, 11, 12]],
  ['cfg(a = "日")b)', "unopenedParens", [11, 12, 13, 14]],
  ['é = "', "unexpected", [0, 1, 0, 1]],
  ['a = "é', "unclosedQuotes", [4, 6, 4, 7]],
  ['any(a = "𝄞𝄞"', "unclosedParens", [3, 14, 3, 18]],
  ['all(a = "é", not(b, c = "日"))', "invalidNot", [13, 28, 14, 31]],
  ['all(k = "é", target_endian = "日")', "invalidInteger", [30, 31, 31, 34]],
  ['all(k = "é", target_has_atomic = "𝄞")', "invalidHasAtomic", [34, 36, 35, 39]],
];

test("spans of predicates are those of the text that was passed", () => {
  for (const [text, wanted] of SPANS) {
    const found = cfgx.parse(text).predicates.map((one) => parts(text, one));
    assert.deepEqual(found, wanted.map((part) => [part, part]), text);
  }
});

test("spans of predicates count code units and bytes", () => {
  const { predicates } = cfgx.parse('cfg(all(a = "𝄞é", b))');
  assert.deepEqual(predicates.map(places), [[8, 17, 8, 20], [19, 20, 22, 23]]);
});

test("spans of faults count code units and bytes", () => {
  for (const [text, reason, wanted] of FAULTS) {
    const fault = cfgx.check(text);
    assert.deepEqual([fault.reason, places(fault)], [reason, wanted], text);
  }
});

test("spans of tokens are those of the text that was passed", () => {
  for (const text of ['cfg(not(a="é𝄞"))', '\u3000any ( key, all(),\u00a0"日" )']) {
    const { tokens, fault } = cfgx.tokens(text);
    assert.equal(fault, undefined);
    const spelled = tokens.map((one) => parts(text, one));
    assert.ok(spelled.every(([units, bytes]) => units === bytes), text);
    const inside = text.startsWith("cfg(") ? text.slice(4, -1) : text;
    const joined = spelled.map(([units]) => units).join("");
    assert.equal(joined, inside.replace(/\s+/gu, ""));
  }
});

test("tokens have their kinds", () => {
  const { tokens } = cfgx.tokens('all(any, not()key="x"');
  assert.deepEqual(tokens.map(({ kind }) => kind), [
    "all", "openParen", "any", "comma", "not", "openParen", "closeParen", "key", "equals",
    "value",
  ]);
});

test("tokens end at a fault", () => {
  const { tokens, fault } = cfgx.tokens('a, é "');
  assert.deepEqual(tokens.map(({ kind }) => kind), ["key", "comma"]);
  assert.deepEqual([fault.reason, places(fault)], ["unexpected", [3, 4, 3, 4]]);
  assert.deepEqual(fault.expected, ["<key>", "all", "any", "not"]);
  assert.equal(cfgx.tokens('a = "é').fault.reason, "unclosedQuotes");
});

test("tokens may be none or many", () => {
  assert.deepEqual(cfgx.tokens(""), { tokens: [], fault: undefined });
  assert.equal(cfgx.tokens("a,".repeat(5000)).tokens.length, 10000);
});

// A predicate by its text, and its kind, key and value.
const PREDICATES = [
  ["loom", "flag", "loom", undefined],
  ['key = ""', "keyValue", "key", ""],
  ["test", "test", "test", undefined],
  ["debug_assertions", "debugAssertions", "debug_assertions", undefined],
  ["proc_macro", "procMacro", "proc_macro", undefined],
  ['feature = "é"', "feature", "feature", "é"],
  ['target_feature = "sse2"', "targetFeature", "target_feature", "sse2"],
  ['target_abi = "eabi"', "abi", "target_abi", "eabi"],
  ['target_arch = "arm"', "arch", "target_arch", "arm"],
  ['target_endian = "big"', "endian", "target_endian", "big"],
  ['target_endian = "little"', "endian", "target_endian", "little"],
  ['target_env = "gnu"', "env", "target_env", "gnu"],
  ['target_family = "wasm"', "family", "target_family", "wasm"],
  ['target_has_atomic = "8"', "hasAtomic", "target_has_atomic", "8"],
  ['target_has_atomic = "ptr"', "hasAtomic", "target_has_atomic", "ptr"],
  ['target_os = "linux"', "os", "target_os", "linux"],
  ['panic = "abort"', "panic", "panic", "abort"],
  ['target_pointer_width = "64"', "pointerWidth", "target_pointer_width", "64"],
  ['target_vendor = "apple"', "vendor", "target_vendor", "apple"],
];
// How each of these predicates is made.
const MADE = [
  cfgx.flag("loom"), cfgx.keyValue("key", ""), cfgx.test(), cfgx.debugAssertions(),
  cfgx.procMacro(), cfgx.feature("é"), cfgx.targetFeature("sse2"), cfgx.targetAbi("eabi"),
  cfgx.targetArch("arm"), cfgx.targetEndian("big"), cfgx.targetEndian("little"),
  cfgx.targetEnv("gnu"), cfgx.targetFamily("wasm"), cfgx.targetHasAtomic("8"),
  cfgx.targetHasAtomic("ptr"), cfgx.targetOs("linux"), cfgx.panic("abort"),
  cfgx.targetPointerWidth("64"), cfgx.targetVendor("apple"),
];

test("predicates have a kind, a key and a value", () => {
  assert.equal(MADE.length, PREDICATES.length);
  PREDICATES.forEach(([text, ...wanted], at) => {
    const [found] = cfgx.parse(`any(${text})`).predicates;
    for (const one of [found, MADE[at]]) {
      assert.deepEqual([one.kind, one.key, one.value], wanted);
      assert.equal(String(one), text);
    }
    assert.ok(found.equals(MADE[at]) && MADE[at].equals(found));
  });
});

test("predicates of different texts differ", () => {
  for (const [at, one] of MADE.entries()) {
    assert.deepEqual(MADE.filter((other) => one.equals(other)), [MADE[at]]);
  }
  assert.ok(!cfgx.test().equals("test"));
  assert.ok(!cfgx.test().equals(undefined));
});

test("predicates have one form for a family and for a number", () => {
  const texts = ["unix", 'target_family = "unix"', 'target_pointer_width = "+064"'];
  assert.deepEqual(texts.map((text) => String(cfgx.parse(text).predicates[0])), [
    'target_family = "unix"', 'target_family = "unix"', 'target_pointer_width = "64"',
  ]);
  assert.ok(cfgx.parse("windows").predicates[0].equals(cfgx.targetFamily("windows")));
});

test("predicates never change", () => {
  const { predicates } = cfgx.parse("all(a, b)");
  assert.throws(() => predicates.pop(), TypeError);
  assert.throws(() => Object.assign(predicates[0], { key: "c" }), TypeError);
  assert.throws(() => new cfgx.Predicate(), /^TypeError: A predicate is made by parse, or/);
});

test("predicates that no text asks are refused", () => {
  const calls = [
    () => cfgx.flag("true"), () => cfgx.flag("unix"), () => cfgx.flag("test"),
    () => cfgx.flag("a b"), () => cfgx.flag(""), () => cfgx.flag("not(a)"),
    () => cfgx.flag("all(a, a)"), () => cfgx.flag('a = "b"'), () => cfgx.feature('"'),
    () => cfgx.keyValue("feature", "x"), () => cfgx.keyValue("unix", "x"),
    () => cfgx.targetFeature(""), () => cfgx.targetPointerWidth("064"),
    () => cfgx.targetPointerWidth("256"), () => cfgx.targetEndian("middle"),
  ];
  for (const call of calls) {
    assert.throws(call, /^TypeError: No text asks the predicate .* of the kind \w+\.$/);
  }
  for (const call of [() => cfgx.flag(1), () => cfgx.keyValue("a", 1),
                      () => cfgx.targetPointerWidth(64)]) {
    assert.throws(call, /^TypeError: A key and a value are strings, and not \d+\.$/);
  }
  for (const call of [() => cfgx.keyValue("a"), () => cfgx.feature()]) {
    assert.throws(call, /^TypeError: The key \w+ needs a value, which is a string\.$/);
  }
});

test("an expression evaluates answers in each form", () => {
  const expression = cfgx.parse('cfg(all(unix, not(feature = "x")))');
  const [feature, unix] = expression.predicates;
  assert.deepEqual([String(feature), String(unix)], ['feature = "x"', 'target_family = "unix"']);
  const forms = [
    [[false, true], true], [[true, true], false], [[undefined, true], undefined],
    [[null, false], false], [new Set([false, true]), true], [[false, null].values(), undefined],
    [(asked) => asked.kind === "family", true],
    [(asked) => (asked.equals(cfgx.feature("x")) ? true : undefined), false],
    [() => null, undefined],
    [new Map([[cfgx.feature("x"), true]]), false],
    [new Map([[unix, true], [cfgx.feature("x"), false], [cfgx.test(), true]]), true],
    [new Map([[cfgx.feature("x"), false]]), undefined], [new Map(), undefined],
  ];
  for (const [answers, wanted] of forms) {
    assert.equal(expression.eval(answers), wanted);
  }
});

test("an expression asks a function of each occurrence once, in order", () => {
  const asked = [];
  cfgx.parse("all(a, any(b), a)").eval((one) => {
    asked.push(`${one} at ${one.start}`);
    return true;
  });
  assert.deepEqual(asked, ["b at 11", "a at 4", "a at 15"]);
});

test("an expression may be used by the function that answers it", () => {
  const expression = cfgx.parse("all(a, not(b))");
  const answer = (one) => cfgx.parse(`not(${one})`).eval([one.key === "b"]);
  assert.equal(expression.eval(answer), true);
});

test("an expression decides", () => {
  const unknown = (ifTrue, ifFalse) => ({ value: undefined, ifTrue, ifFalse });
  const known = (value) => ({ value, ifTrue: undefined, ifFalse: undefined });
  const expression = cfgx.parse("all(a, not(b))");
  assert.deepEqual(expression.predicates.map(String), ["b", "a"]);
  assert.deepEqual(expression.decide([null, undefined]), unknown([false, true], [true, false]));
  assert.deepEqual(expression.decide([false, null]), unknown([false, true], [false, false]));
  assert.deepEqual(expression.decide([true, null]), known(false));
  assert.deepEqual(expression.decide((one) => one.key === "a"), known(true));
});

test("an expression answers by facts", () => {
  const expression = cfgx.parse('all(unix, not(test), feature = "x")');
  assert.deepEqual(expression.predicates.map((one) => one.kind), ["test", "family", "feature"]);
  const facts = ["unix", '?feature = "x"'];
  assert.deepEqual(expression.answers(facts), [undefined, true, undefined]);
  assert.deepEqual(expression.answers(facts, { otherwise: false }), [false, true, undefined]);
  const lines = 'test\r\n\n\r\ntarget_os="linux"';
  assert.deepEqual(expression.answers(lines), [true, false, undefined]);
  assert.deepEqual(expression.answers(new Set()), [undefined, false, undefined]);
});

test("an expression refuses what are no answers", () => {
  const expression = cfgx.parse("all(a, b)");
  const wrong = [
    [[0, 1], "An answer is true, false, null or undefined, and not 0."],
    [["", true], 'An answer is true, false, null or undefined, and not "".'],
    [() => "yes", 'An answer is true, false, null or undefined, and not "yes".'],
    [[true], "The condition has 2 predicates, and there are 1 answers."],
    [[true, true, true], "The condition has 2 predicates, and there are 3 answers."],
    [{ a: true },
     "Answers are a list, a function or a Map, and not an object of the type Object."],
    ["10", 'Answers are a list, a function or a Map, and not "10".'],
    [undefined, "Answers are a list, a function or a Map, and not undefined."],
    [null, "Answers are a list, a function or a Map, and not null."],
    [new Map([["a", true]]), 'A key of a map of answers is a Predicate, and not "a".'],
  ];
  for (const [answers, message] of wrong) {
    for (const call of [(one) => expression.eval(one), (one) => expression.decide(one)]) {
      assert.throws(() => call(answers), { name: "TypeError", message });
    }
  }
});

test("an expression has its text", () => {
  const expression = cfgx.parse("cfg(unix)");
  assert.deepEqual([expression.text, expression.original, `${expression}`],
                   ["cfg(unix)", "unix", "unix"]);
  assert.ok(expression.equals(cfgx.parse("unix")) && !expression.equals(cfgx.parse("unix,")));
  assert.ok(!expression.equals("unix"));
  assert.ok(new cfgx.Expression("unix").equals(expression));
});

test("an expression keeps zero bytes and line feeds of values", () => {
  const [asked] = cfgx.parse('a = "\0\n\ufeff"').predicates;
  assert.equal(asked.value, "\0\n\ufeff");
});

test("an expression may be deep, wide or long", () => {
  const deep = `${"not(".repeat(100000)}a${")".repeat(100000)}`;
  assert.equal(cfgx.parse(deep).eval([true]), true);
  const wide = cfgx.parse(`any(${"a, b, ".repeat(50000)})`);
  assert.equal(wide.predicates.length, 100000);
  assert.equal(wide.eval((one) => (one.key === "b" ? null : false)), undefined);
  const { ifTrue, ifFalse } = wide.decide((one) => (one.key === "b" ? null : false));
  assert.deepEqual([ifTrue.filter(Boolean).length, ifFalse.filter(Boolean).length], [50000, 0]);
  const value = "é".repeat(100000);
  assert.equal(cfgx.parse(`a = "${value}"`).predicates[0].value, value);
});

test("errors of a text tell its fault", () => {
  const error = thrown(() => cfgx.parse("cfg(not(a, b))"));
  assert.ok(error instanceof cfgx.ParseError && error instanceof Error);
  assert.equal(error.name, "ParseError");
  assert.equal(error.message, "not(a, b)\n^^^^^^^^^ not() takes 1 predicate, found 2");
  assert.equal(error.text, "cfg(not(a, b))");
  assert.deepEqual([error.reason, error.members, error.expected], ["invalidNot", 2, []]);
  assert.deepEqual(places(error), [4, 13, 4, 13]);
  assert.match(error.stack, /^ParseError: not\(a, b\)\n/);
});

test("errors of a text tell the terms that are expected", () => {
  const error = thrown(() => cfgx.parse("a b"));
  assert.equal(error.message, "a b\n  ^ expected one of `=`, `,`, `)` here");
  assert.deepEqual([error.reason, error.expected], ["unexpected", ["=", ",", ")"]]);
  error.expected.pop();
  assert.equal(thrown(() => cfgx.parse("a b")).expected.length, 3);
});

test("errors have messages longer than the text", () => {
  const text = `${" ".repeat(500)}a)`;
  const { message } = thrown(() => cfgx.parse(text));
  assert.equal(message, `${text}\n${" ".repeat(501)}^ unopened parens`);
  const long = `a = "${"é".repeat(200)}" b`;
  assert.ok(thrown(() => cfgx.parse(long)).message.startsWith(`${long}\n`));
});

test("errors of a lone surrogate name it", () => {
  const rows = [
    ["\ud800", "U+D800 at 0"], ['a = "\udfff"', "U+DFFF at 5"],
    ['a = "𝄞\ud834"', "U+D834 at 7"], ["\udd1e\ud834", "U+DD1E at 0"],
  ];
  const calls = [
    cfgx.parse, cfgx.check, cfgx.tokens, (text) => cfgx.audit([text], []),
    (text) => cfgx.audit([], [[text]]), (text) => cfgx.parse("a").answers([text]),
  ];
  for (const [text, surrogate] of rows) {
    const message = `A text has the lone surrogate ${surrogate}, which is not UTF-8.`;
    for (const call of calls) {
      assert.throws(() => call(text), { name: "TypeError", message });
    }
  }
  assert.throws(() => cfgx.feature("\ud800"), { name: "TypeError", message: /U\+D800 at 11/ });
});

test("errors of a text that is no string are sentences", () => {
  const rows = [
    [undefined, "undefined"], [null, "null"], [1, "1"],
    [Symbol.iterator, "Symbol(Symbol.iterator)"],
    [new String("a"), "an object of the type String"], [() => "a", "a function"],
    [["a"], "an object of the type Array"], [12n, "12"],
  ];
  for (const [value, told] of rows) {
    for (const call of [cfgx.parse, cfgx.check, cfgx.tokens]) {
      assert.throws(() => call(value), {
        name: "TypeError", message: `A text is a string, and not ${told}.`,
      });
    }
  }
});
