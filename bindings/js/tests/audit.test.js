/** The values of conditions on targets, and the table of targets. */
import assert from "node:assert/strict";
import { execFileSync } from "node:child_process";
import { existsSync } from "node:fs";
import { fileURLToPath } from "node:url";
import { test } from "node:test";
import * as cfgx from "../src/node.js";
import { ROOT, read } from "./rows.js";
import { needs } from "./needs.js";

const [yes, no, unknown] = [true, false, undefined];
const LINUX = 'debug_assertions\npanic="unwind"\ntarget_os="linux"\ntarget_thread_local\nunix\n';
const MUSL = "x86_64-unknown-linux-musl";
// What rustc 1.95 prints for this target to Cargo, without `proc_macro`.
const MUSL_FACTS = [
  "debug_assertions", 'panic="unwind"', 'target_abi=""', 'target_arch="x86_64"',
  'target_endian="little"', 'target_env="musl"', 'target_family="unix"', 'target_feature="fxsr"',
  'target_feature="sse"', 'target_feature="sse2"', 'target_has_atomic="16"',
  'target_has_atomic="32"', 'target_has_atomic="64"', 'target_has_atomic="8"',
  'target_has_atomic="ptr"', 'target_os="linux"', 'target_pointer_width="64"',
  'target_vendor="unknown"', "unix",
];
// Prints the values of conditions on all targets, a line for each condition, and all facts.
const IN_PYTHON = `
import cfgx, json, sys
conditions = open(sys.argv[1]).read().splitlines()
facts = [cfgx.target_facts(triple) for triple in cfgx.targets()]
print(json.dumps({"targets": cfgx.targets(), "facts": facts, "version": cfgx.rustc_version(),
    "values": cfgx.audit(conditions, facts),
    "without": cfgx.audit(conditions, facts, otherwise=False)}))
`;

test("audit returns a table", () => {
  const conditions = ["unix", cfgx.parse("cfg(windows)"), 'any(windows, feature = "x")', "test"];
  const targets = [LINUX, ["windows"], ["unix", '?feature = "x"', "test"], []];
  assert.deepEqual(cfgx.audit(conditions, targets), [
    [yes, no, yes, no], [no, yes, no, no], [unknown, yes, unknown, unknown],
    [unknown, unknown, yes, unknown],
  ]);
  const wanted = [
    [yes, no, yes, no], [no, yes, no, no], [no, yes, unknown, no], [no, no, yes, no],
  ];
  const iterated = [new Set(conditions), targets.values()];
  assert.deepEqual(cfgx.audit(...iterated, { otherwise: false }), wanted);
  for (const options of [undefined, {}, { otherwise: undefined }, { otherwise: null }]) {
    assert.deepEqual(cfgx.audit(["test"], [[]], options), [[unknown]]);
  }
});

test("audit returns tables without rows or columns", () => {
  assert.deepEqual(cfgx.audit([], []), []);
  assert.deepEqual(cfgx.audit([], [LINUX]), []);
  assert.deepEqual(cfgx.audit(["unix", "test"], []), [[], []]);
  assert.deepEqual(cfgx.audit(["unix"], ["", []]), [[no, no]]);
});

test("audit takes lines and lists", () => {
  const lines = ['a = "\u2028"', 'b = "\x0b\x1c\x85"'];
  assert.deepEqual(cfgx.audit(lines, [`${lines[0]}\r\n\n\r\n${lines[1]}\n`]), [[yes], [yes]]);
  const facts = ['a = "\0"', 'a = "x\ny"', '?a = "日本𝄞"'];
  const conditions = ['a = "\0"', 'a = "\0\0"', 'a = "x\ny"', 'a = "日本𝄞"', "a"];
  assert.deepEqual(cfgx.audit(conditions, [facts], { otherwise: false }),
                   [[yes], [no], [yes], [unknown], [no]]);
});

test("audit names the first faulty fact", () => {
  const rows = [
    [[["all("]], [0, 0, "all(", 3]],
    [[[], ["unix"], [], ["test", "é"], ["b)"]], [3, 1, "é", 0]],
    [["unix\n\n?all(", ["b)"]], [0, 1, "?all(", 4]],
    [[[], [], ["a", 'b = "𝄞" c']], [2, 1, 'b = "𝄞" c', 9]],
  ];
  for (const [targets, [target, number, fact, start]] of rows) {
    const wanted = { name: "FactError", target, number, fact, start,
                     message: `fact ${number} of target ${target} is faulty: ${fact}` };
    assert.throws(() => cfgx.audit(["unix"], targets), wanted);
    assert.throws(() => cfgx.audit(["all("], targets), wanted);
  }
  const faulty = cfgx.parse("a");
  assert.throws(() => faulty.answers(["b", "é"]), { name: "FactError", target: 0, number: 1 });
});

test("audit throws the error of the first faulty condition", () => {
  assert.throws(() => cfgx.audit(["unix", 'all(a = "é", 8)', "all("], [LINUX]), {
    name: "ParseError", text: 'all(a = "é", 8)', start: 13, byteStart: 14,
  });
  assert.throws(() => cfgx.audit(["unix\0"], []), cfgx.ParseError);
});

test("audit refuses other arguments", () => {
  const rows = [
    [() => cfgx.audit("unix", []), 'Conditions are a list, and not "unix".'],
    [() => cfgx.audit([], "unix"), 'Targets are a list, and not "unix".'],
    [() => cfgx.audit([], [1]), "The facts of a target are a list, and not 1."],
    [() => cfgx.audit([1], []), "A text is a string, and not 1."],
    [() => cfgx.audit([], [[1]]), "A text is a string, and not 1."],
    [() => cfgx.audit([], [], { otherwise: true }),
     "otherwise is undefined, null or false, and not true."],
    [() => cfgx.parse("a").answers([], { otherwise: 0 }),
     "otherwise is undefined, null or false, and not 0."],
  ];
  for (const [call, message] of rows) {
    assert.throws(call, { name: "TypeError", message });
  }
});

test("the table of targets has triples in order", () => {
  const triples = cfgx.targets();
  assert.deepEqual(triples, [...new Set(triples)].sort());
  assert.equal(triples.length, 320);
  triples.pop();
  assert.equal(cfgx.targets().length, 320);
});

test("the table of targets has the facts of a target", () => {
  assert.deepEqual(cfgx.targetFacts(MUSL), MUSL_FACTS);
  cfgx.targetFacts(MUSL).pop();
  assert.deepEqual(cfgx.targetFacts(MUSL), MUSL_FACTS);
});

test("the table of targets has targets without a system", () => {
  const facts = cfgx.targetFacts("thumbv6m-none-eabi");
  const wanted = ['target_os="none"', 'target_env=""', 'target_abi="eabi"', 'panic="abort"'];
  for (const fact of wanted) {
    assert.ok(facts.includes(fact), fact);
  }
  assert.ok(!facts.some((fact) => /^(target_family|unix|windows)/.test(fact)));
});

test("the table of targets refuses other triples", () => {
  for (const [triple, told] of [["x", '"x"'], ["", '""'], [undefined, "undefined"], [1, "1"]]) {
    assert.throws(() => cfgx.targetFacts(triple), {
      name: "TypeError", message: `${told} is no target of rustc 1.95.0.`,
    });
  }
});

test("the table of targets is that of the rustc which pages name", () => {
  const shown = `${cfgx.targets().length} targets of rustc ${cfgx.rustcVersion()}`;
  assert.ok(read("docs/JAVASCRIPT.md").replace(/\s+/g, " ").includes(shown), shown);
});

const library = process.env.CFGX_LIBRARY ??
  fileURLToPath(new URL("out/cfgx/lib/libcfgx.so", ROOT));
const missing = needs("python3", "the values of real conditions beside those in Python") ||
  (existsSync(library) ? false : `there is no ${library}`);

test("real conditions have on each target their values in Python", { skip: missing }, () => {
  const path = fileURLToPath(new URL("bench/conditions.txt", ROOT));
  const environment = {
    ...process.env, CFGX_LIBRARY: library, PYTHONDONTWRITEBYTECODE: "1",
    PYTHONPATH: fileURLToPath(new URL("bindings/python/src", ROOT)),
  };
  const printed = execFileSync("python3", ["-c", IN_PYTHON, path], {
    env: environment, maxBuffer: 1 << 26,
  });
  const wanted = JSON.parse(printed, (_, value) => (value === null ? undefined : value));
  const conditions = read("bench/conditions.txt").trimEnd().split("\n");
  assert.equal(conditions.length, 197);
  assert.deepEqual(cfgx.targets(), wanted.targets);
  const facts = cfgx.targets().map(cfgx.targetFacts);
  assert.deepEqual(facts, wanted.facts);
  assert.equal(cfgx.rustcVersion(), wanted.version);
  assert.deepEqual(cfgx.audit(conditions, facts), inTable(wanted.values));
  assert.deepEqual(cfgx.audit(conditions, facts, { otherwise: false }), inTable(wanted.without));
});

/** Returns a table of JSON, whose unknown values are holes. */
function inTable(rows) {
  return rows.map((row) => Array.from(row));
}
