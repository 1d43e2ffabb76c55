/** The package: what it exports, its types, its files, and its version. */
import assert from "node:assert/strict";
import { execFileSync } from "node:child_process";
import { mkdtempSync, readFileSync, readdirSync, rmSync, writeFileSync } from "node:fs";
import { tmpdir } from "node:os";
import { join } from "node:path";
import { fileURLToPath } from "node:url";
import { test } from "node:test";
import * as cfgx from "../src/node.js";
import * as errors from "../src/errors.js";
import * as engine from "../src/module.js";
import { needs } from "./needs.js";
import { read } from "./rows.js";

const FOLDER = fileURLToPath(new URL("../", import.meta.url));
const { version } = JSON.parse(read("bindings/js/package.json"));
const HEADER = read("crates/cfgx_c/include/cfgx.h");

/** Returns the numbers of the macros of the header with this prefix, by the rest of their names. */
function numbersOf(prefix) {
  const macros = HEADER.matchAll(new RegExp(`^#define CFGX_${prefix}_(\\w+) (\\d+)`, "gm"));
  return Object.fromEntries([...macros].map(([, name, number]) => [name, Number(number)]));
}

/** Returns words of C in the form of JavaScript. */
function camelCase(words) {
  return words.toLowerCase().replace(/_(\w)/g, (_, letter) => letter.toUpperCase());
}

/** Returns the members of a struct of the header: the bytes at which they stand, and its size. A
 * `size_t` has 8 bytes in the module. */
function layoutOf(name) {
  const [, body] = new RegExp(`^struct cfgx_${name} \\{$(.*?)^\\};$`, "ms").exec(HEADER);
  const layout = {};
  let end = 0;
  for (const [, type, member] of body.matchAll(/^ +(size_t|uint32_t) (\w+);$/gm)) {
    const size = type === "size_t" ? 8 : 4;
    layout[camelCase(member)] = Math.ceil(end / size) * size;
    end = layout[camelCase(member)] + size;
  }
  return { ...layout, size: Math.ceil(end / 8) * 8 };
}

/** Runs a command in a folder, and returns what it prints. */
function run(folder, ...words) {
  return execFileSync(words[0], words.slice(1), { cwd: folder, encoding: "utf8" });
}

test("the package exports what its types declare", () => {
  const declared = [...read("bindings/js/src/index.d.ts")
    .matchAll(/^export (?:class|function) (\w+)/gm)].map(([, name]) => name);
  assert.deepEqual(Object.keys(cfgx).sort(), declared.sort());
});

const withTypes = { skip: needs("tsc", "the types of the package") };
test("the package has types that a program may use", withTypes, () => {
  run(join(FOLDER, "tests", "types"), "tsc", "-p", ".");
});

test("the package has the version of the engine", () => {
  assert.equal(cfgx.version(), version);
  const numbers = ["LANGUAGE", "MAJOR", "MINOR"].map((name) => numbersOf("VERSION")[name]);
  assert.equal(version, numbers.join("."));
});

test("the package knows the numbers and the structs of the header", () => {
  for (const [name, layout] of Object.entries(engine.LAYOUTS)) {
    assert.deepEqual(layout, layoutOf(name));
  }
  assert.deepEqual(Object.keys(engine.LAYOUTS).sort(), ["fault", "predicate", "step", "token"]);
  const unused = ["NONE", "INVALID_CHARACTERS", "UNOPENED_QUOTES", "UNKNOWN_BUILTIN"];
  for (const [name, number] of Object.entries(numbersOf("REASON"))) {
    const wanted = unused.includes(name) ? undefined : camelCase(name);
    assert.equal(errors.REASONS[number], wanted);
  }
  assert.equal(Object.keys(numbersOf("REASON")).length, errors.REASONS.length);
});

test("the package knows the kinds of predicates and tokens", () => {
  const types = read("bindings/js/src/index.d.ts");
  const namesOf = (type) => {
    const [, body] = new RegExp(`^export type ${type} =(.*?);$`, "ms").exec(types);
    return [...body.matchAll(/"(\w+)"/g)].map(([, name]) => name);
  };
  assert.deepEqual(namesOf("Kind"), Object.keys(numbersOf("PREDICATE")).map(camelCase));
  assert.deepEqual(namesOf("TokenKind"), Object.keys(numbersOf("TOKEN")).map(camelCase));
  assert.deepEqual(namesOf("Reason"), errors.REASONS.filter(Boolean));
});

test("the package knows the lists of terms", () => {
  const [, section] = read("docs/RULES.md").split("## The lists of terms");
  const rows = [...section.split("\n## ")[0].matchAll(/^\| (\d+) \| (.*?) \|/gm)];
  assert.equal(rows.length, errors.TERM_LISTS.length - 1);
  for (const [, number, cell] of rows.slice(1, -1)) {
    const found = errors.TERM_LISTS[number].map((term) => `\`${term}\``).join(" ");
    assert.equal(found, cell);
  }
  assert.deepEqual([errors.TERM_LISTS[1], errors.TERM_LISTS[15].length], [[], 9]);
});

test("the package tells what it needs", () => {
  const { engines, exports: entries, license, types } =
    JSON.parse(read("bindings/js/package.json"));
  assert.deepEqual(engines, { node: ">=20" });
  assert.equal(license, "(MIT OR Apache-2.0) AND LicenseRef-cfgx-kit");
  const paths = [types, ...Object.values(entries["."]), entries["./cfgx.wasm"]];
  for (const path of paths) {
    assert.ok(readFileSync(join(FOLDER, path)).length > 0, path);
  }
});

const withNpm = { skip: needs("npm", "what npm makes of the package") };
test("npm packs a file that a program can install", withNpm, () => {
  const folder = mkdtempSync(join(tmpdir(), "cfgx-npm-"));
  try {
    const [packed] = JSON.parse(run(FOLDER, "npm", "pack", "--json", "--offline",
                                    "--pack-destination", folder));
    const sources = readdirSync(join(FOLDER, "src")).map((name) => `src/${name}`);
    const others = ["LICENSE-APACHE", "LICENSE-MIT", "LICENSES/LicenseRef-cfgx-kit.txt", "NOTICE",
                    "README.md", "package.json"];
    assert.deepEqual(packed.files.map(({ path }) => path).sort(), [...others, ...sources].sort());
    writeFileSync(join(folder, "package.json"), '{ "name": "a", "type": "module" }');
    run(folder, "npm", "install", "--offline", "--no-audit", "--no-fund", packed.filename);
    const program = 'import { parse } from "cfgx"; console.log(parse("unix").eval([true]))';
    assert.equal(run(folder, "node", "--input-type=module", "-e", program), "true\n");
    const listed = run(folder, "npm", "ls", "--offline", "--all", "--parseable").trim().split("\n");
    assert.equal(listed.length, 2);
  } finally {
    rmSync(folder, { recursive: true });
  }
});
