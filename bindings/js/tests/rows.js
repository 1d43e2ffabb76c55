/** The recorded rows of crates/cfgx_vectors/data, whose README states their format. */
import assert from "node:assert/strict";
import { readFileSync, readdirSync } from "node:fs";

export const ROOT = new URL("../../../", import.meta.url);
const DATA = new URL("crates/cfgx_vectors/data/", ROOT);
const ESCAPES = { n: "\n", t: "\t", r: "\r", 0: "\0", "\\": "\\", e: "" };
const HEAD = /^\[(.*): (\d+) rows?\]$/;

/** Returns the text of a file of the repository. */
export function read(path) {
  return readFileSync(new URL(path, ROOT), "utf8");
}

/** Returns the text that a field stands for. */
export function unescaped(field) {
  return field
    .replace(/~(.*?)~(\d+)~/gs, (_, piece, count) => piece.repeat(Number(count)))
    .replace(/\\u\{(\w+)\}/g, (_, code) => String.fromCodePoint(Number.parseInt(code, 16)))
    .replace(/\\(.)/gs, (_, escape) => {
      assert.ok(escape in ESCAPES, escape);
      return ESCAPES[escape];
    });
}

/** Returns the fields of the rows below the head of a table, whose columns the next line names. */
function rowsBelow(lines, head) {
  const next = lines.findIndex((line, at) => at > head && HEAD.test(line));
  return lines.slice(head + 2, next < 0 ? undefined : next)
    .filter((line) => line !== "" && !line.startsWith("# "))
    .map((line) => line.split(" | "));
}

/** Returns the tables in lines: the name of the check of each, and its rows. Fails at a table that
 * has other rows than its head counts. */
export function tablesIn(lines) {
  return lines.flatMap((line, at) => {
    const head = HEAD.exec(line);
    if (head === null) {
      return [];
    }
    const rows = rowsBelow(lines, at);
    assert.equal(rows.length, Number(head[2]), head[0]);
    return [{ check: head[1], rows }];
  });
}

/** Returns the tables of all files. */
export function tables() {
  const names = readdirSync(DATA).filter((name) => name.endsWith(".txt")).sort();
  return names.flatMap((name) => tablesIn(readFileSync(new URL(name, DATA), "utf8").split("\n")));
}

/** Returns the fields of the rows with these checks. Fails if one of them has no row. */
export function rowsOf(...checks) {
  const found = tables().filter(({ check }) => checks.includes(check));
  assert.deepEqual(new Set(found.map(({ check }) => check)), new Set(checks));
  return found.flatMap(({ rows }) => rows);
}

/** Returns the text, the status and the output of each row of the Rust crate. */
export function rustCrate() {
  const lines = readFileSync(new URL("rust_crate.tsv", DATA), "utf8").split("\n");
  return lines.map((line) => line.split("\t")).filter((fields) => fields.length === 3)
    .map(([text, status, output]) => (
      { text: unescaped(text), status: Number(status), output: unescaped(output) }
    ));
}

/** Returns the targets of the table that rustc gave, each with its cells by the names of columns.
 */
export function targetRows() {
  const [, columns, ...rows] = read("bindings/targets/targets.tsv").trimEnd().split("\n")
    .map((line) => line.split("\t"));
  return rows.map((cells) => Object.fromEntries(columns.map((name, at) => [name, cells[at]])));
}

/** Returns whether a target has a family. */
export function hasFamily(target, family) {
  return target.target_family.split(" ").includes(family);
}
