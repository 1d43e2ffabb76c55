/** The targets of a compiler, from a table in the package. */
import { TABLE } from "./targets_table.js";
import { named } from "./text.js";

// What stands in a cell without a value, and the values that rustc prints then.
const ABSENT = "-";
const EMPTY = { target_os: "none", target_abi: "", target_env: "" };
// The families that rustc also prints by themselves.
const FLAGS = ["unix", "windows"];

const [head, columns, ...lines] = TABLE.trimEnd().split("\n").map((line) => line.split("\t"));
const keys = columns.slice(1);
const rows = new Map(lines.map(([triple, ...cells]) => [triple, cells]));

/** Returns the version of the rustc that has these targets. */
export function rustcVersion() {
  return /^# Targets of rustc (\S+), /.exec(head[0])[1];
}

/** Returns the triples of all targets, in order. */
export function targets() {
  return [...rows.keys()];
}

/** Returns the facts of a target. */
export function targetFacts(triple) {
  const cells = rows.get(triple);
  if (cells === undefined) {
    throw new TypeError(`${named(triple)} is no target of rustc ${rustcVersion()}.`);
  }
  return cells.flatMap((cell, at) => factsIn(keys[at], cell)).sort();
}

/** Returns the lines that rustc prints for the cell in the column of a key. */
function factsIn(key, cell) {
  if (key === "debug_assertions") {
    return cell === "yes" ? [key] : [];
  }
  const isEmpty = cell === ABSENT;
  const values = isEmpty ? [EMPTY[key]].filter((value) => value !== undefined) : cell.split(" ");
  const flags = key === "target_family" ? FLAGS.filter((flag) => values.includes(flag)) : [];
  return [...values.map((value) => `${key}="${value}"`), ...flags];
}
