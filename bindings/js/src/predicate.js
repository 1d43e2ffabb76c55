/** Predicates, as the engine describes them. */
import { decoded, spanOf } from "./text.js";

/** The kinds by their numbers, each with its key if it has one. */
const KINDS = [
  undefined,
  ["flag"],
  ["keyValue"],
  ["test", "test"],
  ["debugAssertions", "debug_assertions"],
  ["procMacro", "proc_macro"],
  ["feature", "feature"],
  ["targetFeature", "target_feature"],
  ["abi", "target_abi"],
  ["arch", "target_arch"],
  ["endian", "target_endian"],
  ["env", "target_env"],
  ["family", "target_family"],
  ["hasAtomic", "target_has_atomic"],
  ["os", "target_os"],
  ["panic", "panic"],
  ["pointerWidth", "target_pointer_width"],
  ["vendor", "target_vendor"],
];
// The values that stand for numbers: of byte orders, and of the width of a pointer.
const ENDIANS = ["big", "little"];
const ATOMIC_POINTER = 65536;
const MAKING = Symbol("what makes a predicate");

/** A predicate that a text asks. It never changes. */
export class Predicate {
  constructor(making, members) {
    if (making !== MAKING) {
      throw new TypeError("A predicate is made by parse, or by a function such as feature.");
    }
    Object.freeze(Object.assign(this, members));
  }

  equals(other) {
    return other instanceof Predicate && this.kind === other.kind && this.key === other.key &&
      this.value === other.value;
  }

  toString() {
    return this.value === undefined ? this.key : `${this.key} = "${this.value}"`;
  }
}

/** Returns the value that stands for a number, or `undefined` if the kind has none. */
function numberedValue(kind, number) {
  if (kind === "endian") {
    return ENDIANS[number];
  }
  if (kind !== "hasAtomic" && kind !== "pointerWidth") {
    return undefined;
  }
  return number === ATOMIC_POINTER ? "ptr" : String(number);
}

/** Returns the predicate that the engine describes in the bytes of a text. `units` is what
 * `unitsIn` returns. */
export function predicateOf(bytes, units, one) {
  const [kind, key = decoded(bytes, one.keyStart, one.keyEnd)] = KINDS[one.kind];
  const value = one.valueEnd > 0 ? decoded(bytes, one.valueStart, one.valueEnd) :
    numberedValue(kind, one.number);
  return new Predicate(MAKING, { kind, key, value, ...spanOf(units, one.start, one.end) });
}
