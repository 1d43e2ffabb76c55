/** What is wrong with a text or a fact. */

/** The reasons by their numbers. No fault has number 0, and no text those left out. */
export const REASONS = [
  undefined, "invalidNot", undefined, "unclosedParens", "unopenedParens", "unclosedQuotes",
  undefined, "empty", "unexpected", "invalidInteger", "multipleRootPredicates",
  "invalidHasAtomic", undefined,
];

/** The lists of terms by their numbers. No fault but `unexpected` has one, and these from 1 on. */
export const TERM_LISTS = [
  [],
  [],
  ["<key>", "all", "any", "not"],
  ["<key>", ")", "all", "any", "not"],
  [")", "<key>"],
  ["=", ",", ")"],
  ['"'],
  [",", ")"],
  ["("],
  [")", ","],
  ['"<value>"'],
  ['= "<feature_name>"'],
  ['= "<panic_strategy>"'],
  ['= "<target_cfg_value>"'],
  ["<feature>"],
  [
    "target_arch", "target_feature", "target_os", "target_family", "target_env",
    "target_endian", "target_has_atomic", "target_pointer_width", "target_vendor",
  ],
];

/** A text that is no condition. */
export class ParseError extends Error {
  /** `fault` is the fault of the text, and `message` what the program cfgx prints of it. */
  constructor(text, message, fault) {
    super(message);
    this.text = text;
    Object.assign(this, fault);
  }
}

/** A fact that is no condition. */
export class FactError extends Error {
  /** The fact has this number among those of the target with this number. */
  constructor(target, number, fact, fault) {
    super(`fact ${number} of target ${target} is faulty: ${fact}`);
    this.target = target;
    this.number = number;
    this.fact = fact;
    Object.assign(this, fault);
  }
}

/** A call needs more memory than there is. */
export class OutOfMemoryError extends RangeError {
  constructor() {
    super("cfgx got no memory");
  }
}

for (const kind of [ParseError, FactError, OutOfMemoryError]) {
  Object.defineProperty(kind.prototype, "name", {
    value: kind.name, configurable: true, writable: true,
  });
}
