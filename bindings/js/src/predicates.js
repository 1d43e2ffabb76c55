/** Functions that make predicates. */
import { ParseError } from "./errors.js";
import { parse } from "./expression.js";
import { named } from "./text.js";

/** Returns the predicate with a key and perhaps a value. Throws a `TypeError` if no text asks
 * it. */
function made(kind, key, value) {
  for (const part of value === undefined ? [key] : [key, value]) {
    if (typeof part !== "string") {
      throw new TypeError(`A key and a value are strings, and not ${named(part)}.`);
    }
  }
  const text = value === undefined ? key : `${key} = "${value}"`;
  const [asked, ...others] = askedBy(text);
  const isWanted = asked && others.length === 0 && asked.kind === kind && asked.key === key &&
    asked.value === value;
  if (!isWanted) {
    throw new TypeError(`No text asks the predicate ${text} of the kind ${kind}.`);
  }
  return asked;
}

/** Returns the predicates that a text asks, and none for a faulty text. */
function askedBy(text) {
  try {
    return parse(text).predicates;
  } catch (error) {
    if (error instanceof ParseError) {
      return [];
    }
    throw error;
  }
}

/** Returns the function that makes the predicate of a kind with values. */
function valued(kind, key) {
  return (value) => {
    if (value === undefined) {
      throw new TypeError(`The key ${key} needs a value, which is a string.`);
    }
    return made(kind, key, value);
  };
}

export const flag = (key) => made("flag", key);
export const keyValue = (key, value) => valued("keyValue", key)(value);
export const test = () => made("test", "test");
export const debugAssertions = () => made("debugAssertions", "debug_assertions");
export const procMacro = () => made("procMacro", "proc_macro");
export const feature = valued("feature", "feature");
export const targetFeature = valued("targetFeature", "target_feature");
export const targetAbi = valued("abi", "target_abi");
export const targetArch = valued("arch", "target_arch");
export const targetEndian = valued("endian", "target_endian");
export const targetEnv = valued("env", "target_env");
export const targetFamily = valued("family", "target_family");
export const targetHasAtomic = valued("hasAtomic", "target_has_atomic");
export const targetOs = valued("os", "target_os");
export const panic = valued("panic", "panic");
export const targetPointerWidth = valued("pointerWidth", "target_pointer_width");
export const targetVendor = valued("vendor", "target_vendor");
