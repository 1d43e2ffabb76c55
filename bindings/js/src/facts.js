/** The facts of targets. */
import { named } from "./text.js";

/** Returns the items of an iterable that is no text. `what` says in an error what they are. */
export function listed(items, what) {
  if (typeof items !== "object" || items === null || !(Symbol.iterator in items)) {
    throw new TypeError(`${what} are a list, and not ${named(items)}.`);
  }
  return [...items];
}

/** Returns the facts of a target: the lines of a text that are not empty, or a list. Only a line
 * feed ends a line, and a carriage return before it. */
export function factsOf(target) {
  if (typeof target !== "string") {
    return listed(target, "The facts of a target");
  }
  const lines = target.split("\n").map((line) => (line.endsWith("\r") ? line.slice(0, -1) : line));
  return lines.filter((line) => line !== "");
}

/** Returns whether a predicate that no fact names may be true, if it does not test the target. */
export function mayBeTrue({ otherwise } = {}) {
  if (otherwise !== undefined && otherwise !== null && otherwise !== false) {
    throw new TypeError(`otherwise is undefined, null or false, and not ${named(otherwise)}.`);
  }
  return otherwise !== false;
}
