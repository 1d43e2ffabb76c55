/** Answers and values, and the numbers that stand for them. */
import { Predicate } from "./predicate.js";
import { named } from "./text.js";

/** The numbers of answers and values. */
export const FALSE = 0;
export const TRUE = 1;
export const UNKNOWN = 2;
const VALUES = [false, true, undefined];

/** Returns the value that a number stands for. */
export function valueOf(number) {
  return VALUES[number];
}

/** Returns the number of an answer. What only counts as one, such as 0, is none. */
function numberOf(answer) {
  const number = answer === null ? UNKNOWN : VALUES.indexOf(answer);
  if (number < 0) {
    throw new TypeError(
      `An answer is true, false, null or undefined, and not ${named(answer)}.`,
    );
  }
  return number;
}

/** Returns the function from a predicate to its answer in a map. */
function answering(map) {
  const known = new Map();
  for (const [asked, answer] of map) {
    if (!(asked instanceof Predicate)) {
      throw new TypeError(`A key of a map of answers is a Predicate, and not ${named(asked)}.`);
    }
    known.set(String(asked), answer);
  }
  return (predicate) => known.get(String(predicate));
}

/** Returns the numbers of the answers to some predicates. */
export function numbersOf(answers, predicates) {
  let given;
  if (answers instanceof Map) {
    given = predicates.map(answering(answers));
  } else if (typeof answers === "function") {
    given = predicates.map((predicate) => answers(predicate));
  } else if (typeof answers === "object" && answers !== null && Symbol.iterator in answers) {
    given = [...answers];
  } else {
    throw new TypeError(`Answers are a list, a function or a Map, and not ${named(answers)}.`);
  }
  if (given.length !== predicates.length) {
    throw new TypeError(
      `The condition has ${predicates.length} predicates, and there are ${given.length} answers.`,
    );
  }
  return Uint8Array.from(given, numberOf);
}
