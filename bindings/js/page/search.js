/** The values that a condition can have if equal predicates have equal answers. The engine answers
 * each occurrence of a predicate by itself, so a condition that is unknown to it may have one value
 * with all answers. Its two fillings are tried first. If they give equal predicates different
 * answers, predicates that stand several times are set one after another. */
import { FALSE, TRUE, UNKNOWN, valueOf } from "../src/answers.js";
import * as engine from "../src/module.js";
import { utf8Of } from "../src/text.js";

// What a try takes, beside a unit for each step and each predicate.
const TRY = 60;
// How many answers are left out, of those that a value may not need.
const MOST_LEFT_OUT = 16;

/** What searches may yet spend. */
export class Budget {
  constructor(left) {
    this.left = left;
  }

  /** Takes a cost, and returns whether there was so much. */
  spend(cost) {
    this.left -= cost;
    return this.left >= 0;
  }
}

/** Returns the places of each predicate that is unknown among the predicates, by its text. The
 * first one in the condition comes first. */
function openPlaces({ predicates, texts }, numbers) {
  const places = new Map();
  const open = texts.map((_, at) => at).filter((at) => numbers[at] === UNKNOWN);
  for (const at of open.sort((one, other) => predicates[one].start - predicates[other].start)) {
    if (!places.get(texts[at])?.push(at)) {
      places.set(texts[at], [at]);
    }
  }
  return places;
}

/** Searches for answers with which a condition is true, and with which it is false. */
class Search {
  #condition;
  #steps;
  #known;
  #places;
  #repeated;
  #budget;
  #cost;
  found = new Map();
  isWhole = true;

  constructor(condition, numbers, budget) {
    this.#condition = condition;
    this.#steps = engine.bytesOfSteps(condition.steps);
    this.#known = Uint8Array.from(numbers);
    this.#places = openPlaces(condition, numbers);
    this.#repeated = [...this.#places.values()].filter((where) => where.length > 1);
    this.#budget = budget;
    this.#cost = TRY + 2 * condition.steps.length;
  }

  /** Tries answers to the repeated predicates from this one on. */
  explore(at) {
    if (this.found.size === 2) {
      return;
    }
    // The first try may take what is not there: without it nothing would be known.
    if (!this.#budget.spend(this.#cost) && at > 0) {
      this.isWhole = false;
      return;
    }
    const value = engine.apply(this.#steps, this.#known);
    if (value !== UNKNOWN) {
      this.#keep(value, this.#known);
      return;
    }
    this.#tryFillings();
    if (at < this.#repeated.length) {
      this.#split(at);
    }
  }

  /** Tries both answers to a repeated predicate. */
  #split(at) {
    for (const answer of [FALSE, TRUE]) {
      put(this.#known, this.#repeated[at], answer);
      this.explore(at + 1);
    }
    put(this.#known, this.#repeated[at], UNKNOWN);
  }

  /** Keeps the fillings of the engine that give equal predicates equal answers. */
  #tryFillings() {
    const both = engine.fillings(utf8Of(this.#condition.text), this.#known);
    [TRUE, FALSE].forEach((value, at) => {
      const isEqual = (where) => where.every((place) => both[at][place] === both[at][where[0]]);
      if (this.#repeated.every(isEqual)) {
        this.#keep(value, both[at]);
      }
    });
  }

  /** Keeps the first answers that lead to a value. Those that are unknown do not matter. */
  #keep(value, numbers) {
    if (this.found.has(value)) {
      return;
    }
    const known = Uint8Array.from(numbers);
    for (const places of [...this.#places.values()].slice(0, MOST_LEFT_OUT)) {
      this.#leaveOut(places, value, known);
    }
    const answers = [...this.#places].map(([text, [place]]) => [text, valueOf(known[place])]);
    this.found.set(value, new Map(answers));
  }

  /** Leaves out the answer to a predicate if a value stays without it. */
  #leaveOut(places, value, known) {
    const before = known[places[0]];
    put(known, places, UNKNOWN);
    if (!this.#budget.spend(this.#cost) || engine.apply(this.#steps, known) !== value) {
      put(known, places, before);
    }
  }
}

/** Puts an answer at some places. */
function put(numbers, places, answer) {
  for (const place of places) {
    numbers[place] = answer;
  }
}

/** Returns the values that a condition can have over the numbers of the answers to its predicates.
 * `canBe` has for each value, by its number, answers to the unknown predicates that lead there;
 * `isWhole` says whether no other value is possible. */
export function search(condition, numbers, budget) {
  const one = new Search(condition, numbers, budget);
  one.explore(0);
  return { canBe: one.found, isWhole: one.isWhole };
}

/** Returns the number of the value that was found: unknown if both are possible, or if not all was
 * tried. */
export function settled({ canBe, isWhole }) {
  return isWhole && canBe.size === 1 ? [...canBe.keys()][0] : UNKNOWN;
}
