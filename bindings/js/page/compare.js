/** Two conditions beside each other: where they differ, and whether one implies the other. */
import { TRUE } from "../src/answers.js";
import { joined } from "./conditions.js";
import { byId, code, element } from "./dom.js";
import { countsOf } from "./picture.js";
import { Budget } from "./search.js";
import { TRIPLES, Values, decidedOf } from "./values.js";
import { answersInWords, counted } from "./words.js";

// What each of the searches of a comparison may spend.
const BUDGET = 500_000;
const NO_SWITCHES = new Map();

const choices = [byId("first"), byId("second")];
const result = byId("comparison");

// Where one condition is true and the other is not, and where their values differ.
const without = (one, other) => `all(${one}, not(${other}))`;
const apart = (one, other) => `any(${without(one, other)}, ${without(other, one)})`;

/** Returns a target and answers with which one condition is true and the other is not. There may be
 * none, or none that was found. */
function counterexample(one, other) {
  const values = new Values(joined(without, one, other), NO_SWITCHES, new Budget(BUDGET));
  for (const target of TRIPLES.keys()) {
    const answers = values.at(target).canBe.get(TRUE);
    if (answers !== undefined) {
      return { target, answers, isWhole: true };
    }
  }
  return { isWhole: values.isWhole };
}

/** Returns on how many targets one condition is true and the other is not, as the switches stand,
 * and on how many that is unknown. If they say nothing of both conditions, returns `undefined`. */
function broken(one, other, decided) {
  if (![one, other].some(({ distinct }) => distinct.some((text) => decided.has(text)))) {
    return undefined;
  }
  const values = new Values(joined(without, one, other), decided, new Budget(BUDGET));
  const [, count, open] = countsOf(values.numbers);
  return { count, open };
}

/** Returns whether one condition implies another: always, and as the switches stand. */
function direction(one, other, decided) {
  return { always: counterexample(one, other), now: broken(one, other, decided) };
}

// The last comparison, of what it was, and the one that is drawn.
let last = {};
let drawn;

/** Returns the comparison of two conditions, with what the switches say. */
export function compared(one, other, decided) {
  const key = [one, other].map((each) => decidedOf(each, decided)).join(" ");
  if (last.one !== one || last.other !== other || last.key !== key) {
    last = {
      one, other, key,
      forth: direction(one, other, decided),
      back: direction(other, one, decided),
      values: new Values(joined(apart, one, other), decided, new Budget(BUDGET)),
    };
  }
  return last;
}

/** Returns whether one condition implies another on every target, whatever the switches say. */
function isAlways({ always: { target, isWhole } }) {
  return target === undefined && isWhole;
}

/** Returns the sentence on how one condition implies another as the switches stand. */
function nowInWords({ count, open }) {
  const on = (number, words) => (number > 0 ? [`${words}on ${counted(number, "target")}`] : []);
  const parts = [...on(count, "not "), ...on(open, "unknown ")];
  return ` As the switches stand: ${parts.join(", and ") || "on every target"}.`;
}

/** Returns the sentences that say whether one condition implies another. */
function implication(one, other, found) {
  const start = [element("b", {}, `Where ${one} is true, ${other} is true too`), ": "];
  if (isAlways(found)) {
    return element("li", {}, ...start, "on every target, whatever the switches say.");
  }
  const { always: { target, answers }, now } = found;
  const end = now ? nowInWords(now) : "";
  if (target === undefined) {
    const untried = "not tried out, since there are too many ways to set the switches.";
    return element("li", {}, ...start, untried, end);
  }
  const triple = TRIPLES[target];
  const place = element("button", { type: "button", class: "link", "data-triple": triple },
                        code(triple));
  const filling = answersInWords(answers);
  return element("li", {}, ...start, "not on every target. On ", place,
                 ...(filling ? [", with ", code(filling)] : []),
                 `, ${one} is yes and ${other} is no.`, end);
}

/** Returns the sentence that says on how many targets two conditions differ. */
function differences(values) {
  const [same, differ, may] = countsOf(values.numbers);
  const start = `Different on ${counted(differ, "target")}`;
  return may > 0 ? `${start}, the same on ${same}, and on ${may} as the switches say.` :
    `${start}, and the same on ${same}.`;
}

/** Returns the numbers of the two conditions that are chosen. */
export function chosen() {
  return choices.map((choice) => Number(choice.value));
}

/** Offers the conditions for comparison, and returns the numbers of both that are compared: the
 * wanted ones if they are there, or else the first two. Without two conditions, nothing is compared
 * and nothing stays of what was. */
export function offer(conditions, wanted) {
  const isEnough = conditions.length > 1;
  byId("compare-few").hidden = isEnough;
  byId("compare-many").hidden = !isEnough;
  if (!isEnough) {
    [...choices, result].forEach((one) => one.replaceChildren());
    drawn = undefined;
    return undefined;
  }
  const numbers = wanted?.every((at) => conditions[at] !== undefined) ? wanted : [0, 1];
  const names = conditions.map((one) => `${one.line + 1}: ${one.inner}`);
  choices.forEach((choice, at) => {
    if (names.join("\n") !== [...choice.options].map(({ text }) => text).join("\n")) {
      choice.replaceChildren(...names.map((name, place) => (
        element("option", { value: String(place) }, name)
      )));
    }
    choice.value = String(numbers[at]);
  });
  return numbers;
}

/** Shows a comparison of two conditions, which are named by their lines. One that is shown already
 * stays, so that it is not read out again. */
export function showComparison([first, second], comparison) {
  if (drawn === comparison) {
    return;
  }
  drawn = comparison;
  const { forth, back, values } = comparison;
  const [one, other] = [first.line + 1, second.line + 1];
  const items = isAlways(forth) && isAlways(back) ?
    [element("li", {}, element("b", {}, `${one} and ${other} are equal`),
             ": on every target, whatever the switches say.")] :
    [implication(one, other, forth), implication(other, one, back)];
  result.replaceChildren(element("li", {}, differences(values)), ...items);
}

/** Calls back after each choice, and with the triple of a target that is chosen. */
export function start(change, choose) {
  result.addEventListener("click", ({ target }) => {
    const link = target.closest("[data-triple]");
    if (link !== null) {
      choose(link.dataset.triple);
    }
  });
  choices.forEach((choice) => choice.addEventListener("change", change));
  byId("differences").addEventListener("click", () => {
    const button = byId("differences");
    const isPressed = button.getAttribute("aria-pressed") !== "true";
    button.setAttribute("aria-pressed", String(isPressed));
    change();
  });
}

/** Returns whether the picture shall show where two conditions differ. */
export function isShown() {
  return byId("differences").getAttribute("aria-pressed") === "true";
}

/** Sets whether the picture shall show where two conditions differ. */
export function setShown(isPressed) {
  byId("differences").setAttribute("aria-pressed", String(isPressed));
}
