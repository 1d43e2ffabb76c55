/** Switches of three positions, which decide what a target leaves unknown. */
import { byId, element } from "./dom.js";

const list = byId("switches");
const POSITIONS = [["on", true], ["off", false], ["unknown", undefined]];
// The most switches that are drawn.
const MOST = 80;

/** What the switches say, by the texts of predicates. Those that are unknown are not in it. */
export const decided = new Map();

// The elements of the switches that are shown, by the texts of their predicates.
let shown = new Map();
let count = 0;

/** Returns the button of a position. */
function positionOf(name, text, [word, answer]) {
  const input = element("input", { type: "radio", name, value: word });
  input.addEventListener("change", () => {
    answer === undefined ? decided.delete(text) : decided.set(text, answer);
  });
  return element("label", {}, input, element("span", {}, word));
}

/** Returns the element of a switch. */
function switchOf(text) {
  count += 1;
  const positions = POSITIONS.map((position) => positionOf(`switch-${count}`, text, position));
  return element("fieldset", { class: "switch" }, element("legend", {}, text),
                 element("div", { class: "positions" }, ...positions));
}

/** Shows a switch for each predicate, by its text. Those that stay keep their elements. */
export function show(texts) {
  const drawn = texts.slice(0, MOST);
  const made = new Map(drawn.map((text) => [text, shown.get(text) ?? switchOf(text)]));
  const before = [...shown.keys()];
  if (before.length !== drawn.length || drawn.some((text, at) => text !== before[at])) {
    list.replaceChildren(...made.values());
  }
  shown = made;
  for (const [text, one] of shown) {
    const position = POSITIONS.findIndex(([, answer]) => answer === decided.get(text));
    one.querySelectorAll("input")[position].checked = true;
  }
  byId("no-switches").hidden = texts.length > 0;
  byId("more-switches").hidden = texts.length <= MOST;
}

/** Returns what the switches that are shown say, by the texts of their predicates. */
export function shownPositions() {
  return [...shown.keys()].filter((text) => decided.has(text))
    .map((text) => [text, decided.get(text)]);
}

/** Calls back after each change. */
export function start(change) {
  list.addEventListener("change", change);
}
