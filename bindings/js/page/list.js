/** The list of conditions, with the counts of their values. */
import { byId, code, element, setAttribute, setText } from "./dom.js";
import { countsOf } from "./picture.js";
import { NAMES } from "./words.js";

const list = byId("list");
// The order of values in counts and in bars.
const ORDER = [1, 2, 0];

/** Returns the element of a condition. */
function rowOf() {
  const bar = element("span", { class: "bar", "aria-hidden": "true" },
                      ...ORDER.map((value) => element("i", { "data-value": String(value) })));
  return element("li", {}, element("button", { type: "button" },
                                   element("span", { class: "number" }), code(""), bar,
                                   element("span", { class: "counts" })));
}

/** Shows a condition and the numbers of its values, or that it is faulty. */
function fill(item, condition, numbers, isSelected) {
  const [button] = item.children;
  const [number, text, bar, told] = button.children;
  setText(number, String(condition.line + 1));
  setText(text, condition.expression ? condition.inner : condition.text);
  setAttribute(button, "aria-current", isSelected ? "true" : undefined);
  setAttribute(button, "data-faulty", condition.fault ? "" : undefined);
  button.dataset.line = String(condition.line);
  const counts = numbers && !condition.fault ? countsOf(numbers) : [0, 0, 0];
  [...bar.children].forEach((part) => {
    part.style.flexGrow = String(counts[part.dataset.value]);
  });
  const words = ORDER.map((value) => `${counts[value]} ${NAMES[value]}`).join(" \u00b7 ");
  setText(told, condition.fault ? "is faulty" : words);
}

/** Shows all conditions, of which `numbersOf` returns the numbers of the values. */
export function show(conditions, numbersOf, selected) {
  while (list.children.length > conditions.length) {
    list.lastElementChild.remove();
  }
  while (list.children.length < conditions.length) {
    list.append(rowOf());
  }
  conditions.forEach((one, at) => {
    fill(list.children[at], one, numbersOf(one), one === selected);
  });
}

/** Calls back with the line of the condition that is chosen. */
export function start(choose) {
  list.addEventListener("click", (event) => {
    const row = event.target.closest("button");
    if (row !== null) {
      choose(Number(row.dataset.line));
    }
  });
}
