/** The picture of all targets: a cell for each, grouped by system and, in it, by processor. */
import { byId, element, setAttribute, setText } from "./dom.js";
import { FACTS, TRIPLES } from "./values.js";

const picture = byId("cells");
const MOVES = { ArrowRight: 1, ArrowLeft: -1 };

/** Returns the value of a key in the facts of a target. */
export function factOf(target, key) {
  const fact = FACTS[target].find((one) => one.startsWith(`${key}="`));
  return fact?.slice(key.length + 2, -1) ?? "";
}

/** Returns the numbers of targets in groups, by their names. */
function grouped(numbers, key) {
  const groups = new Map();
  for (const target of numbers) {
    const name = factOf(target, key);
    groups.get(name)?.push(target) ?? groups.set(name, [target]);
  }
  return [...groups];
}

/** Returns the cell of a target, which is a button. */
function cellOf(target) {
  const triple = TRIPLES[target];
  return element("button", { type: "button", class: "cell", tabindex: "-1", title: triple,
                             "data-triple": triple });
}

/** Returns the element of the targets of a processor. */
function processorOf([name, numbers]) {
  const cells = element("div", { class: "cells" }, ...numbers.map((target) => CELLS[target]));
  return element("div", { class: "processor", role: "group", "aria-label": name },
                 element("div", { class: "label", "aria-hidden": "true" }, name), cells);
}

/** Returns the element of the targets of a system, with its counts. */
function systemOf([name, numbers]) {
  const title = name === "none" ? "none (bare metal)" : name;
  const counts = [1, 2, 0].map((value) => (
    element("span", { class: "count", "data-value": String(value) })
  ));
  const id = `system-${name}`;
  const head = element("header", {}, element("h3", { id }, title),
                       element("p", { class: "counts", "aria-hidden": "true" }, ...counts));
  const body = element("div", { class: "processors" }, ...grouped(numbers, "target_arch")
    .map(processorOf));
  const attributes = { class: "system", role: "group" };
  const made = element("section", attributes, head, body);
  setAttribute(made, "data-small", numbers.length < 3 ? "" : undefined);
  return { made, name: title, numbers, counts };
}

const CELLS = TRIPLES.map((_, target) => cellOf(target));
const systems = grouped(TRIPLES.keys(), "target_os")
  .sort(([one, of], [other, others]) => others.length - of.length || (one < other ? -1 : 1))
  .map(systemOf);
// The targets in the order in which they are seen.
const order = [];
let current = 0;

/** Returns how many of some numbers each value has. */
export function countsOf(values) {
  const counts = [0, 0, 0];
  for (const value of values) {
    counts[value] += 1;
  }
  return counts;
}

/** Shows that there are no values. */
function drawNone() {
  CELLS.forEach((cell, target) => {
    setAttribute(cell, "data-value", undefined);
    cell.setAttribute("aria-label", TRIPLES[target]);
  });
  for (const { made, name, counts } of systems) {
    counts.forEach((one) => setText(one, ""));
    setAttribute(made, "aria-label", name);
  }
}

/** Shows values, by the numbers of targets, whose names are given; or that there are none. */
export function drawValues(numbers, names) {
  if (numbers === undefined) {
    drawNone();
    return;
  }
  CELLS.forEach((cell, target) => {
    const value = String(numbers[target]);
    if (cell.dataset.value !== value || cell.names !== names) {
      cell.dataset.value = value;
      cell.names = names;
      cell.setAttribute("aria-label", `${TRIPLES[target]}: ${names[value]}`);
    }
  });
  for (const { made, name, numbers: own, counts } of systems) {
    const found = countsOf(own.map((target) => numbers[target]));
    for (const one of counts) {
      setText(one, String(found[one.dataset.value]));
      setAttribute(one, "data-none", found[one.dataset.value] === 0 ? "" : undefined);
    }
    const told = [1, 0, 2].map((value) => `${found[value]} ${names[value]}`).join(", ");
    setAttribute(made, "aria-label", `${name}: ${told}`);
  }
}

/** Marks the cell of a target. */
export function select(target) {
  CELLS[current].tabIndex = -1;
  CELLS[current].removeAttribute("aria-current");
  current = target ?? current;
  CELLS[current].tabIndex = 0;
  if (target !== undefined) {
    CELLS[current].setAttribute("aria-current", "true");
  }
}

/** Puts the focus on the cell of a target. */
export function focus(target) {
  CELLS[target].focus();
}

/** Returns the cell nearest to another one, in the row above it (-1) or below it (1). */
function cellBeside(cell, direction) {
  const from = cell.getBoundingClientRect();
  const others = order.map((target) => ({ target, box: CELLS[target].getBoundingClientRect() }))
    .filter(({ box }) => (box.top - from.top) * direction > from.height / 2);
  const distance = ({ box: { top, left } }) => (
    Math.abs(top - from.top) * 1000 + Math.abs(left - from.left)
  );
  const [first, ...rest] = others;
  return rest.reduce((best, one) => (distance(one) < distance(best) ? one : best), first)?.target;
}

/** Returns the target to which a key leads from another one, or `undefined`. */
function reached(key, from) {
  const place = order.indexOf(from);
  if (key in MOVES) {
    return order[place + MOVES[key]];
  }
  return { ArrowDown: () => cellBeside(CELLS[from], 1), ArrowUp: () => cellBeside(CELLS[from], -1),
           Home: () => order[0], End: () => order.at(-1) }[key]?.();
}

/** Puts the picture on the page. Calls back with the number of the target that is chosen, and with
 * `true` if it is opened, by a click or by Enter. */
export function start(choose) {
  picture.replaceChildren(...systems.map(({ made }) => made));
  order.push(...[...picture.querySelectorAll(".cell")].map((cell) => CELLS.indexOf(cell)));
  [current] = order;
  picture.addEventListener("click", (event) => {
    const cell = event.target.closest(".cell");
    if (cell !== null) {
      choose(CELLS.indexOf(cell), true);
    }
  });
  picture.addEventListener("keydown", (event) => {
    const from = CELLS.indexOf(event.target);
    const target = from < 0 ? undefined : reached(event.key, from);
    if (target !== undefined) {
      event.preventDefault();
      choose(target);
      CELLS[target].focus();
    }
  });
}
