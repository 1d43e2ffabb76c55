/** What is known of a target, and why a condition has its value there. */
import { UNKNOWN } from "../src/answers.js";
import { byId, code, element, setText, sign } from "./dom.js";
import { factOf } from "./picture.js";
import { treeOf } from "./tree.js";
import { FACTS, TRIPLES } from "./values.js";
import { NAMES, counted } from "./words.js";

const panel = byId("why");
// The most nodes of a tree that are drawn.
const MOST_NODES = 300;
// What a filling says of a predicate whose value does not matter.
const EITHER = "either";

/** Returns a paragraph that says something by the way. */
function hint(text) {
  return element("p", { class: "hint" }, text);
}

/** Returns the item of a list for a node and those below it, as many as `left` says. */
function itemOf(node, left) {
  left.nodes -= 1;
  const label = node.members === undefined ? code(node.text) : element("b", {}, node.text);
  const value = element("span", { class: "value" }, NAMES[node.value]);
  const item = element("li", { "data-value": String(node.value) },
                       element("span", { class: "node" }, sign(node.value), label, value));
  if (node.members?.length > 0) {
    const drawn = node.members.filter(() => left.nodes > 0).map((one) => itemOf(one, left));
    item.append(element("ul", {}, ...drawn));
  }
  return item;
}

/** Returns how many nodes a tree has. */
function sizeOf(condition) {
  return condition.steps.length;
}

/** Returns the drawn tree of a condition over the numbers of answers. */
function drawnTree(condition, numbers) {
  if (sizeOf(condition) > MOST_NODES) {
    return [hint(`The tree has ${counted(sizeOf(condition), "node")}, too many to draw.`)];
  }
  const root = treeOf(condition, numbers);
  return [element("ul", { class: "tree", "aria-label": "The tree of the condition" },
                  itemOf(root, { nodes: MOST_NODES }))];
}

/** Returns the word for an answer of a filling. */
function positionOf(answer) {
  return answer === undefined ? EITHER : answer ? "on" : "off";
}

/** Returns the table of answers with which a condition is true, and with which it is false. */
function fillingsOf(canBe) {
  const [ifFalse, ifTrue] = [canBe.get(0), canBe.get(1)];
  const head = ["", "yes if", "no if"].map((text) => element("th", { scope: "col" }, text));
  const rows = [...ifTrue.keys()].map((text) => (
    element("tr", {}, element("th", { scope: "row" }, code(text)),
            element("td", {}, positionOf(ifTrue.get(text))),
            element("td", {}, positionOf(ifFalse.get(text))))
  ));
  return [
    element("h4", {}, "What decides it"),
    element("table", { class: "fillings" }, element("thead", {}, element("tr", {}, ...head)),
            element("tbody", {}, ...rows)),
  ];
}

/** Returns what is said where the search and the tree differ, or where the search did not end. */
function remarksOf({ canBe, isWhole }, value, inTree) {
  if (!isWhole) {
    return [hint("There are too many ways to set the switches, so not all of them were tried.")];
  }
  if (canBe.size === 1 && inTree === UNKNOWN && value !== UNKNOWN) {
    return [hint(`However the switches are set, it is ${NAMES[value]}.`)];
  }
  return [];
}

/** Returns what is said of a condition on a target. */
function verdictOf(condition, values, target) {
  const [value, found] = [values.numbers[target], values.at(target)];
  const numbers = values.answersAt(target);
  const verdict = element("p", { class: "verdict", "data-value": String(value) }, sign(value),
                          element("b", {}, NAMES[value]), " for ", code(condition.inner));
  const inTree = sizeOf(condition) > MOST_NODES ? value : treeOf(condition, numbers).value;
  return [
    verdict, ...drawnTree(condition, numbers), ...remarksOf(found, value, inTree),
    ...(found.canBe.size === 2 ? fillingsOf(found.canBe) : []),
  ];
}

/** Returns the values of all conditions on a target, if there are several. */
function othersOf(conditions, values, target) {
  if (conditions.length < 2) {
    return [];
  }
  const items = conditions.map((one, at) => {
    const value = values[at].numbers[target];
    return element("li", {}, sign(value), element("span", { class: "value" }, NAMES[value]),
                   code(one.inner));
  });
  return [element("h4", {}, "All conditions here"), element("ul", { class: "values" }, ...items)];
}

/** Returns the facts of a target: each key with its values. */
function factsOf(target) {
  const values = new Map();
  for (const fact of FACTS[target]) {
    const [, key, value] = /^(\w+)(?:="(.*)")?$/.exec(fact);
    values.set(key, [...(values.get(key) ?? []), value ?? "yes"]);
  }
  const rows = [...values].flatMap(([key, list]) => [
    element("dt", {}, code(key)),
    element("dd", {}, list.map((value) => value || "(empty)").join(" ")),
  ]);
  return [element("h4", {}, "Its facts"), element("dl", { class: "facts" }, ...rows)];
}

/** Shows a target, and why the selected one of the conditions has its value there. */
export function showTarget(target, conditions, values, selected) {
  const at = conditions.indexOf(selected);
  const bits = `${factOf(target, "target_pointer_width")} bits`;
  const system = factOf(target, "target_os");
  const about = [system === "none" ? "no system" : system, factOf(target, "target_arch"), bits];
  panel.replaceChildren(
    element("p", { class: "triple" }, code(TRIPLES[target])),
    element("p", { class: "about" }, about.join(", ")),
    ...(selected ? verdictOf(selected, values[at], target) : []),
    ...othersOf(conditions, values, target),
    ...factsOf(target),
  );
  setText(byId("announced"), selected ?
    `${TRIPLES[target]}: ${NAMES[values[at].numbers[target]]}` : TRIPLES[target]);
}

/** Says where the details of the target are, for whom does not see them appear. */
export function announceDetails() {
  setText(byId("announced"), `${byId("announced").textContent}. Details are in One target.`);
}

/** Shows that no target is chosen. */
export function showNone() {
  panel.replaceChildren(hint("Choose a cell, by a click or by the keyboard: Tab leads to the cells,"
    + " and the arrow keys from one to another. Escape closes a target."));
}
