/** The page: reads what is typed, and shows it. */
import { start as startModule } from "../src/module.js";
import { rustcVersion } from "../src/targets.js";
import * as address from "./address.js";
import * as comparing from "./compare.js";
import { MOST_CONDITIONS, MOST_UNITS, Reader } from "./conditions.js";
import { byId, setAttribute, setText } from "./dom.js";
import * as editor from "./editor.js";
import * as list from "./list.js";
import { MODULE } from "./module_bytes.js";
import * as picture from "./picture.js";
import * as switches from "./switches.js";
import { copy, tableOf } from "./table.js";
import { TRIPLES, openPredicates, valuesOf } from "./values.js";
import * as why from "./why.js";
import { DIFFERENCES, NAMES, PAST_NAMES, counted } from "./words.js";

const field = byId("text");
const reader = new Reader();
// What is shown: the lines of the text, their conditions and faults, the conditions that are shown
// for them, the values of these, what stands at the caret, the condition whose values the picture
// has, the chosen target, and the numbers of the two that are compared.
const shown = { lines: [], all: [], conditions: [], values: [], atCaret: undefined,
                selected: undefined, target: undefined, compare: undefined };

/** Returns the numbers of the values of a condition. */
function numbersOf(condition) {
  return shown.values[shown.conditions.indexOf(condition)]?.numbers;
}

/** Reads the text. While a line is faulty, its last condition is shown. */
function readText() {
  // UTF-8 has no lone surrogate, which may have been pasted.
  const text = field.value.slice(0, MOST_UNITS).toWellFormed();
  const { lines, conditions, isWhole } = reader.read(text);
  shown.lines = lines;
  shown.all = conditions;
  const count = shown.conditions.length;
  shown.conditions = conditions.map((one) => one.shown).filter((one) => one !== undefined);
  if (shown.conditions.length !== count) {
    // The numbers of those that were chosen may be those of others now.
    shown.compare = undefined;
  }
  const limits = `${counted(MOST_CONDITIONS, "condition")} and ${MOST_UNITS} characters`;
  setText(byId("limit"), isWhole && text.length === field.value.length ? "" :
    `Only the first ${limits} are read.`);
}

/** Finds the condition on the line of the caret, or else the nearest one. */
function selectAtCaret() {
  const line = editor.caretLine();
  const above = shown.all.filter((one) => one.line <= line).at(-1);
  shown.atCaret = above ?? shown.all[0];
  shown.selected = shown.atCaret?.shown;
}

/** Names what the picture has: where two conditions differ, the selected condition, or a fault. */
function nameOfPicture(isDifferent) {
  if (isDifferent) {
    return `Where ${shown.compare.map((at) => shown.conditions[at].line + 1).join(" and ")} differ`;
  }
  const { atCaret, selected } = shown;
  return atCaret?.fault ? `Fault in line ${atCaret.line + 1}` :
    selected?.inner ?? "No condition yet";
}

/** Shows what the picture has: the values of the selected condition, or where two differ. While its
 * line is faulty, its last values stay in grey, without counts. */
function drawPicture(comparison) {
  const isDifferent = comparing.isShown() && comparison !== undefined;
  const isFaulty = !isDifferent && shown.atCaret?.fault !== undefined;
  const names = isDifferent ? DIFFERENCES : NAMES;
  const numbers = isDifferent ? comparison.values.numbers : numbersOf(shown.selected);
  setText(byId("pictured"), nameOfPicture(isDifferent));
  byId("pictured").classList.toggle("is-code", !isDifferent && !isFaulty && numbers !== undefined);
  setAttribute(byId("picture"), "data-stale", isFaulty ? "" : undefined);
  picture.drawValues(numbers, isFaulty ? PAST_NAMES : names);
  const counts = numbers && picture.countsOf(numbers);
  for (const value of [0, 1, 2]) {
    setText(byId(`count-${value}`), counts && !isFaulty ? String(counts[value]) : "");
    setText(byId(`name-${value}`), names[value]);
  }
}

/** Shows everything over the conditions that were read. */
function draw() {
  switches.show(openPredicates(shown.conditions));
  shown.values = valuesOf(shown.conditions, switches.decided);
  editor.paintLines(shown.lines, shown.all, shown.atCaret);
  editor.explain(shown.atCaret?.fault ? shown.atCaret : shown.all.find((one) => one.fault),
                 shown.selected, numbersOf(shown.selected), shown.lines.length);
  list.show(shown.all, numbersOf, shown.atCaret);
  drawPicture(drawComparison());
  drawTarget();
  address.writeSoon(state);
}

/** Shows the comparison, if there are two conditions, and returns it. */
function drawComparison() {
  const { conditions } = shown;
  shown.compare = comparing.offer(conditions, shown.compare);
  if (shown.compare === undefined) {
    comparing.setShown(false);
    return undefined;
  }
  const both = shown.compare.map((at) => conditions[at]);
  const comparison = comparing.compared(...both, switches.decided);
  comparing.showComparison(both, comparison);
  return comparison;
}

/** Shows the chosen target. */
function drawTarget() {
  byId("close").hidden = shown.target === undefined;
  setAttribute(byId("target"), "data-chosen", shown.target === undefined ? undefined : "");
  if (shown.target === undefined) {
    why.showNone();
  } else {
    why.showTarget(shown.target, shown.conditions, shown.values, shown.selected);
  }
}

/** Returns what the page shows, for the address. */
function state() {
  const positions = switches.shownPositions();
  const isDefault = shown.compare?.[0] === 0 && shown.compare[1] === 1;
  return {
    text: field.value, line: shown.atCaret?.line ?? 0,
    on: positions.filter(([, answer]) => answer).map(([text]) => text),
    off: positions.filter(([, answer]) => !answer).map(([text]) => text),
    triple: TRIPLES[shown.target],
    compare: isDefault ? undefined : shown.compare,
    isDifferent: comparing.isShown(),
  };
}

/** Shows the text as it is now. */
function update() {
  readText();
  selectAtCaret();
  draw();
}

/** Shows a state. */
function load({ text, line, on, off, triple, compare, isDifferent }) {
  field.value = text;
  editor.goToLine(line);
  switches.decided.clear();
  on.forEach((one) => switches.decided.set(one, true));
  off.forEach((one) => switches.decided.set(one, false));
  const target = TRIPLES.indexOf(triple);
  shown.target = target < 0 ? undefined : target;
  comparing.setShown(isDifferent);
  picture.select(shown.target);
  readText();
  shown.compare = compare;
  selectAtCaret();
  draw();
}

/** Chooses a target. If it is opened, and not only passed, says where its details are. */
function chooseTarget(target, isOpened = false) {
  shown.target = target;
  picture.select(target);
  drawTarget();
  if (isOpened) {
    why.announceDetails();
  }
  address.writeSoon(state);
}

/** Closes the chosen target, and puts the focus on its cell. */
function closeTarget() {
  const { target } = shown;
  if (target !== undefined) {
    chooseTarget(undefined);
    picture.focus(target);
  }
}

/** Chooses the condition on a line. */
function chooseLine(line) {
  comparing.setShown(false);
  editor.goToLine(line);
  update();
}

let copiedTimer;

/** Says that something was copied, for a while. */
async function copied(text) {
  setText(byId("copied"), "");
  await copy(text);
  setText(byId("copied"), "Copied.");
  clearTimeout(copiedTimer);
  copiedTimer = setTimeout(() => setText(byId("copied"), ""), 4000);
}

/** Lets the page follow what its user does. */
function listen() {
  field.addEventListener("input", update);
  document.addEventListener("selectionchange", () => {
    const line = editor.caretLine();
    if (document.activeElement === field && shown.atCaret !== undefined &&
        line !== shown.atCaret.line && shown.all.some((one) => one.line === line)) {
      update();
    }
  });
  switches.start(() => draw());
  list.start(chooseLine);
  picture.start(chooseTarget);
  comparing.start(() => {
    shown.compare = comparing.chosen();
    draw();
  }, (triple) => chooseTarget(TRIPLES.indexOf(triple)));
  byId("close").addEventListener("click", closeTarget);
  document.addEventListener("keydown", ({ key, target }) => {
    // In a list of choices, Escape closes that list.
    if (key === "Escape" && !target.matches("select")) {
      closeTarget();
    }
  });
  byId("examples").addEventListener("click", ({ target }) => {
    if (target.dataset.text !== undefined) {
      load({ ...address.stateOf(target.dataset.text), triple: TRIPLES[shown.target] });
    }
  });
  byId("copy-table").addEventListener("click", () => {
    copied(tableOf(shown.conditions, shown.values));
  });
  byId("copy-link").addEventListener("click", () => {
    address.write(state());
    copied(location.href);
  });
  address.start((found) => found && load(found));
}

/** Returns the bytes that stand in a text of base 64. */
function bytesIn(text) {
  return Uint8Array.from(atob(text), (one) => one.charCodeAt(0));
}

startModule(await WebAssembly.compile(bytesIn(MODULE)));
setText(byId("rustc"), `${counted(TRIPLES.length, "target")} of rustc ${rustcVersion()}`);
listen();
load(address.stateIn(location.hash) ?? address.stateOf(field.value));
