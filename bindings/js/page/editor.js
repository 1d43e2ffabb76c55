/** The text that is typed, painted below it. */
import { piecesOf } from "./conditions.js";
import { byId, element, setAttribute, setText } from "./dom.js";
import { countsOf } from "./picture.js";
import { explained } from "./words.js";

const field = byId("text");
const paint = byId("paint");
const told = byId("fault");
const [toldPlace, toldText] = told.children;

/** Returns the element of a painted line. */
function painted(line, condition) {
  const pieces = piecesOf(line, condition).filter(({ text }) => text !== "");
  const spans = pieces.map(({ text, kind, isFaulty }) => (
    element("span", { "data-kind": kind, class: isFaulty ? "faulty" : undefined }, text)
  ));
  // An empty line is as high as another one.
  return element("div", { class: "line" }, ...(spans.length > 0 ? spans : ["\u200b"]));
}

/** Returns the number of the line in which the caret is. */
export function caretLine() {
  return field.value.slice(0, field.selectionEnd).split("\n").length - 1;
}

/** Paints the lines of the text. Those that stay are left alone. */
export function paintLines(lines, conditions, selected) {
  const byLine = new Map(conditions.map((one) => [one.line, one]));
  lines.forEach((line, at) => {
    const condition = byLine.get(at);
    const old = paint.children[at];
    if (old === undefined || old.source !== line || old.condition !== condition) {
      const made = Object.assign(painted(line, condition), { source: line, condition });
      old === undefined ? paint.append(made) : old.replaceWith(made);
    }
    setAttribute(paint.children[at], "data-selected", at === selected?.line ? "" : undefined);
  });
  while (paint.children.length > lines.length) {
    paint.lastElementChild.remove();
  }
}

/** Returns where a fault is, and what is wrong. */
function toldOfFault({ fault: { start }, fault: found, line, offset }, isAlone) {
  const column = offset + start + 1;
  return [isAlone ? `Column ${column}:` : `Line ${line + 1}, column ${column}:`, explained(found)];
}

/** Returns on how many targets a condition has each value. */
function toldOfValues({ line }, numbers, isAlone) {
  const [no, yes, unknown] = countsOf(numbers);
  const open = unknown > 0 ? `, and depends on the switches on ${unknown}` : "";
  return [isAlone ? "" : `Line ${line + 1}:`,
          `true on ${yes} of ${numbers.length} targets, false on ${no}${open}.`];
}

/** Says what is wrong with the faulty condition, or else what values the selected one has. */
export function explain(faulty, selected, numbers, lineCount) {
  setAttribute(field, "aria-invalid", faulty ? "true" : undefined);
  setAttribute(told, "data-faulty", faulty ? "" : undefined);
  const isAlone = lineCount === 1;
  const [place, text] = faulty ? toldOfFault(faulty, isAlone) :
    selected ? toldOfValues(selected, numbers, isAlone) : ["", "Type a condition."];
  setText(toldPlace, place);
  setText(toldText, place ? text : text[0].toUpperCase() + text.slice(1));
}

/** Puts the caret at the start of a line. */
export function goToLine(line) {
  const start = field.value.split("\n").slice(0, line).join("\n").length + (line > 0 ? 1 : 0);
  field.setSelectionRange(start, start);
}
