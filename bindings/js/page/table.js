/** The table of all values as text. */
import { TRIPLES } from "./values.js";
import { NAMES } from "./words.js";

/** Returns the values of conditions on all targets: a line for each target, with tabs between the
 * columns. */
export function tableOf(conditions, values) {
  const head = ["target", ...conditions.map((one) => one.inner.replaceAll("\t", " "))];
  const rows = TRIPLES.map((triple, target) => (
    [triple, ...values.map((one) => NAMES[one.numbers[target]])]
  ));
  return [head, ...rows].map((cells) => `${cells.join("\t")}\n`).join("");
}

/** Puts a text into the clipboard. */
export async function copy(text) {
  try {
    await navigator.clipboard.writeText(text);
  } catch {
    copyBySelection(text);
  }
}

/** Puts a text into the clipboard where a browser refuses it to scripts that do not select. */
function copyBySelection(text) {
  const field = document.createElement("textarea");
  field.value = text;
  document.body.append(field);
  field.select();
  document.execCommand("copy");
  field.remove();
}
