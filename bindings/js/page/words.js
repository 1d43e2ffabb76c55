/** What the page says in words. */

/** The names of values by their numbers. */
export const NAMES = ["no", "yes", "unknown"];
/** What the values of the condition that two differ are called. */
export const DIFFERENCES = ["same", "differ", "may differ"];
/** What values are called while the line that has them is faulty. */
export const PAST_NAMES = NAMES.map((name) => `${name} before the fault`);

// What messages of the engine call a term, and what is said in its place.
const TERMS = new Map([
  ["<key>", "a name such as unix"],
  ['"', "a quote"],
  ['"<value>"', 'a value in quotes, such as "linux"'],
  ['= "<feature_name>"', 'a value, as in feature = "std"'],
  ['= "<panic_strategy>"', 'a value, as in panic = "abort"'],
  ['= "<target_cfg_value>"', 'a value, as in target_os = "linux"'],
  ["<feature>", 'the name of a feature, such as "sse2"'],
  [",", "a comma"],
  ["(", "an opening parenthesis"],
  [")", "a closing parenthesis"],
]);

// What is said of a reason but `unexpected`.
const REASONS = {
  unclosedParens: () => "This parenthesis is never closed. Expected: ) at the end.",
  unopenedParens: () => "This parenthesis closes nothing. Expected: as many ( as ).",
  unclosedQuotes: () => 'This quote is never closed. Expected: " after the value.',
  empty: () => "There is no condition. Expected: a name such as unix, all, any or not.",
  invalidNot: ({ members }) => (members === 0 ?
    "This not has nothing inside. Expected: one condition." :
    `This not has ${members} conditions inside. Expected: one. Join them by all or any.`),
  multipleRootPredicates: () => (
    "Several conditions stand side by side. Expected: one. Join them by all(..) or any(..)."
  ),
  invalidHasAtomic: () => 'This is no width. Expected: a number of bits, such as "64", or "ptr".',
  invalidInteger: ({ text, start }) => (/endian\s*=\s*"$/u.test(text.slice(0, start)) ?
    'This is no order of bytes. Expected: "big" or "little".' :
    "This is no width. Expected: a number up to 255."),
};

/** Returns words with commas, and `or` before the last one. */
export function listed(words, last = "or") {
  return words.length < 2 ? words.join("") :
    `${words.slice(0, -1).join(", ")} ${last} ${words.at(-1)}`;
}

/** Returns what is expected behind `key =`: a value in quotes. What the engine expects
 * instead, which is what can begin a condition, is said beside it. */
function expectedBehindEquals(expected, text, start) {
  const [word] = /^[^\s,()"=]*/u.exec(text.slice(start));
  const value = word ? `a value in quotes, such as "${word}".` : `${TERMS.get('"<value>"')}.`;
  return expected[0] === "<key>" ?
    `${value} A condition begins with ${listed(expected.map(termOf))}.` : value;
}

/** Returns what is said in place of a term of the engine. */
function termOf(term) {
  return TERMS.get(term) ?? term;
}

/** Returns what is said of something that may not stand there. */
function unexpected({ expected, text, start, end }) {
  const found = start < end && end <= text.length ? `“${text.slice(start, end)}” ` : "";
  if (expected.length === 0) {
    return `${found || "This "}is not expected here. Expected: no value after this name.`;
  }
  if (expected[0] === "target_arch") {
    return `${found}is no key of a target. Expected: ${listed(expected)}.`;
  }
  if (found && /[^\s,()"=]\s*=\s*$/u.test(text.slice(0, start))) {
    return `${found}is not expected here. Expected: ${
      expectedBehindEquals(expected, text, start)}`;
  }
  return `${found ? `${found}is not expected here` : "Something is missing"}. Expected: ${
    listed(expected.map(termOf))}.`;
}

/** Returns what is wrong with a text, and what was expected, in words. */
export function explained(error) {
  return error.reason === "unexpected" ? unexpected(error) : REASONS[error.reason](error);
}

/** Returns a number of things. */
export function counted(count, thing) {
  return `${count} ${thing}${count === 1 ? "" : "s"}`;
}

/** Returns what answers to predicates say, as `feature = "x" on, test off`. */
export function answersInWords(answers) {
  const known = [...answers].filter(([, answer]) => answer !== undefined);
  return known.map(([text, answer]) => `${text} ${answer ? "on" : "off"}`).join(", ");
}
