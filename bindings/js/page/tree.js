/** The tree of a condition, with a value at each node. */
import { UNKNOWN } from "../src/answers.js";
import * as engine from "../src/module.js";

// The kinds of steps, as cfgx.h numbers them, and the words of those that the text has.
const [FALSE_STEP, TRUE_STEP, ASK, NOT, ALL, ANY] = [0, 1, 2, 3, 4, 5];
const WORDS = { [FALSE_STEP]: "false", [TRUE_STEP]: "true", [NOT]: "not", [ALL]: "all",
                [ANY]: "any" };

/** Returns the number of the value of a function over those of its members. */
function valueOfFunction(step, members) {
  const steps = [step, ...members.map((_, number) => ({ kind: ASK, number }))];
  return engine.apply(engine.bytesOfSteps(steps), Uint8Array.from(members));
}

/** Returns the root of the tree of a condition. A node has a text, the number of its value over the
 * numbers of the answers to the predicates, and its members; a predicate has no members. */
export function treeOf(condition, numbers) {
  const nodes = [];
  for (const step of [...condition.steps].reverse()) {
    nodes.push(nodeOf(step, nodes, condition, numbers));
  }
  return nodes[0];
}

/** Returns the node of a step. The nodes of its members are the last ones, the first member at the
 * end, and are taken. */
function nodeOf(step, nodes, condition, numbers) {
  if (step.kind === ASK) {
    return { text: condition.texts[step.number], value: numbers[step.number], members: undefined };
  }
  const members = step.number === 0 ? [] : nodes.splice(-step.number).reverse();
  const value = valueOfFunction(step, members.map((one) => one.value));
  const isLiteral = step.kind === FALSE_STEP || step.kind === TRUE_STEP;
  return { text: WORDS[step.kind], value, members: isLiteral ? undefined : members };
}

/** Returns whether the value of a node is unknown. */
export function isUnknown(node) {
  return node.value === UNKNOWN;
}
