/** The values of many conditions on many targets. */
import { valueOf } from "./answers.js";
import { Expression, factError, parseError } from "./expression.js";
import { factsOf, listed, mayBeTrue } from "./facts.js";
import * as engine from "./module.js";
import { utf8OfAll } from "./text.js";

/** Returns for each condition its values on the targets. */
export function audit(conditions, targets, options) {
  const may = mayBeTrue(options);
  const texts = listed(conditions, "Conditions")
    .map((one) => (one instanceof Expression ? one.text : one));
  const encodedTexts = utf8OfAll(texts);
  const factLists = listed(targets, "Targets").map(factsOf);
  const facts = factLists.flat();
  const encodedFacts = utf8OfAll(facts);
  const found = engine.audit(encodedTexts, encodedFacts, endsOf(factLists), may);
  if (found.faultyFact !== undefined) {
    const { item } = found.faultyFact;
    throw factError(...placeOf(item, factLists), facts[item], encodedFacts[item],
                    found.faultyFact);
  }
  if (found.faultyText !== undefined) {
    const { item } = found.faultyText;
    throw parseError(texts[item], encodedTexts[item], found.faultyText);
  }
  return texts.map((_, row) => {
    const start = row * factLists.length;
    return Array.from(found.values.subarray(start, start + factLists.length), valueOf);
  });
}

/** Returns how many items the first lists have, one more for each. */
function endsOf(lists) {
  let end = 0;
  return lists.map((list) => (end += list.length));
}

/** Returns the number of the list in which an item of all lists stands, and its number there. */
function placeOf(item, lists) {
  let rest = item;
  const place = lists.findIndex((list) => (rest -= list.length) < 0);
  return [place, rest + lists[place].length];
}
