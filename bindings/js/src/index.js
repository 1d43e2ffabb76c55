/** What the package exports, over a module that was started. `index.d.ts` has the documentation. */
export { audit } from "./audit.js";
export { FactError, OutOfMemoryError, ParseError } from "./errors.js";
export { Expression, check, parse, tokens } from "./expression.js";
export { version } from "./module.js";
export { Predicate } from "./predicate.js";
export {
  debugAssertions, feature, flag, keyValue, panic, procMacro, targetAbi, targetArch,
  targetEndian, targetEnv, targetFamily, targetFeature, targetHasAtomic, targetOs,
  targetPointerWidth, targetVendor, test,
} from "./predicates.js";
export { rustcVersion, targetFacts, targets } from "./targets.js";
