/** What tests need that may not be here. */
import { spawnSync } from "node:child_process";

/** Returns `false` if a tool runs here, and otherwise why a test is skipped, of which `untested`
 * says what it would have tested. */
export function needs(tool, untested) {
  const run = spawnSync(tool, ["--version"], { stdio: "ignore" });
  return run.status === 0 ? false : `${untested}, since ${tool} does not run here`;
}
