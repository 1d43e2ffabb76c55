/** The examples of docs/JAVASCRIPT.md and docs/README.md. */
import assert from "node:assert/strict";
import { mkdtempSync, rmSync, writeFileSync } from "node:fs";
import { tmpdir } from "node:os";
import { join } from "node:path";
import { pathToFileURL } from "node:url";
import { test } from "node:test";
import * as cfgx from "../src/node.js";
import { read } from "./rows.js";

const PAGE = read("docs/JAVASCRIPT.md");
const BLOCKS = [PAGE, read("docs/README.md")]
  .flatMap((page) => [...page.matchAll(/^```js\n(.*?)^```$/gms)])
  .map(([, text]) => text);
// A line that shows what an expression is.
const SHOWN = /^(.*); \/\/ (.*)$/gm;

/** Returns a program that fails unless each expression of a block is what the block shows. */
function programOf(block) {
  return `import assert from "node:assert/strict";\n${block
    .replace('from "cfgx"', `from "${new URL("../src/node.js", import.meta.url)}"`)
    .replace(SHOWN, (_, code, wanted) => `assert.deepEqual(${code}, ${wanted});`)}`;
}

test("the pages have examples that are so", async () => {
  const folder = mkdtempSync(join(tmpdir(), "cfgx-page-"));
  try {
    for (const [at, block] of BLOCKS.entries()) {
      const path = join(folder, `block-${at}.mjs`);
      writeFileSync(path, programOf(block));
      await import(pathToFileURL(path));
    }
  } finally {
    rmSync(folder, { recursive: true });
  }
  assert.equal(BLOCKS.length, 4);
  assert.equal(BLOCKS.flatMap((block) => [...block.matchAll(SHOWN)]).length, 19);
});

test("the page for JavaScript would fail for an example that is not so", async () => {
  const url = `data:text/javascript,${encodeURIComponent(programOf("1 + 1; // 3\n"))}`;
  await assert.rejects(import(url), assert.AssertionError);
});

test("the page for JavaScript names the exports that it uses", () => {
  for (const [, names] of PAGE.matchAll(/^import \{ (.*?) \} from "cfgx";$/gm)) {
    assert.ok(names.split(", ").every((name) => name in cfgx), names);
  }
});
