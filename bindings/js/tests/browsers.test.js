/** The package in browsers, from a server; and the page in Firefox. */
import assert from "node:assert/strict";
import { existsSync, readFileSync } from "node:fs";
import { createServer } from "node:http";
import { after, before, test } from "node:test";
import { setTimeout as wait } from "node:timers/promises";
import { Browser, CHROMIUM } from "./browser.js";
import { FIREFOX, Firefox } from "./firefox.js";
import { needs } from "./needs.js";
import { ROOT, hasFamily, read, targetRows } from "./rows.js";

const PACKAGE = new URL("bindings/js/", ROOT);
const PAGE = new URL(process.env.CFGX_PAGE ?? "out/cfgx.html", ROOT);
const TYPES = { html: "text/html", js: "text/javascript", wasm: "application/wasm" };
// A page that shows what the package finds, and refuses to load what is not of its own server.
const PROGRAM = `<!doctype html>
<meta charset="utf-8"><link rel="icon" href="data:,">
<script type="importmap">{ "imports": { "cfgx": "/src/browser.js" } }</script>
<script type="module">
  import * as cfgx from "cfgx";
  const found = { version: cfgx.version() };
  const expression = cfgx.parse('cfg(all(unix, not(feature = "é𝄞")))');
  found.spans = expression.predicates
    .map(({ start, end, byteStart, byteEnd }) => [start, end, byteStart, byteEnd]);
  found.values = [expression.eval([false, true]), expression.decide([null, null]).ifTrue];
  found.reason = cfgx.check("all(").reason;
  const facts = cfgx.targets().map(cfgx.targetFacts);
  found.count = cfgx.audit(["windows"], facts)[0].filter(Boolean).length;
  try {
    cfgx.audit(Array(2 ** 16).fill("a"), Array(2 ** 16).fill(""));
  } catch (error) {
    found.error = error.name;
  }
  found.after = cfgx.parse("unix").eval([true]);
  document.body.textContent = JSON.stringify(found);
</script>
<body></body>`;

/** Returns how many targets of the table have a family. */
function countOf(family) {
  return targetRows().filter((target) => hasFamily(target, family)).length;
}

const WANTED = {
  version: JSON.parse(read("bindings/js/package.json")).version,
  spans: [[18, 33, 18, 36], [8, 12, 8, 12]], values: [true, [false, true]],
  reason: "unclosedParens", count: countOf("windows"), error: "OutOfMemoryError", after: true,
};

const inChromium = { skip: needs(CHROMIUM, "the package in Chromium") };
const inFirefox = { skip: needs(FIREFOX, "the package and the page in Firefox") };
const firefox = new Firefox();
let server;
let address;

/** Answers a request for the page above or for a file of the package. */
function answer({ url }, response) {
  const path = new URL(`.${url}`, PACKAGE);
  const isPage = url === "/";
  if (!isPage && !(url.startsWith("/src/") && existsSync(path))) {
    response.writeHead(404).end();
    return;
  }
  response.setHeader("Content-Type", TYPES[isPage ? "html" : url.split(".").at(-1)]);
  response.end(isPage ? PROGRAM : readFileSync(path));
}

before(async () => {
  server = createServer(answer);
  await new Promise((done) => server.listen(0, "127.0.0.1", done));
  address = `http://127.0.0.1:${server.address().port}/`;
});
after(async () => {
  await firefox.close();
  server.close();
  server.closeAllConnections();
});

/** Waits until an expression is true in the page that Firefox shows. */
async function until(expression) {
  for (let tries = 0; !await firefox.see(expression); tries++) {
    assert.ok(tries < 400, expression);
    await wait(50);
  }
}

test("Chromium runs the package", inChromium, async () => {
  const browser = new Browser();
  try {
    const page = await browser.open(address);
    await page.until("document.body.textContent.startsWith('{')");
    assert.deepEqual(JSON.parse(await page.text("body")), WANTED);
    assert.deepEqual(page.complaints, []);
    const own = ["", "src/browser.js", "src/cfgx.wasm"].map((path) => address + path);
    assert.ok(own.every((url) => page.requests.includes(url)), String(page.requests));
  } finally {
    await browser.close();
  }
});

test("Firefox runs the package", inFirefox, async () => {
  await firefox.start();
  await firefox.send("WebDriver:Navigate", { url: address });
  await until("document.body !== null && document.body.textContent.startsWith('{')");
  assert.deepEqual(JSON.parse(await firefox.see("document.body.textContent")), WANTED);
});

test("Firefox shows the page", inFirefox, async () => {
  const state = new URLSearchParams({ c: 'windows\nall(unix, feature = "x")', line: 2,
                                      on: 'feature = "x"', target: "x86_64-apple-darwin" });
  await firefox.send("WebDriver:Navigate", { url: `${PAGE.href}#${state}` });
  await until("document.querySelectorAll('.cell').length === 320");
  const cells = await firefox.see("document.querySelectorAll('.cell[data-value=\"1\"]').length");
  assert.equal(cells, countOf("unix"));
  const shown = await firefox.see("document.querySelector('#why').textContent");
  assert.match(shown, /^x86_64-apple-darwin/);
  assert.equal(await firefox.see("document.querySelector('.switch :checked').value"), "on");
});
