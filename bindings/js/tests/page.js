/**
 * What the tests of the page share: the browser, a new page for each test, and what it shows.
 *
 * To import this opens the browser, and closes it after the tests.
 */
import assert from "node:assert/strict";
import { existsSync } from "node:fs";
import { after, afterEach, before, beforeEach, test } from "node:test";
import { Browser, CHROMIUM } from "./browser.js";
import { needs } from "./needs.js";
import { ROOT, hasFamily, targetRows } from "./rows.js";

export const PAGE = new URL(process.env.CFGX_PAGE ?? "out/cfgx.html", ROOT);
const missing = needs(CHROMIUM, "the page in a browser") ||
  (existsSync(PAGE) ? false : `there is no ${PAGE.pathname}`);

export const TARGETS = targetRows();
export const isUnix = (target) => hasFamily(target, "unix");
export const isWindows = (target) => hasFamily(target, "windows");
export const isApple = (target) => target.target_vendor === "apple";

/** Returns the triples of the targets for which something holds. */
export function triples(holds) {
  return TARGETS.filter(holds).map(({ triple }) => triple);
}

export let browser;
export let page;

/** Closes the page, and opens that of an address in its place. */
export async function reopen(address, look) {
  await page.close();
  page = await browser.open(address, look);
}

/** Tests what the page shows. */
export function shows(name, run) {
  test(`the page ${name}`, { skip: missing }, run);
}

/** Returns the triples of the cells that show a value, by its number. */
export async function shown(value) {
  const found = await page.see(`[...document.querySelectorAll('.cell[data-value="${value}"]')]
    .map((one) => one.dataset.triple)`);
  return found.sort();
}

/** Returns the counts in the legend: yes, unknown and no. */
export async function legend() {
  return (await page.texts(".legend b")).map(Number);
}

/** Fails unless the picture has these values, which are told by the names of triples. */
export async function checkPicture(yes, unknown = []) {
  assert.deepEqual(await shown(1), [...yes].sort());
  assert.deepEqual(await shown(2), [...unknown].sort());
  assert.deepEqual(await legend(), [yes.length, unknown.length,
                                    TARGETS.length - yes.length - unknown.length]);
}

/** Chooses a target by a click. */
export function choose(triple) {
  return page.click(`.cell[data-triple="${triple}"]`);
}

/** Sets a switch. */
export async function decide(text, position) {
  await page.see(`(() => {
    const legends = [...document.querySelectorAll(".switch legend")];
    const one = legends.find((legend) => legend.innerText === ${JSON.stringify(text)});
    one.parentElement.querySelector('[value="${position}"]').dataset.wanted = "";
  })()`);
  await page.click("[data-wanted]");
  await page.see('delete document.querySelector("[data-wanted]").dataset.wanted');
}

/** Returns the lines of the drawn tree: its depth, its text and its value. */
export function tree() {
  return page.see(`[...document.querySelectorAll("#why .tree .node")].map((node) => {
    let depth = 0;
    for (let one = node.closest("ul"); !one.classList.contains("tree"); one = one.parentElement) {
      depth += one.tagName === "UL" ? 1 : 0;
    }
    return [depth, ...[...node.children].slice(1).map((one) => one.innerText)].join(" ");
  })`);
}

/** Returns the rows of the table of fillings. */
export function fillings() {
  return page.see(`[...document.querySelectorAll(".fillings tbody tr")]
    .map((row) => [...row.children].map((one) => one.innerText))`);
}

before(() => {
  browser = missing ? undefined : new Browser();
});
after(() => browser?.close());
beforeEach(async () => {
  page = await browser?.open(PAGE.href);
});
afterEach(async () => {
  const complaints = page?.complaints ?? [];
  await page?.close();
  assert.deepEqual(complaints, []);
});
