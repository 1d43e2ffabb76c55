/** The page, by what it shows in a browser. */
import assert from "node:assert/strict";
import { createServer } from "node:http";
import { readFile } from "node:fs/promises";
import {
  PAGE, TARGETS, browser, checkPicture, choose, decide, fillings, isApple, isUnix, isWindows,
  legend, page, reopen, shown, shows, tree, triples,
} from "./page.js";
import { read } from "./rows.js";

shows("shows the targets by system and processor", async () => {
  await page.write("unix");
  const systems = await page.see(`[...document.querySelectorAll(".system")].map((system) => [
    system.querySelector("h3").innerText,
    [...system.querySelectorAll(".processor")].map((one) => [
      one.innerText,
      [...one.querySelectorAll(".cell")].map((cell) => cell.dataset.triple),
    ]),
  ])`);
  const found = systems.flatMap(([system, processors]) => processors.flatMap(([name, list]) => (
    list.map((triple) => [triple, system, name])
  )));
  const wanted = TARGETS.map(({ triple, target_os: system, target_arch: processor }) => (
    [triple, system === "-" ? "none (bare metal)" : system, processor]
  ));
  assert.deepEqual(found.sort(), wanted.sort());
  assert.equal(new Set(systems.map(([system]) => system)).size, systems.length);
});

shows("says of which rustc the targets are", async () => {
  const [, version] = /^# Targets of rustc (\S+), /.exec(read("bindings/targets/targets.tsv"));
  const said = `on the ${TARGETS.length} targets of rustc ${version}.`;
  assert.ok((await page.text("header")).replace(/\s+/g, " ").includes(said));
});

shows("shows where a condition is true, in cells and counts", async () => {
  await page.write('all(unix, not(target_vendor = "apple"))');
  await checkPicture(triples((one) => isUnix(one) && !isApple(one)));
  const counts = await page.see(`[...document.querySelectorAll(".system")].map((system) => [
    system.querySelector("h3").innerText, system.getAttribute("aria-label"),
    ...[...system.querySelectorAll(".count")].map((one) => Number(one.innerText)),
  ])`);
  for (const [name, label, yes, unknown, no] of counts) {
    const own = TARGETS.filter((one) => name.startsWith("none") ? one.target_os === "-" :
      one.target_os === name);
    const wanted = own.filter((one) => isUnix(one) && !isApple(one)).length;
    assert.deepEqual([yes, unknown, no], [wanted, 0, own.length - wanted], name);
    assert.equal(label, `${name}: ${yes} yes, ${no} no, ${unknown} unknown`);
  }
  assert.equal(await page.text("#fault"), `True on ${
    triples((one) => isUnix(one) && !isApple(one)).length} of 320 targets, false on ${
    triples((one) => !isUnix(one) || isApple(one)).length}.`);
});

shows("takes each form in which a condition stands", async () => {
  const forms = ["windows", "cfg(windows)", "  cfg( windows ) ", "#[cfg(windows)]",
                 "#![cfg(windows)]", "[target.'cfg(windows)'.dependencies]"];
  for (const form of forms) {
    await page.write(form);
    await checkPicture(triples(isWindows));
  }
  await page.write(forms.join("\n"));
  const bars = await page.texts("#list .counts");
  const yes = triples(isWindows).length;
  assert.deepEqual(bars, forms.map(() => `${yes} yes · 0 unknown · ${320 - yes} no`));
});

// A faulty text, what of it is underlined, and words of what is said.
const FAULTS = [
  ["all(unix", "(unix", "Column 4: This parenthesis is never closed. Expected: ) at the end."],
  ["unix)", ")", "Column 5: This parenthesis closes nothing. Expected: as many ( as )."],
  ['feature = "x', '"x', "This quote is never closed."],
  ["any(unix, 8)", "8", "Column 11: “8” is not expected here. Expected: a name such as unix,"],
  ["all(a b)", "b", "Expected: =, a comma or a closing parenthesis."],
  ["not(a, b)", "not(a, b)", "This not has 2 conditions inside. Expected: one."],
  ["not()", "not()", "This not has nothing inside. Expected: one condition."],
  ["feature", "feature", 'Expected: a value, as in feature = "std".'],
  ["target_os", "target_os", 'Expected: a value, as in target_os = "linux".'],
  ['target_oss = "x"', "target_oss", "is no key of a target. Expected: target_arch,"],
  ['unix = "x"', "x", "Expected: no value after this name."],
  ['target_endian = "middle"', "middle", 'Expected: "big" or "little".'],
  ['target_pointer_width = "999"', "999", "Expected: a number up to 255."],
  ['target_has_atomic = "x"', "x", 'Expected: a number of bits, such as "64", or "ptr".'],
  ["a, b", "a, b", "Several conditions stand side by side. Expected: one."],
  ["key =", "=", "Something is missing. Expected: a value in quotes"],
  ["feature = 8", "8", '“8” is not expected here. Expected: a value in quotes, such as "8". '
    + "A condition begins with a name such as unix, all, any or not."],
  ["any(unix, key = 1.2)", "1", 'Expected: a value in quotes, such as "1.2".'],
  ["target_os = linux", "linux", 'Expected: a value in quotes, such as "linux".'],
  ["any(a = , b)", ",", 'Expected: a value in quotes, such as "linux".'],
  ['a = "é𝄞" b', "b", "Column 11: “b” is not expected here."],
  ['#[cfg(all(é, b))]', "é", "Column 11: “é” is not expected here."],
];

shows("underlines a fault where it is, and says what was expected", async () => {
  for (const [text, faulty, words] of FAULTS) {
    await page.write(text);
    const underlined = await page.see(`[...document.querySelectorAll("#paint .faulty")]
      .filter((one) => getComputedStyle(one).textDecorationLine === "underline")
      .map((one) => one.innerText).join("")`);
    assert.equal(underlined, faulty, text);
    const told = await page.text("#fault");
    assert.ok(told.includes(words), `${text}: ${told}`);
    assert.equal(await page.see('document.querySelector("#text").ariaInvalid'), "true");
  }
  await page.write("unix");
  assert.equal(await page.see('document.querySelectorAll(".faulty").length'), 0);
  assert.equal(await page.see('document.querySelector("#text").ariaInvalid'), null);
});

shows("paints each character below the one that is typed", async () => {
  for (const text of ['all(a,\tb = "é𝄞日"), ', "any(\n\n  x\n", "é(", '"'.repeat(3)]) {
    await page.write(text);
    const painted = await page.see(`[...document.querySelectorAll("#paint .line")]
      .map((one) => one.textContent.replace("\\u200b", "")).join("\\n")`);
    assert.equal(painted, text);
  }
  const styles = await page.see(`["font", "padding", "lineHeight", "letterSpacing", "tabSize",
    "whiteSpace", "overflowWrap", "width"].map((name) => ["#paint", "#text"].map((one) => (
      getComputedStyle(document.querySelector(one))[name])))`);
  for (const [paint, text] of styles) {
    assert.equal(paint, text);
  }
});

shows("takes a click into its text", async () => {
  await page.write("any(\n\n  x\n");
  const { x, y } = await page.see(`(() => {
    const { left, top } = document.querySelector("#paint .line").getBoundingClientRect();
    return { x: left + 5, y: top + 5 };
  })()`);
  assert.equal(await page.see(`document.elementFromPoint(${x}, ${y}).id`), "text");
});

shows("keeps the picture while a fault is typed", async () => {
  await page.write("windows");
  await page.press("(");
  assert.deepEqual(await shown(1), triples(isWindows).sort());
  await checkFaulty(1);
  assert.match(await page.see('document.querySelector(".cell").ariaLabel'), / before the fault$/);
  await page.press("Backspace");
  await checkPicture(triples(isWindows));
  assert.equal(await page.see('getComputedStyle(document.querySelector("#cells")).filter'), "none");
});

/** Fails unless the picture says that a line is faulty, and has no counts and no colour. */
async function checkFaulty(line) {
  assert.equal(await page.text("#pictured"), `Fault in line ${line}`);
  assert.deepEqual(await page.texts(".legend b"), ["", "", ""]);
  assert.deepEqual(new Set(await page.texts(".system .count")), new Set([""]));
  assert.equal(await page.see('getComputedStyle(document.querySelector("#cells")).filter'),
               "grayscale(1)");
}

shows("has no values for a line that never had a condition", async () => {
  await page.write("all(unix");
  await checkFaulty(1);
  assert.deepEqual([await shown(0), await shown(1), await shown(2)], [[], [], []]);
  const labels = await page.see(`[...document.querySelectorAll(".cell, .system")]
    .map((one) => one.ariaLabel).filter((label) => label.includes(":"))`);
  assert.deepEqual(labels, []);
  await page.write("unix\nany(");
  await checkFaulty(2);
  assert.deepEqual(await shown(1), []);
  await page.write("");
  assert.equal(await page.text("#pictured"), "No condition yet");
  assert.deepEqual(await page.texts(".legend b"), ["", "", ""]);
  await page.write("windows");
  await checkPicture(triples(isWindows));
});

shows("moves nothing while one types", async () => {
  const places = () => page.see(`["#text", "#fault", "#picture", "#cells", "#switches",
    "#comparison", "#differences", "#target"]
    .map((one) => document.querySelector(one).getBoundingClientRect().top)`);
  await page.write('all(unix, feature = "x")\nunix');
  await choose("x86_64-unknown-linux-gnu");
  await page.click("#text");
  await page.press("End");
  const start = await places();
  const typed = [" ", "(", "Backspace", "Backspace", '"', "Backspace", ",", "Backspace", "s",
                 "Backspace"];
  for (const key of typed) {
    await page.press(key);
    assert.deepEqual(await places(), start, key);
  }
});

shows("tells values apart without colour", async () => {
  await page.write('any(unix, all(windows, feature = "x"))');
  const forms = await page.see(`[0, 1, 2].map((value) => {
    const style = getComputedStyle(document.querySelector(\`.cell[data-value="\${value}"]\`),
                                   "::before");
    return [style.width, style.borderRadius, style.transform, style.borderTopWidth];
  })`);
  for (const form of [0, 1, 2]) {
    assert.equal(new Set(forms.map((one) => one.join())).size, 3, String(forms[form]));
  }
  const names = await page.see(`[...document.querySelectorAll(".cell")].map((one) => (
    [one.dataset.triple, one.getAttribute("aria-label")]))`);
  for (const [triple, label] of names) {
    const target = TARGETS.find((one) => one.triple === triple);
    const value = isUnix(target) ? "yes" : isWindows(target) ? "unknown" : "no";
    assert.equal(label, `${triple}: ${value}`);
  }
});

shows("shows a target, its facts and the tree", async () => {
  await page.write('cfg(any(windows, all(target_pointer_width = "64", not(feature = "x"))))');
  await choose("x86_64-unknown-linux-gnu");
  assert.equal(await page.text("#why .triple"), "x86_64-unknown-linux-gnu");
  assert.deepEqual(await tree(), [
    "0 any unknown", '1 target_family = "windows" no', "1 all unknown",
    '2 target_pointer_width = "64" yes', "2 not unknown", '3 feature = "x" unknown',
  ]);
  assert.deepEqual(await fillings(), [['feature = "x"', "off", "on"]]);
  assert.deepEqual(await page.texts(".fillings thead th"), ["", "yes if", "no if"]);
  const facts = await page.see(`[...document.querySelectorAll(".facts dt")].map((one) => (
    [one.innerText, one.nextElementSibling.innerText]))`);
  const wanted = { target_os: "linux", target_arch: "x86_64", target_env: "gnu", unix: "yes",
                   target_feature: "fxsr sse sse2", target_abi: "(empty)", panic: "unwind" };
  for (const [key, values] of Object.entries(wanted)) {
    assert.deepEqual(facts.filter(([name]) => name === key), [[key, values]]);
  }
  await choose("x86_64-pc-windows-msvc");
  assert.match(await page.text(".verdict"), /^yes for any\(windows,/);
  assert.equal((await tree())[0], "0 any yes");
  assert.deepEqual(await fillings(), []);
  await page.click("#close");
  assert.match(await page.text("#why"), /^Choose a cell, /);
});

shows("shows a target within the window, wherever its cell is", async () => {
  for (const width of [1280, 390]) {
    await page.resize(width, 800);
    await page.write("unix");
    const last = await page.see('[...document.querySelectorAll(".cell")].at(-1).dataset.triple');
    await choose(last);
    assert.equal(await page.text("#why .triple"), last);
    const [top, bottom, height] = await page.see(`(() => {
      const { top, bottom } = document.querySelector("#why .verdict").getBoundingClientRect();
      return [top, bottom, innerHeight];
    })()`);
    assert.ok(top >= 0 && bottom <= height, `${width}: ${top} to ${bottom} of ${height}`);
  }
  // On a narrow page it stands over the cells, until it is closed.
  await page.click("#close");
  assert.equal(await page.see('getComputedStyle(document.querySelector("#target")).display'),
               "none");
});

shows("has the comparison in front of the targets on a narrow page", async () => {
  await page.resize(390, 800);
  await page.write("unix\nwindows");
  assert.equal(await page.see('getComputedStyle(document.querySelector("#target")).display'),
               "none");
  const [compare, picture] = await page.see(`["#compare", "#picture"].map((one) => (
    document.querySelector(one).getBoundingClientRect().top))`);
  assert.ok(compare < picture, `${compare} ${picture}`);
});

shows("closes a target by Escape, and says where its details are", async () => {
  await page.write("unix");
  const triple = "x86_64-unknown-linux-gnu";
  await choose(triple);
  for (const selector of ["#close", `.cell[data-triple="${triple}"]`, "#text"]) {
    await page.see(`document.querySelector('${selector}').focus()`);
    await page.press("Escape");
    assert.match(await page.text("#why"), /^Choose a cell, /);
    assert.equal(await page.see("document.activeElement.dataset.triple"), triple, selector);
    await page.press("Enter");
    assert.equal(await page.text("#announced"), `${triple}: yes. Details are in One target.`);
    assert.equal(await page.text("#why .triple"), triple);
  }
  await page.press("ArrowRight");
  assert.doesNotMatch(await page.text("#announced"), /Details/);
  for (const [selector, live] of [["#announced", "status"], ["#comparison", "polite"]]) {
    const one = `document.querySelector("${selector}")`;
    assert.equal(await page.see(`${one}.getAttribute("aria-live") ?? ${one}.role`), live);
  }
});

shows("reads a comparison out again only if it changed", async () => {
  await page.write("unix\nwindows");
  await page.see('document.querySelector("#comparison li").dataset.before = ""');
  await choose("x86_64-unknown-linux-gnu");
  await page.click("#list button");
  assert.equal(await page.see('document.querySelectorAll("[data-before]").length'), 1);
  await page.write("unix\ntest");
  assert.equal(await page.see('document.querySelectorAll("[data-before]").length'), 0);
});

shows("labels the groups of processors, which are no headings", async () => {
  const groups = await page.see(`[...document.querySelectorAll(".processor")].map((one) => (
    [one.role, one.ariaLabel, one.innerText]))`);
  assert.ok(groups.length > 30);
  for (const [role, label, text] of groups) {
    assert.deepEqual([role, label], ["group", text]);
  }
  assert.equal(await page.see('document.querySelectorAll("#cells h4").length'), 0);
});

shows("hides no line of its boxes", async () => {
  const names = "abcdef";
  await page.write([...names].map((name) => `all(${name}, unix, not(target_vendor = "apple"))`)
    .join("\n"));
  assert.equal((await page.texts("#list li")).length, names.length);
  await decide("a", "on");
  for (const width of [1280, 390]) {
    await page.resize(width, 900);
    await page.settle();
    const cut = await page.see(`[...document.querySelectorAll("#counts *, #decide *, #compare *")]
      .filter((one) => getComputedStyle(one).overflowY !== "visible" &&
                       one.scrollHeight > one.clientHeight + 1)
      .map((one) => one.id || one.className || one.tagName)`);
    assert.deepEqual(cut, [], String(width));
    const out = await page.see(`["#counts", "#decide", "#compare"].filter((card) => {
      const { bottom } = document.querySelector(card).getBoundingClientRect();
      return [...document.querySelectorAll(card + " *")]
        .some((one) => one.getBoundingClientRect().bottom > bottom);
    })`);
    assert.deepEqual(out, [], String(width));
  }
});

shows("says what a condition, a target and a feature are", async () => {
  assert.equal(await page.see('document.querySelector("#terms").open'), false);
  await page.click("#terms summary");
  assert.equal(await page.see('document.querySelector("#terms").open'), true);
  const terms = await page.see(`[...document.querySelectorAll("#terms dt")]
    .map((one) => [one.innerText, one.nextElementSibling.innerText.length > 20])`);
  const wanted = ["unix", "all(..)", "any(..)", "not(..)", "Target", "Feature"];
  assert.deepEqual(terms, wanted.map((term) => [term, true]));
});

shows("shows the two fillings of what is unknown", async () => {
  await page.write('all(a, not(any(b, feature = "x")), unix, any(a, c))');
  await choose("x86_64-unknown-linux-gnu");
  const rows = new Map((await fillings()).map(([text, yes, no]) => [text, [yes, no]]));
  assert.deepEqual([...rows.keys()].sort(), ["a", "b", "c", 'feature = "x"']);
  // It is true only with a, and without b and x. With a, it does not matter whether c is set.
  assert.deepEqual(["a", "b", 'feature = "x"', "c"].map((text) => rows.get(text)[0]),
                   ["on", "off", "off", "either"]);
  for (const at of [0, 1]) {
    const position = (text) => rows.get(text)[at] === "on";
    const value = position("a") && !(position("b") || position('feature = "x"'));
    assert.equal(value, at === 0);
  }
});

shows("gives equal predicates one value", async () => {
  await page.write('all(feature = "x", not(feature = "x"))');
  await checkPicture([]);
  await page.write('any(feature = "x", not(feature = "x"))');
  await checkPicture(triples(() => true));
  await choose("x86_64-unknown-linux-gnu");
  assert.match(await page.text("#why"), /However the switches are set, it is yes\./);
  await page.write("any(all(a, not(b)), all(not(a), b), all(a, b), all(not(a), not(b)), windows)");
  await checkPicture(triples(() => true));
  await page.write("any(all(a, not(b)), all(not(a), b), all(a, b), windows)");
  await checkPicture(triples(isWindows), triples((one) => !isWindows(one)));
  const rows = new Map((await fillings()).map(([text, ...answers]) => [text, answers]));
  assert.deepEqual([rows.get("a")[1], rows.get("b")[1]], ["off", "off"]);
});

shows("is led by the keyboard", async () => {
  await page.write("unix");
  let steps = 0;
  const isCell = () => page.see('document.activeElement.classList.contains("cell")');
  while (!await isCell()) {
    await page.press("Tab");
    steps += 1;
    assert.ok(steps < 30);
  }
  const order = await page.see(`[...document.querySelectorAll(".cell")]
    .map((one) => one.dataset.triple)`);
  const current = () => page.see("document.activeElement.dataset.triple");
  assert.equal(await current(), order[0]);
  const style = await page.see(`(() => {
    const { outlineStyle, outlineWidth } = getComputedStyle(document.activeElement);
    return [outlineStyle, Number.parseFloat(outlineWidth)];
  })()`);
  assert.ok(style[0] === "solid" && style[1] >= 2, String(style));
  const moves = [["ArrowRight", 1], ["ArrowRight", 2], ["ArrowLeft", 1], ["End", 319],
                 ["ArrowRight", 319], ["Home", 0], ["ArrowLeft", 0]];
  for (const [key, at] of moves) {
    await page.press(key);
    assert.equal(await current(), order[at], key);
  }
  const top = () => page.see("document.activeElement.getBoundingClientRect().top + scrollY");
  const first = await top();
  await page.press("ArrowDown");
  const second = await top();
  assert.ok(second > first);
  assert.equal(await page.text("#why .triple"), await current());
  await page.press("ArrowUp");
  assert.ok(await top() < second);
  // One key leaves all cells.
  await page.press("Tab");
  assert.equal(await isCell(), false);
});

shows("decides by switches", async () => {
  await page.write('any(windows, all(unix, feature = "x"), test)\nall(loom, unix)');
  await page.click("#list li:first-child button");
  assert.deepEqual((await page.texts(".switch legend")).sort(), ['feature = "x"', "loom", "test"]);
  const others = triples((one) => !isWindows(one));
  await checkPicture(triples(isWindows), others);
  await decide("test", "off");
  await checkPicture(triples(isWindows), triples(isUnix).filter((one) => others.includes(one)));
  await decide('feature = "x"', "on");
  await checkPicture(triples((one) => isWindows(one) || isUnix(one)));
  await decide('feature = "x"', "off");
  await checkPicture(triples(isWindows));
  await decide("test", "on");
  await checkPicture(triples(() => true));
  await decide("test", "unknown");
  await checkPicture(triples(isWindows), others);
  assert.match((await page.texts("#list .counts"))[1], /^0 yes · \d+ unknown/);
  await decide("loom", "on");
  assert.equal((await page.texts("#list .counts"))[1],
               `${triples(isUnix).length} yes · 0 unknown · ${320 - triples(isUnix).length} no`);
});

shows("has switches for what some targets leave unknown, and for nothing else", async () => {
  await page.write('all(target_os = "linux", target_feature = "sse2", debug_assertions)');
  assert.deepEqual(await page.texts(".switch legend"), ['target_feature = "sse2"']);
  const has = (one) => one.target_os === "linux" && one.debug_assertions === "yes";
  const sse2 = (one) => one.target_feature.split(" ").includes("sse2");
  await checkPicture(triples((one) => has(one) && sse2(one)),
                     triples((one) => has(one) && !sse2(one)));
  await decide('target_feature = "sse2"', "off");
  await checkPicture(triples((one) => has(one) && sse2(one)));
});

shows("keeps what it shows in its address", async () => {
  await page.write('any(windows, feature = "é=&#")\nunix\nall(test, unix)');
  await page.press("ArrowUp");
  await decide('feature = "é=&#"', "on");
  await decide("test", "off");
  await choose("aarch64-apple-ios");
  await page.until('location.hash.includes("aarch64-apple-ios")');
  const seen = () => Promise.all([
    page.see('document.querySelector("#text").value'), page.text("#pictured"), page.text("#why"),
    page.texts("#list .counts"), legend(), page.texts("#comparison li"),
    page.see(`[...document.querySelectorAll(".switch :checked")].map((one) => one.value)`),
  ]);
  const before = await seen();
  const address = await page.see("location.href");
  await reopen(address);
  assert.deepEqual(await seen(), before);
  assert.equal(before[1], "unix");
  assert.deepEqual(before[6].sort(), ["off", "on"]);
  await page.see(`location.hash = "#c=windows"`);
  await page.until('document.querySelector("#text").value === "windows"');
  await checkPicture(triples(isWindows));
});

shows("copies the table and the link", async () => {
  await browser.send("Browser.grantPermissions", {
    permissions: ["clipboardReadWrite", "clipboardSanitizedWrite"],
  });
  await page.write('unix\nany(windows, feature = "x")');
  const pasted = async (button) => {
    await page.click(button);
    await page.until('document.querySelector("#copied").innerText === "Copied."');
    assert.ok(await page.see(`(() => {
      const { top, bottom, width } = document.querySelector("#copied").getBoundingClientRect();
      return top >= 0 && bottom <= innerHeight && width > 20;
    })()`));
    await page.click("#text");
    await page.press("Control+a", ["selectAll"]);
    await page.press("Control+v", ["paste"]);
    return page.see('document.querySelector("#text").value');
  };
  const rows = (await pasted("#copy-table")).trimEnd().split("\n").map((line) => line.split("\t"));
  assert.deepEqual(rows[0], ["target", "unix", 'any(windows, feature = "x")']);
  const wanted = TARGETS.map((one) => [one.triple, isUnix(one) ? "yes" : "no",
                                       isWindows(one) ? "yes" : "unknown"]);
  assert.deepEqual(rows.slice(1), wanted);
  const link = await pasted("#copy-link");
  assert.ok(link.startsWith(`${PAGE.href}#c=target%09unix`), link.slice(0, 200));
});

shows("bounds what it reads", async () => {
  await page.write(Array.from({ length: 70 }, (_, at) => `f${at}`).join("\n"));
  assert.equal((await page.texts("#list li")).length, 60);
  assert.match(await page.text("#limit"), /^Only the first 60 conditions/);
  await page.write(`any(${"a, ".repeat(20_000)})`);
  assert.match(await page.text("#limit"), /30000 characters are read\.$/);
  await page.write(`any(${"a, ".repeat(3000)}windows)`);
  await choose("x86_64-pc-windows-msvc");
  assert.match(await page.text("#why"), /The tree has 3002 nodes, too many to draw\./);
  await page.write("unix");
  assert.equal(await page.text("#limit"), "");
});

/** Returns the middle one of some numbers. */
function median(numbers) {
  return [...numbers].sort((one, other) => one - other)[Math.floor(numbers.length / 2)];
}

/** Returns how many milliseconds of a processor the page took so far, to compute and to draw. */
async function busy() {
  const { metrics } = await page.send("Performance.getMetrics");
  return metrics.find(({ name }) => name === "TaskDuration").value * 1000;
}

shows("draws 20 conditions within 300 ms of a key", async () => {
  const conditions = read("bench/conditions.txt").split("\n").slice(0, 19);
  await page.send("Performance.enable", { timeDomain: "threadTicks" });
  await page.write(`${conditions.join("\n")}\nfeature = "x"`);
  await page.press("ArrowLeft");
  // From a key on until its effect is drawn, as the browser measures it, in steps of 8 ms.
  await page.see(`globalThis.took = [];
    new PerformanceObserver((list) => took.push(...list.getEntries()
      .filter((one) => one.name === "keydown").map((one) => one.duration)))
      .observe({ type: "event", durationThreshold: 16 })`);
  const worked = [];
  for (const key of "abcdefghijklmnopqrst") {
    const before = await busy();
    await page.press(key);
    worked.push(await busy() - before);
  }
  await page.until("took.length >= 10").catch(() => undefined);
  const took = await page.see("took");
  const [drawn, work] = [median(took) ?? 16, median(worked)];
  console.log(`# 20 conditions on 320 targets: drawn ${drawn} ms after a key, of which a processor `
    + `worked ${Math.round(work)} ms (medians of ${worked.length})`);
  // On a busy machine the first says nothing of the page.
  assert.ok(Math.min(drawn, work) <= 300, JSON.stringify({ took, worked }));
});

shows("asks nothing of a network, and says nothing on the console", async () => {
  await page.write('all(unix, feature = "x")\nunix');
  await choose("x86_64-unknown-linux-gnu");
  await decide('feature = "x"', "on");
  await page.click("#differences");
  await page.until('location.hash.includes("differ=yes")');
  const outside = page.requests.filter((url) => !url.startsWith("data:"));
  assert.deepEqual(outside, [PAGE.href]);
  // What the console says fails any test.
  assert.deepEqual(page.complaints, []);
  await page.see('console.log("heard")');
  assert.equal(page.complaints.splice(0).length, 1);
});

shows("has a policy that refuses all else", async () => {
  const policy = await page.see('document.querySelector("meta[http-equiv]").content');
  assert.match(policy, /^default-src 'none'; script-src 'sha256-[^']+' 'wasm-unsafe-eval'; /);
  assert.ok(!policy.includes("unsafe-inline") && !policy.includes(" 'unsafe-eval'"));
  const refused = await page.see(`Promise.all([
    fetch("https://127.0.0.1/").then(() => "fetched", () => "refused"),
    new Promise((done) => {
      const script = document.createElement("script");
      script.textContent = "globalThis.wasRun = true";
      document.body.append(script);
      setTimeout(() => done(globalThis.wasRun ? "run" : "refused"), 50);
    }),
    new Promise((done) => {
      document.body.setAttribute("style", "color: rgb(1, 2, 3)");
      done(getComputedStyle(document.body).color === "rgb(1, 2, 3)" ? "styled" : "refused");
    }),
  ])`);
  assert.deepEqual(refused, ["refused", "refused", "refused"]);
  assert.ok(page.complaints.splice(0).every((one) => one.includes("Content Security Policy")));
});

shows("works on a server", async () => {
  const bytes = await readFile(PAGE);
  const server = createServer((_, response) => {
    response.setHeader("Content-Type", "text/html");
    response.end(bytes);
  });
  await new Promise((done) => server.listen(0, "127.0.0.1", done));
  const url = `http://127.0.0.1:${server.address().port}/`;
  try {
    await page.go(url);
    await page.write("windows");
    await checkPicture(triples(isWindows));
    assert.deepEqual(page.complaints, []);
    assert.ok(page.requests.every((one) => /^(file|data):/.test(one) || one === url));
  } finally {
    server.close();
    server.closeAllConnections();
  }
});

shows("has a name for each control", async () => {
  await page.write('all(unix, feature = "x")\nunix');
  await choose("x86_64-unknown-linux-gnu");
  const { nodes } = await page.send("Accessibility.getFullAXTree");
  const roles = ["button", "textbox", "radio", "combobox", "group", "heading", "link"];
  const controls = nodes.filter(({ ignored, role }) => !ignored && roles.includes(role?.value));
  assert.ok(controls.length > 320);
  const unnamed = controls.filter(({ name }) => !name?.value?.trim());
  assert.deepEqual(unnamed.map(({ role }) => role.value), []);
  assert.equal(await page.see("document.documentElement.lang"), "en");
  const ids = await page.see('[...document.querySelectorAll("[id]")].map((one) => one.id)');
  assert.equal(new Set(ids).size, ids.length);
});

shows("is readable in each colour scheme and width", async () => {
  for (const scheme of ["light", "dark"]) {
    for (const width of [1280, 700, 320]) {
      await reopen(PAGE.href, { width, scheme });
      await choose("x86_64-unknown-linux-gnu");
      const [wide, inside] = await page.see(
        "[document.scrollingElement.scrollWidth, document.documentElement.clientWidth]",
      );
      assert.ok(wide <= inside, `${scheme} ${width}: ${wide}`);
      for (const [name, contrast] of await contrasts()) {
        assert.ok(contrast >= 4.5, `${scheme}: ${name} has ${contrast}`);
      }
    }
  }
});

/** Returns the contrast of the text of some elements with the card below them. */
function contrasts() {
  return page.see(`(() => {
    const light = (color) => {
      const [red, green, blue] = color.match(/[\\d.]+/g).map((part) => part / 255)
        .map((part) => (part <= 0.04045 ? part / 12.92 : ((part + 0.055) / 1.055) ** 2.4));
      return 0.2126 * red + 0.7152 * green + 0.0722 * blue;
    };
    const card = light(getComputedStyle(document.querySelector(".card")).backgroundColor);
    return ["h1", "h2", "h3", ".processor .label", "#fault", ".about", ".facts dt",
            "#examples button", ".line [data-kind=key]", ".line [data-kind=value]",
            ".line [data-kind=any]", ".verdict b", ".link"].map((name) => {
      const text = light(getComputedStyle(document.querySelector(name)).color);
      return [name, (Math.max(text, card) + 0.05) / (Math.min(text, card) + 0.05)];
    });
  })()`);
}
