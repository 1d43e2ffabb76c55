/** The comparison of two conditions on the page, by what it shows in a browser. */
import assert from "node:assert/strict";
import { checkPicture, decide, isApple, isUnix, page, shows, triples } from "./page.js";

/** Returns what the comparison of two conditions says: the counts, and the sentences. */
function told() {
  return page.texts("#comparison li");
}

/** Returns the words for whether a condition implies another. */
function implies(one, other) {
  return `Where ${one} is true, ${other} is true too`;
}

shows("compares two conditions", async () => {
  await page.write('target_os = "macos"\ntarget_vendor = "apple"');
  const macos = triples((one) => one.target_os === "macos");
  const apple = triples(isApple);
  const [counts, forth, back] = await told();
  const apart = apple.length - macos.length;
  assert.equal(counts, `Different on ${apart} targets, and the same on ${320 - apart}.`);
  assert.equal(forth, `${implies(1, 2)}: on every target, whatever the switches say.`);
  const wanted = new RegExp(`^${implies(2, 1)}: not on every target\\. On (\\S+), `
    + "2 is yes and 1 is no\\.$");
  const [, triple] = wanted.exec(back);
  assert.ok(apple.includes(triple) && !macos.includes(triple), triple);
  await page.click(`#comparison [data-triple="${triple}"]`);
  assert.equal(await page.text("#why .triple"), triple);
  await page.click("#differences");
  await checkPicture(apple.filter((one) => !macos.includes(one)));
  assert.deepEqual(await page.texts(".legend span[id]"), ["differ", "may differ", "same"]);
  assert.equal(await page.text("#pictured"), "Where 1 and 2 differ");
  await page.click("#differences");
  await checkPicture(apple);
});

shows("compares the first two conditions until others are chosen", async () => {
  const choices = () => page.see(`["#first", "#second"].map((one) => (
    document.querySelector(one).value))`);
  await page.write("unix");
  await page.press("Enter");
  await page.send("Input.insertText", { text: "windows" });
  await page.settle();
  assert.deepEqual(await choices(), ["0", "1"]);
  assert.match((await told())[0], /^Different on /);
  await page.click("#examples button");
  assert.deepEqual(await told(), []);
  await page.write("unix\nwindows\ntest");
  await page.choose("#second", "2");
  assert.deepEqual(await choices(), ["0", "2"]);
  await page.click("#text");
  await page.press(" ");
  assert.deepEqual(await choices(), ["0", "2"]);
  // A line vanishes, and another one appears.
  await page.write("unix\nwindows");
  assert.deepEqual(await choices(), ["0", "1"]);
  await page.write("unix\nwindows\ntest");
  assert.deepEqual(await choices(), ["0", "1"]);
});

shows("compares again after a fault", async () => {
  await page.write("all(unix");
  assert.deepEqual(await told(), []);
  assert.equal(await page.see('document.querySelector("#compare-few").hidden'), false);
  await page.write("unix\nwindows");
  assert.equal(await page.text("#pictured"), "windows");
  assert.deepEqual(await page.texts("#first option"), ["1: unix", "2: windows"]);
  const [, ...sentences] = await told();
  assert.deepEqual(sentences.map((one) => one.match(/\d/g).slice(0, 2).join()), ["1,2", "2,1"]);
});

shows("names conditions by their lines", async () => {
  await page.write("unix\n\n  \nwindows");
  assert.deepEqual(await page.texts("#list .number"), ["1", "4"]);
  assert.deepEqual(await page.texts("#first option"), ["1: unix", "4: windows"]);
  assert.ok((await told())[1].startsWith(`${implies(1, 4)}: not on every target`));
  await page.click("#differences");
  assert.equal(await page.text("#pictured"), "Where 1 and 4 differ");
  assert.match(await page.text("#fault"), /^Line 4: true on /);
});

shows("compares conditions with what no target says", async () => {
  await page.write('target_os = "macos"\nwindows\nall(unix, feature = "x")');
  await page.choose("#second", "2");
  const unix = triples(isUnix);
  const macos = triples((one) => one.target_os === "macos");
  const start = "not on every target\\. On \\S+, with feature = \"x\"";
  const [counts, forth, back] = await told();
  assert.match(forth, new RegExp(`^${implies(1, 3)}: ${start} off, 1 is yes and 3 is no\\.$`));
  assert.match(back, new RegExp(`^${implies(3, 1)}: ${start} on, 3 is yes and 1 is no\\.$`));
  assert.equal(counts, `Different on 0 targets, the same on ${320 - unix.length}, and on ${
    unix.length} as the switches say.`);
  await decide('feature = "x"', "on");
  const apart = unix.length - macos.length;
  assert.match((await told())[0], new RegExp(`^Different on ${apart} targets`));
  // What the switches say changes nothing in the sentences about all of them, and has its own.
  const now = (text) => ` As the switches stand: ${text}.`;
  assert.deepEqual((await told()).slice(1), [`${forth}${now("on every target")}`,
                                             `${back}${now(`not on ${apart} targets`)}`]);
  await decide('feature = "x"', "off");
  assert.deepEqual((await told()).slice(1),
                   [`${forth}${now(`not on ${macos.length} targets`)}`,
                    `${back}${now("on every target")}`]);
  await decide('feature = "x"', "unknown");
  assert.deepEqual((await told()).slice(1), [forth, back]);
});

shows("says what switches leave unknown of two conditions", async () => {
  await page.write("all(unix, a)\nall(unix, a, b)");
  await decide("a", "on");
  const [, forth, back] = await told();
  const unix = triples(isUnix).length;
  assert.ok(forth.endsWith(`As the switches stand: unknown on ${unix} targets.`), forth);
  assert.equal(back, `${implies(2, 1)}: on every target, whatever the switches say.`);
});

shows("compares conditions in which predicates repeat", async () => {
  const equal = ["1 and 2 are equal: on every target, whatever the switches say."];
  const not = (start, end) => new RegExp(`^${start}: not on every target\\. On \\S+, ${end}\\.$`);
  const rows = [
    ['any(feature = "x", not(feature = "x"))\nall()', equal],
    ["all(a, b)\nnot(any(not(a), not(b)))", equal],
    ["all(a, not(a))\nwindows", [`${implies(1, 2)}: on every target, whatever the switches say.`,
                                 not(implies(2, 1), "with a (on|off), 2 is yes and 1 is no")]],
    ["a\nb", [not(implies(1, 2), "with a on, b off, 1 is yes and 2 is no"),
              not(implies(2, 1), "with b on, a off, 2 is yes and 1 is no")]],
    ["all(unix, a)\nany(all(unix, a), b)", [
      `${implies(1, 2)}: on every target, whatever the switches say.`,
      not(implies(2, 1), "with (a off, b on|b on, a off|b on), 2 is yes and 1 is no"),
    ]],
  ];
  for (const [text, wanted] of rows) {
    await page.write(text);
    const [, ...sentences] = await told();
    assert.equal(sentences.length, wanted.length, text);
    wanted.forEach((one, at) => {
      one instanceof RegExp ? assert.match(sentences[at], one) : assert.equal(sentences[at], one);
    });
  }
});

/** Returns a condition that is true if an odd number of flags is set. */
function parityOf(names) {
  const [first, ...rest] = names;
  return rest.reduce((odd, name) => (
    `any(all(${name}, not(${odd})), all(not(${name}), ${odd}))`
  ), first);
}

shows("says what was not tried out", async () => {
  // Whether a number is odd does not say whether a sum of other numbers is. With few flags all of
  // their values are tried, and with many not.
  const parities = (count) => {
    const names = Array.from({ length: count }, (_, at) => `f${at}`);
    return `${parityOf(names)}\n${parityOf(names.toReversed())}`;
  };
  await page.write(parities(4));
  const equal = "1 and 2 are equal: on every target, whatever the switches say.";
  assert.deepEqual((await told()).slice(1), [equal]);
  await page.write(parities(9));
  const untried = "not tried out, since there are too many ways to set the switches.";
  assert.deepEqual((await told()).slice(1),
                   [`${implies(1, 2)}: ${untried}`, `${implies(2, 1)}: ${untried}`]);
});
