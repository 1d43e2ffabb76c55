/** Memory: that it is forgotten, that it runs out, and that calls work afterwards. */
import assert from "node:assert/strict";
import { test } from "node:test";
import * as cfgx from "../src/node.js";
import * as engine from "../src/module.js";

// The most code units that a string may have here.
const LONGEST = 2 ** 29 - 24;
const FACTS = cfgx.targets().slice(0, 4).map(cfgx.targetFacts);

/** Makes each call once, also those that fail. */
function callAll() {
  const expression = cfgx.parse('cfg(all(unix, any(feature = "é", not(b)), test))');
  expression.eval([true, null, false, true]);
  expression.decide([null, null, null, null]);
  expression.answers(["unix", "?b"]);
  cfgx.audit([expression, "unix"], FACTS);
  cfgx.check("all(");
  cfgx.tokens('a, "');
  assert.throws(() => cfgx.parse("all("), cfgx.ParseError);
  assert.throws(() => cfgx.audit(["all("], []), cfgx.ParseError);
  assert.throws(() => cfgx.audit([], [["all("]]), cfgx.FactError);
  assert.throws(() => expression.eval([]), TypeError);
}

/** Fails unless the engine works. */
function checkCalls() {
  assert.equal(cfgx.parse("all(a, not(b))").eval([false, true]), true);
  assert.deepEqual(cfgx.audit(["unix"], [["unix"], []]), [[true, false]]);
}

test("memory is forgotten after each call", () => {
  callAll();
  const size = engine.memorySize();
  for (let round = 0; round < 2000; round++) {
    callAll();
    assert.equal(engine.memorySize(), size);
  }
});

test("memory does not grow in a million calls", () => {
  const expression = cfgx.parse('all(unix, not(feature = "x"))');
  const size = engine.memorySize();
  for (let call = 0; call < 1_000_000; call++) {
    assert.equal(expression.eval([call % 2 === 0, true]), call % 2 === 1);
  }
  assert.equal(engine.memorySize(), size);
});

test("memory grows to what a text needs", () => {
  const size = engine.memorySize();
  const text = `any(${"a,".repeat(4_000_000)})`;
  assert.equal(cfgx.check(text), undefined);
  const grown = engine.memorySize();
  assert.ok(grown > Math.max(size, text.length));
  assert.equal(cfgx.check(text), undefined);
  assert.equal(engine.memorySize(), grown);
});

test("memory is refused for as many bytes as 32 bits do not number", () => {
  for (const count of [2 ** 32, 2 ** 32 + 8, 2 ** 32 - 8, 2 ** 33, 2 ** 40, 2 ** 53]) {
    assert.throws(() => engine.withRoom((room) => room.take(count)), cfgx.OutOfMemoryError);
    checkCalls();
  }
  assert.ok(engine.withRoom((room) => room.take(8)) > 0);
});

test("memory is refused for texts of 2^32 and of 2^32 + 8 bytes", () => {
  // Eight texts have so many bytes together. One of them is shorter than a string may be.
  const text = "x".repeat(LONGEST);
  for (const count of [2 ** 32, 2 ** 32 + 8]) {
    const rest = "x".repeat(count - 8 * LONGEST);
    assert.throws(() => cfgx.audit([...Array(8).fill(text), rest], []), {
      name: "OutOfMemoryError", message: "cfgx got no memory",
    });
    assert.throws(() => cfgx.audit([], [[...Array(8).fill(text), rest]]), cfgx.OutOfMemoryError);
    checkCalls();
  }
});

test("memory is refused where little is left", () => {
  const text = Buffer.from(`any(${"a,".repeat(500_000)})`);
  const statusWith = (left) => engine.withRoom((room) => {
    room.take(2 ** 32 - left);
    const [place, fault] = [room.keep(text), room.take(64)];
    return room.call("cfgx_check", place, text.length, fault);
  });
  assert.equal(statusWith(2 ** 28), 0);
  assert.equal(statusWith(2 ** 21 + 2 ** 20), 3);
  checkCalls();
});

test("memory is refused for a table of 2^32 values", () => {
  const [texts, targets] = [Array(2 ** 16).fill("a"), Array(2 ** 16).fill("")];
  assert.throws(() => cfgx.audit(texts, targets), cfgx.OutOfMemoryError);
  assert.throws(() => cfgx.audit(texts, [...targets, ""]), cfgx.OutOfMemoryError);
  checkCalls();
});

test("memory is small again after it was refused", () => {
  const text = `any(${"a,".repeat(4_000_000)})`;
  cfgx.check(text);
  const size = engine.memorySize();
  assert.throws(() => engine.withRoom((room) => room.take(2 ** 32)), cfgx.OutOfMemoryError);
  assert.ok(engine.memorySize() < size);
});

test("memory is whole after a call that a full stack broke off", () => {
  const size = engine.memorySize();
  let count = 0;
  const deeper = () => {
    try {
      deeper();
    } finally {
      count += 1;
      cfgx.check("all(a, b)");
    }
  };
  assert.throws(deeper, RangeError);
  assert.ok(count > 100);
  checkCalls();
  assert.ok(engine.memorySize() <= size);
});
