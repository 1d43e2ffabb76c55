// Tests the memory of the module of WebAssembly: the blocks that a host takes, and those that calls
// take.
//
// usage: memory.mjs MODULE
import { readFileSync } from "node:fs";

const { instance } = await WebAssembly.instantiate(readFileSync(process.argv[2]));
const { memory, cfgx_take: take, cfgx_forget: forget, cfgx_check, cfgx_explain, cfgx_run } =
  instance.exports;
const MOST = 2n ** 32n;
let failures = 0;

function expect(what, found, wanted) {
  if (found !== wanted) {
    failures++;
    console.log(`FAILED: ${what}: wanted ${wanted}, found ${found}`);
  }
}

// Takes a block and writes bytes into it.
function put(bytes) {
  const block = take(BigInt(bytes.length));
  new Uint8Array(memory.buffer).set(bytes, Number(block));
  return block;
}

// Returns the status of a text, and the message of one that is faulty.
function explain(text, room) {
  const bytes = new TextEncoder().encode(text);
  const first = put(bytes);
  const [message, needed, fault] = [take(BigInt(room)), take(8n), take(48n)];
  const status = cfgx_explain(first, BigInt(bytes.length), message, BigInt(room), needed, fault);
  const count = Number(new DataView(memory.buffer).getBigUint64(Number(needed), true));
  const shown = new Uint8Array(memory.buffer, Number(message), count);
  const told = new TextDecoder().decode(shown);
  forget(first);
  return `${status} ${told}`;
}

// Returns what `cfgx parse` prints of a text.
function parse(text, room) {
  const bytes = new TextEncoder().encode(`parse${text}`);
  const first = put(bytes);
  const [ends, output, needed] = [take(16n), take(BigInt(room)), take(8n)];
  const view = new DataView(memory.buffer);
  view.setBigUint64(Number(ends), 5n, true);
  view.setBigUint64(Number(ends) + 8, BigInt(bytes.length), true);
  cfgx_run(first, BigInt(bytes.length), ends, 2n, first, 0n, output, BigInt(room), needed);
  const count = Number(new DataView(memory.buffer).getBigUint64(Number(needed), true));
  const shown = new Uint8Array(memory.buffer, Number(output), count);
  const told = new TextDecoder().decode(shown);
  forget(first);
  return told;
}

function testBlocks() {
  const sizes = [0n, 1n, 7n, 8n, 15n, 16n, 17n, 100n, 65536n, 200000n];
  const blocks = sizes.map((size) => take(size));
  sizes.forEach((size, place) => {
    expect(`the alignment of ${size} bytes`, blocks[place] % 16n, 0n);
    const next = blocks[place + 1] ?? BigInt(memory.buffer.byteLength);
    expect(`room for ${size} bytes`, blocks[place] + size <= next, true);
  });
  forget(blocks[0]);
  expect("a block after all were forgotten", take(5n), blocks[0]);
  forget(blocks[0]);
}

function testForgetting() {
  const [first, second] = [take(40n), take(40n)];
  take(40n);
  forget(second);
  expect("a block after all but the first were forgotten", take(40n), second);
  forget(first);
}

function testRefusals() {
  const first = take(1n);
  const pages = memory.buffer.byteLength;
  for (const size of [MOST - 64n, MOST - 8n, MOST - 1n, MOST, MOST + 1n, MOST + 8n, 2n ** 40n,
                      2n ** 63n, 2n ** 64n - 16n, 2n ** 64n - 1n]) {
    expect(`a block of ${size} bytes`, take(BigInt.asIntN(64, size)), 0n);
  }
  expect("the size of the memory", memory.buffer.byteLength, pages);
  const small = take(16n);
  expect("a block after those that were refused", small > first && small < first + 64n, true);
  forget(first);
}

function testCalls() {
  const wanted = "1 foo (\n    ^ expected one of `=`, `,`, `)` here";
  expect("a message", explain("foo (", 100), wanted);
  expect("a condition", explain("all(unix, not(windows))", 100), "0 ");
  const before = memory.buffer.byteLength;
  for (let turn = 0; turn < 1000; turn++) {
    explain(`all(${"a,".repeat(1000)}`, 4000);
  }
  expect("a memory that does not grow with calls", memory.buffer.byteLength <= before + 2 ** 20,
         true);
  const names = Array.from({ length: 2000 }, (_, place) => `name${place}`);
  const around = (inside, name) => `any(${inside ? `${inside}, ` : ""}${name})`;
  const nested = names.reduceRight(around, "");
  const lines = names.map((name) => `${name}\n`);
  expect("the lines of a list", parse(`all(${names})`, 30000), lines.join(""));
  expect("the lines of a nested list", parse(nested, 30000), lines.reverse().join(""));
  const long = new TextEncoder().encode(`all(${"a, ".repeat(3_000_000)})`);
  const text = put(long);
  expect("the status of a long text", cfgx_check(text, BigInt(long.length), take(48n)), 0);
  forget(text);
}

testBlocks();
testForgetting();
testRefusals();
testCalls();
testBlocks();
console.log(`the memory of the module: ${failures} failures`);
process.exitCode = failures > 0 ? 1 : 0;
