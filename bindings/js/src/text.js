/** Texts in UTF-8, and places in them. */
import { OutOfMemoryError } from "./errors.js";

const LONE_SURROGATE = /\p{Surrogate}/u;
// No memory of a module has so many bytes.
const MOST_MEMORY = 2 ** 32;
// The distance of the bytes of which it is kept how many code units stand before them.
const DISTANCE = 64;

const encoder = new TextEncoder();
const decoder = new TextDecoder("utf-8", { fatal: true, ignoreBOM: true });

/** Returns what an error says of a value that is not what a call takes. */
export function named(value) {
  return typeof value === "string" ? JSON.stringify(value) : describe(value);
}

/** Returns what an error says of a value that is no string. */
function describe(value) {
  const type = Object.prototype.toString.call(value).slice("[object ".length, -1);
  return typeof value === "object" && value !== null ? `an object of the type ${type}` :
    typeof value === "function" ? "a function" : String(value);
}

/** Returns a text in UTF-8. Throws a `TypeError` for what is no text, or has a lone surrogate. */
export function utf8Of(text) {
  if (typeof text !== "string") {
    throw new TypeError(`A text is a string, and not ${named(text)}.`);
  }
  if (!text.isWellFormed()) {
    const place = text.search(LONE_SURROGATE);
    const code = text.charCodeAt(place).toString(16).toUpperCase();
    throw new TypeError(`A text has the lone surrogate U+${code} at ${place}, which is not UTF-8.`);
  }
  return encoded(text);
}

/** Returns texts in UTF-8. Throws what `utf8Of` throws, and an `OutOfMemoryError` for texts that
 * are too long together, of which none is read: a text has at least as many bytes as code
 * units. */
export function utf8OfAll(texts) {
  const lengths = texts.map((text) => (typeof text === "string" ? text.length : 0));
  if (lengths.reduce((sum, length) => sum + length, 0) >= MOST_MEMORY) {
    throw new OutOfMemoryError();
  }
  return texts.map(utf8Of);
}

/** Returns the bytes of a text that has no lone surrogate. */
function encoded(text) {
  try {
    return encoder.encode(text);
  } catch (error) {
    // The text is longer than any array may be.
    throw error instanceof RangeError ? new OutOfMemoryError() : error;
  }
}

/** Returns the text that stands from one byte up to another one. */
export function decoded(bytes, start, end) {
  return decoder.decode(bytes.subarray(start, end));
}

/** Returns how many UTF-16 code units the character has that begins with a byte, or 0 for a byte
 * with which none begins. */
function unitsOf(byte) {
  return (byte & 0xc0) === 0x80 ? 0 : byte < 0xf0 ? 1 : 2;
}

/** Returns the function from a place in the bytes of a text to that in its UTF-16 code units.
 * All of a character stands before a place inside of it. */
export function unitsIn(bytes, text) {
  if (bytes.length === text.length) {
    return (place) => place;
  }
  const counted = new Uint32Array(Math.ceil(bytes.length / DISTANCE) + 1);
  let units = 0;
  for (let place = 0; place <= bytes.length; place++) {
    if (place % DISTANCE === 0) {
      counted[place / DISTANCE] = units;
    }
    units += unitsOf(bytes[place] ?? 0);
  }
  return (place) => {
    const near = Math.floor(place / DISTANCE);
    let found = counted[near];
    for (let at = near * DISTANCE; at < place; at++) {
      found += unitsOf(bytes[at]);
    }
    return found;
  };
}

/** Returns the members `start`, `end`, `byteStart` and `byteEnd` of a span of bytes. */
export function spanOf(units, byteStart, byteEnd) {
  return { start: units(byteStart), end: units(byteEnd), byteStart, byteEnd };
}
