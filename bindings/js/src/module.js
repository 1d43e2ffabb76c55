/** The calls of cfgx.h in the WebAssembly module, whose sizes have 64 bits. A text is an array of
 * its bytes here, and places count bytes. */
import { OutOfMemoryError, REASONS, TERM_LISTS } from "./errors.js";
import { spanOf, unitsIn } from "./text.js";

// The statuses that calls return.
const DONE = 0;
const FAULTY = 1;
const OUT_OF_MEMORY = 3;
const TOO_LARGE = 8;
const FAULTY_FACT = 9;

/** The sizes of the structs of cfgx.h in bytes, and the places of their members. */
export const LAYOUTS = {
  fault: { size: 48, item: 0, offset: 8, start: 16, end: 24, members: 32, reason: 40, terms: 44 },
  predicate: { size: 56, kind: 0, number: 4, start: 8, end: 16, keyStart: 24, keyEnd: 32,
               valueStart: 40, valueEnd: 48 },
  step: { size: 16, kind: 0, number: 8 },
  token: { size: 24, kind: 0, start: 8, end: 16 },
};
const { fault: FAULT, predicate: PREDICATE, step: STEP, token: TOKEN } = LAYOUTS;
const SIZE = 8;

// The items for which the first call has room, and the bytes of a message beside those of its text.
// Most conditions have fewer.
const ROOM = 32;
const REASON_ROOM = 100;

let module;
let instance;

/** Starts the engine of a compiled module. Nothing else of the package works before. */
export function start(compiled) {
  module = compiled;
  instance = new WebAssembly.Instance(module);
}

/** The memory of one call, which is given out item after item. */
class Room {
  #exports = instance.exports;
  #first = undefined;

  /** Returns the place of new memory for so many bytes. */
  take(size) {
    const place = this.#exports.cfgx_take(BigInt(size));
    if (place === 0n) {
      throw new OutOfMemoryError();
    }
    this.#first ??= place;
    return Number(place);
  }

  /** Forgets all that was taken. The engine kept nothing that it took. */
  forget() {
    if (this.#first !== undefined) {
      this.#exports.cfgx_forget(this.#first);
    }
  }

  /** Returns the place of a copy of some bytes. */
  keep(bytes) {
    const place = this.take(bytes.length);
    this.bytes(place, bytes.length).set(bytes);
    return place;
  }

  /** Returns the place of an array of sizes. */
  keepSizes(sizes) {
    const words = new Uint32Array(2 * sizes.length);
    sizes.forEach((size, at) => {
      words[2 * at] = size;
    });
    return this.keep(new Uint8Array(words.buffer));
  }

  /** Returns the place and the number of the bytes of texts, and of their ends. */
  keepList(texts) {
    const count = texts.reduce((sum, text) => sum + text.length, 0);
    const place = this.take(count);
    const whole = this.bytes(place, count);
    let end = 0;
    const ends = texts.map((text) => {
      whole.set(text, end);
      end += text.length;
      return end;
    });
    return [place, count, this.keepSizes(ends), ends.length];
  }

  /** Calls, and returns the status. A number is a size or a place, and a boolean a yes or a no. */
  call(name, ...words) {
    const given = words.map((word) => (typeof word === "number" ? BigInt(word) : Number(word)));
    return this.#exports[name](...given);
  }

  /** Returns the bytes at a place, as they are until more memory is taken. */
  bytes(place, count) {
    return new Uint8Array(this.#exports.memory.buffer, place, count);
  }

  /** Returns what reads the numbers of the struct at a place, of which the size is given. */
  members(place, size) {
    const view = new DataView(this.#exports.memory.buffer, place, size);
    return (at) => view.getUint32(at, true);
  }

  /** Returns a size at a place. No size exceeds the memory. */
  size(place) {
    return this.members(place, SIZE)(0);
  }

  /** Returns what `read` makes of each of the structs at a place. */
  structs(place, size, count, read) {
    return Array.from({ length: count }, (_, at) => read(this.members(place + at * size, size)));
  }
}

/** Returns what `use` returns of the memory of a call, which is forgotten then. */
export function withRoom(use) {
  const room = new Room();
  try {
    const result = use(room);
    room.forget();
    return result;
  } catch (error) {
    // A call that was broken off, as by a full stack, may leave the instance in any state. And a
    // large memory becomes small again only so.
    instance = new WebAssembly.Instance(module);
    throw error;
  }
}

/** Returns how many bytes of memory the engine has. */
export function memorySize() {
  return instance.exports.memory.buffer.byteLength;
}

/** Fails for another status than those that are expected. */
function expect(status, ...expected) {
  if (status === OUT_OF_MEMORY || status === TOO_LARGE) {
    throw new OutOfMemoryError();
  }
  if (!expected.includes(status)) {
    throw new Error(`status ${status} of the module of cfgx`);
  }
}

/** Returns what the struct of a fault tells of the text or the fact with its number. */
function faultAt(room, place) {
  const read = room.members(place, FAULT.size);
  return {
    item: read(FAULT.item),
    reason: REASONS[read(FAULT.reason)],
    start: read(FAULT.offset) + read(FAULT.start),
    end: read(FAULT.offset) + read(FAULT.end),
    members: read(FAULT.members),
    expected: TERM_LISTS[read(FAULT.terms)],
  };
}

/** Returns what errors tell of the fault of a text, which is passed also in UTF-8. */
export function faultIn(text, bytes, found) {
  const { reason, members, expected } = found;
  const span = spanOf(unitsIn(bytes, text), found.start, found.end);
  return { reason, ...span, expected: [...expected], members };
}

/** Returns the version of the calls. */
export function version() {
  const number = instance.exports.cfgx_version();
  return [number / 1000000, (number / 1000) % 1000, number % 1000].map(Math.floor).join(".");
}

/** Returns the fault of a text, or `undefined` if it is a condition. */
export function faultOf(text) {
  return withRoom((room) => {
    const fault = room.take(FAULT.size);
    const status = room.call("cfgx_check", room.keep(text), text.length, fault);
    expect(status, DONE, FAULTY);
    return status === FAULTY ? faultAt(room, fault) : undefined;
  });
}

/** Returns the bytes of what the program cfgx prints of the fault of a faulty text. */
export function explain(text) {
  return withRoom((room) => {
    const [fault, needed, place] = [room.take(FAULT.size), room.take(SIZE), room.keep(text)];
    const fill = (space) => {
      const message = room.take(space);
      const words = [place, text.length, message, space, needed, fault];
      expect(room.call("cfgx_explain", ...words), FAULTY);
      return message;
    };
    const space = text.length + REASON_ROOM;
    const first = fill(space);
    const count = room.size(needed);
    return room.bytes(count > space ? fill(count) : first, count).slice();
  });
}

/** Returns the function that reads the members of a struct, of which all are numbers. */
function reader({ size: _, ...members }) {
  const places = Object.entries(members);
  return (read) => Object.fromEntries(places.map(([name, at]) => [name, read(at)]));
}

/** Returns the bytes of the steps and the descriptions of the predicates of a condition, or the
 * fault of a faulty text. */
export function compile(text) {
  return withRoom((room) => {
    const [fault, place] = [room.take(FAULT.size), room.keep(text)];
    const counts = [room.take(SIZE), room.take(SIZE)];
    const fill = (stepRoom, predicateRoom) => {
      const steps = room.take(stepRoom * STEP.size);
      const predicates = room.take(predicateRoom * PREDICATE.size);
      const status = room.call("cfgx_compile", place, text.length, steps, stepRoom, counts[0],
                               predicates, predicateRoom, counts[1], fault);
      expect(status, DONE, FAULTY);
      return { status, steps, predicates };
    };
    let filled = fill(ROOM, ROOM);
    if (filled.status === FAULTY) {
      return { fault: faultAt(room, fault) };
    }
    const [stepCount, count] = counts.map((at) => room.size(at));
    if (stepCount > ROOM || count > ROOM) {
      filled = fill(stepCount, count);
    }
    return {
      steps: room.bytes(filled.steps, stepCount * STEP.size).slice(),
      predicates: room.structs(filled.predicates, PREDICATE.size, count, reader(PREDICATE)),
    };
  });
}

/** Returns the kinds and the numbers of steps. */
export function stepsIn(bytes) {
  const view = new DataView(bytes.buffer, bytes.byteOffset, bytes.length);
  const read = reader(STEP);
  return Array.from({ length: bytes.length / STEP.size }, (_, number) => (
    read((at) => view.getUint32(number * STEP.size + at, true))
  ));
}

/** Returns the bytes of steps with these kinds and numbers. */
export function bytesOfSteps(steps) {
  const view = new DataView(new ArrayBuffer(steps.length * STEP.size));
  steps.forEach(({ kind, number }, at) => {
    view.setUint32(at * STEP.size + STEP.kind, kind, true);
    view.setUint32(at * STEP.size + STEP.number, number, true);
  });
  return new Uint8Array(view.buffer);
}

/** Returns the number of the value of the steps of a condition over the numbers of as many answers
 * as it has predicates. */
export function apply(steps, answers) {
  return withRoom((room) => {
    const value = room.take(1);
    expect(room.call("cfgx_apply", room.keep(steps), steps.length / STEP.size,
                     room.keep(answers), answers.length, value), DONE);
    return room.bytes(value, 1)[0];
  });
}

/** Returns the fillings of a condition that is unknown over the numbers of as many answers as it
 * has predicates: the numbers of answers with which it is true, and of those with which it is
 * false. */
export function fillings(text, answers) {
  return withRoom((room) => {
    const count = answers.length;
    const [value, needed, fault] = [room.take(1), room.take(SIZE), room.take(FAULT.size)];
    const both = room.take(2 * count);
    expect(room.call("cfgx_decide", room.keep(text), text.length, room.keep(answers), count,
                     both, 2 * count, needed, value, fault), DONE);
    return [room.bytes(both, count).slice(), room.bytes(both + count, count).slice()];
  });
}

/** Returns the numbers of the answers of facts to the predicates of a condition, of which there are
 * `count`, or the fault of the first faulty fact. */
export function answers(text, count, facts, mayBeTrue) {
  return withRoom((room) => {
    const [needed, fault, found] = [room.take(SIZE), room.take(FAULT.size), room.take(count)];
    const status = room.call("cfgx_answers", room.keep(text), text.length,
                             ...room.keepList(facts), mayBeTrue, found, count, needed, fault);
    expect(status, DONE, FAULTY_FACT);
    return status === DONE ? { answers: room.bytes(found, count).slice() } :
      { fault: faultAt(room, fault) };
  });
}

/** Returns the numbers of the values of texts on targets, which have the facts up to their ends; or
 * the fault of the first faulty fact, or else of the first faulty text. */
export function audit(texts, facts, targetEnds, mayBeTrue) {
  return withRoom((room) => {
    const count = texts.length * targetEnds.length;
    const [needed, fault, values] = [room.take(SIZE), room.take(FAULT.size), room.take(count)];
    const status = room.call("cfgx_audit", ...room.keepList(texts), ...room.keepList(facts),
                             room.keepSizes(targetEnds), targetEnds.length, mayBeTrue, values,
                             count, needed, fault);
    expect(status, DONE, FAULTY, FAULTY_FACT);
    return {
      values: room.bytes(values, status === DONE ? count : 0).slice(),
      faultyFact: status === FAULTY_FACT ? faultAt(room, fault) : undefined,
      faultyText: status === FAULTY ? faultAt(room, fault) : undefined,
    };
  });
}

/** Returns the kinds and places of the tokens of a text, and the fault at which they end, if one
 * does. */
export function tokens(text) {
  return withRoom((room) => {
    const [needed, offset, fault] = [room.take(SIZE), room.take(SIZE), room.take(FAULT.size)];
    const place = room.keep(text);
    const fill = (space) => {
      const found = room.take(space * TOKEN.size);
      const status = room.call("cfgx_tokens", place, text.length, found, space, needed, offset,
                               fault);
      expect(status, DONE, FAULTY);
      return { status, found };
    };
    let filled = fill(ROOM);
    const count = room.size(needed);
    if (count > ROOM) {
      filled = fill(count);
    }
    return {
      tokens: room.structs(filled.found, TOKEN.size, count, reader(TOKEN)),
      fault: filled.status === FAULTY ? faultAt(room, fault) : undefined,
    };
  });
}
