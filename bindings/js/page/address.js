/** What the page shows, in its address. */

// How long to wait after a change, since browsers refuse too many changes of an address.
const DELAY = 250;

let timer;
let written = "";

/** Returns the part of the address that stands for a state. */
export function addressOf({ text, line, on, off, triple, compare, isDifferent }) {
  const parts = new URLSearchParams();
  parts.set("c", text);
  const optional = {
    line: line > 0 ? line + 1 : undefined, target: triple,
    compare: compare?.map((at) => at + 1).join("-"), differ: isDifferent ? "yes" : undefined,
  };
  for (const [name, value] of Object.entries(optional)) {
    if (value !== undefined) {
      parts.set(name, value);
    }
  }
  on.forEach((one) => parts.append("on", one));
  off.forEach((one) => parts.append("off", one));
  return `#${parts}`;
}

/** Returns the state that the address stands for, or `undefined` if it has none. */
export function stateIn(address) {
  const parts = new URLSearchParams(address.replace(/^#/, ""));
  if (!parts.has("c")) {
    return undefined;
  }
  const compare = /^(\d+)-(\d+)$/.exec(parts.get("compare") ?? "");
  return {
    text: parts.get("c"),
    line: Math.max(Number.parseInt(parts.get("line") ?? "1", 10) - 1 || 0, 0),
    on: parts.getAll("on"),
    off: parts.getAll("off"),
    triple: parts.get("target") ?? undefined,
    compare: compare?.slice(1).map((number) => Number(number) - 1),
    isDifferent: parts.get("differ") === "yes",
  };
}

/** Returns the state of a text, of which nothing is chosen or decided yet. */
export function stateOf(text) {
  return stateIn(`#${new URLSearchParams({ c: text })}`);
}

/** Puts a state into the address at once. */
export function write(state) {
  clearTimeout(timer);
  written = addressOf(state);
  if (location.hash !== written) {
    history.replaceState(null, "", written);
  }
}

/** Puts a state into the address soon. */
export function writeSoon(state) {
  clearTimeout(timer);
  timer = setTimeout(() => write(state()), DELAY);
}

/** Calls back with the state of an address that someone else changed. */
export function start(load) {
  addEventListener("hashchange", () => {
    if (location.hash !== written) {
      load(stateIn(location.hash));
    }
  });
}
