/** The package for browsers, which fetch the module from the folder of this file. */
import { start } from "./module.js";

const response = await fetch(new URL("./cfgx.wasm", import.meta.url));
if (!response.ok) {
  throw new Error(`cfgx cannot fetch ${response.url}: the status is ${response.status}`);
}
start(await WebAssembly.compile(await response.arrayBuffer()));

export * from "./index.js";
