/** The package for Node, which reads the module from the folder of this file. */
import { readFileSync } from "node:fs";
import { start } from "./module.js";

start(new WebAssembly.Module(readFileSync(new URL("./cfgx.wasm", import.meta.url))));

export * from "./index.js";
