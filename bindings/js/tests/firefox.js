/** Drives Firefox by its protocol Marionette. */
import { spawn } from "node:child_process";
import { once } from "node:events";
import { mkdtempSync, readFileSync, rmSync, writeFileSync } from "node:fs";
import { connect } from "node:net";
import { tmpdir } from "node:os";
import { join } from "node:path";
import { setTimeout as wait } from "node:timers/promises";

export const FIREFOX = process.env.FIREFOX ?? "firefox-esr";
// Any free port will do; Firefox writes the one that it took into a file of its folder.
const PREFERENCES = 'user_pref("marionette.port", 0);\n';
const PATIENCE = 60_000;

/** A Firefox with a folder of its own. */
export class Firefox {
  #folder = mkdtempSync(join(tmpdir(), "cfgx-firefox-"));
  #process;
  #socket;
  #rest = Buffer.alloc(0);
  #waiting = new Map();
  #count = 0;

  /** Starts it. */
  async start() {
    writeFileSync(join(this.#folder, "user.js"), PREFERENCES);
    const words = ["--headless", "--no-remote", "--marionette", "--profile", this.#folder];
    this.#process = spawn(FIREFOX, words, { stdio: "ignore" });
    this.#socket = connect(await this.#port(), "127.0.0.1");
    this.#socket.on("data", (data) => this.#receive(data));
    await once(this.#socket, "connect");
    await this.send("WebDriver:NewSession", {});
  }

  /** Returns the port, as soon as Firefox tells it. */
  async #port() {
    const end = Date.now() + PATIENCE;
    while (Date.now() < end) {
      try {
        return Number(readFileSync(join(this.#folder, "MarionetteActivePort"), "utf8"));
      } catch {
        await wait(50);
      }
    }
    throw new Error("Firefox does not start");
  }

  /** Takes what Firefox sends: messages, each behind the number of its bytes and a colon. */
  #receive(data) {
    this.#rest = Buffer.concat([this.#rest, data]);
    for (;;) {
      const colon = this.#rest.indexOf(":");
      const end = colon + 1 + Number(this.#rest.subarray(0, Math.max(colon, 0)).toString());
      if (colon < 0 || this.#rest.length < end) {
        return;
      }
      this.#take(JSON.parse(this.#rest.subarray(colon + 1, end).toString()));
      this.#rest = this.#rest.subarray(end);
    }
  }

  /** Takes a message. The first one only says who sends. */
  #take(message) {
    if (Array.isArray(message)) {
      const [, id, error, result] = message;
      const { resolve, reject } = this.#waiting.get(id);
      error ? reject(new Error(error.message)) : resolve(result);
    }
  }

  /** Sends a command, and returns the answer to it. */
  send(name, parameters) {
    this.#count += 1;
    const id = this.#count;
    const answer = new Promise((resolve, reject) => this.#waiting.set(id, { resolve, reject }));
    const message = Buffer.from(JSON.stringify([0, id, name, parameters]));
    this.#socket.write(Buffer.concat([Buffer.from(`${message.length}:`), message]));
    return answer;
  }

  /** Returns what an expression is in the page. */
  async see(expression) {
    const { value } = await this.send("WebDriver:ExecuteScript", {
      script: `return ${expression}`, args: [],
    });
    return value;
  }

  /** Ends it, if it was started. */
  async close() {
    if (this.#process !== undefined) {
      const ended = once(this.#process, "exit");
      this.#socket?.destroy();
      this.#process.kill();
      await ended;
    }
    rmSync(this.#folder, { recursive: true, force: true, maxRetries: 5 });
  }
}
