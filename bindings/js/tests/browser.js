/** Drives a browser over the pipe of its DevTools protocol. */
import { spawn } from "node:child_process";
import { once } from "node:events";
import { mkdtempSync, rmSync } from "node:fs";
import { tmpdir } from "node:os";
import { join } from "node:path";
import { setTimeout as wait } from "node:timers/promises";

export const CHROMIUM = process.env.CHROMIUM ?? "chromium";
const FLAGS = [
  "--headless", "--no-sandbox", "--disable-gpu", "--hide-scrollbars", "--no-first-run",
  "--disable-extensions", "--disable-background-networking", "--remote-debugging-pipe",
];
// How long something may take to be shown, in milliseconds.
const PATIENCE = 20_000;
// The codes of keys that are no letters.
const CODES = { Enter: 13, Tab: 9, Escape: 27, Home: 36, End: 35, ArrowLeft: 37, ArrowUp: 38,
                ArrowRight: 39, ArrowDown: 40, Backspace: 8, Delete: 46, " ": 32 };
const CONTROL = 2;
const SHIFT = 8;

/** A browser with a folder of its own, and messages to and from it. */
export class Browser {
  #folder = mkdtempSync(join(tmpdir(), "cfgx-browser-"));
  #process;
  #waiting = new Map();
  #listeners = new Set();
  #rest = "";
  #count = 0;

  constructor() {
    this.#process = spawn(CHROMIUM, [...FLAGS, `--user-data-dir=${this.#folder}`], {
      stdio: ["ignore", "ignore", "ignore", "pipe", "pipe"],
    });
    this.#process.stdio[4].setEncoding("utf8").on("data", (data) => this.#receive(data));
  }

  /** Takes what the browser sends: messages that zero bytes end. */
  #receive(data) {
    const messages = (this.#rest + data).split("\0");
    this.#rest = messages.pop();
    for (const message of messages.map((text) => JSON.parse(text))) {
      if (message.id === undefined) {
        this.#listeners.forEach((listener) => listener(message));
      } else {
        const { resolve, reject } = this.#waiting.get(message.id);
        this.#waiting.delete(message.id);
        message.error ? reject(new Error(message.error.message)) : resolve(message.result);
      }
    }
  }

  /** Sends a message, and returns the answer to it. */
  send(method, params = {}, sessionId = undefined) {
    this.#count += 1;
    const id = this.#count;
    const answer = new Promise((resolve, reject) => this.#waiting.set(id, { resolve, reject }));
    this.#process.stdio[3].write(`${JSON.stringify({ id, method, params, sessionId })}\0`);
    return answer;
  }

  /** Calls back with each event. */
  listen(listener) {
    this.#listeners.add(listener);
  }

  /** Opens a page, of this width and height in pixels and in this colour scheme. */
  async open(url, { width = 1280, height = 900, scheme = "light" } = {}) {
    const { targetId } = await this.send("Target.createTarget", { url: "about:blank" });
    const { sessionId } = await this.send("Target.attachToTarget", { targetId, flatten: true });
    const page = new Page(this, targetId, sessionId);
    await page.prepare(width, height, scheme);
    await page.go(url);
    return page;
  }

  /** Ends the browser. */
  async close() {
    const ended = once(this.#process, "exit");
    await this.send("Browser.close");
    await ended;
    rmSync(this.#folder, { recursive: true, force: true, maxRetries: 5 });
  }
}

/** A page, with what it asked of a network and what its console says. */
export class Page {
  #browser;
  #target;
  #session;
  requests = [];
  complaints = [];

  constructor(browser, target, session) {
    this.#browser = browser;
    this.#target = target;
    this.#session = session;
    browser.listen(({ method, params, sessionId }) => {
      if (sessionId === session) {
        this.#note(method, params);
      }
    });
  }

  #note(method, params) {
    if (method === "Network.requestWillBeSent") {
      this.requests.push(params.request.url);
    } else if (method === "Runtime.consoleAPICalled" || method === "Log.entryAdded") {
      this.complaints.push(JSON.stringify(params.entry ?? params.args));
    } else if (method === "Runtime.exceptionThrown") {
      this.complaints.push(params.exceptionDetails.exception?.description);
    }
  }

  send(method, params) {
    return this.#browser.send(method, params, this.#session);
  }

  async prepare(width, height, scheme) {
    for (const domain of ["Page", "Runtime", "Network", "Log", "DOM"]) {
      await this.send(`${domain}.enable`);
    }
    await this.resize(width, height);
    await this.send("Emulation.setEmulatedMedia", {
      features: [{ name: "prefers-color-scheme", value: scheme }],
    });
  }

  /** Gives the page another size, in pixels. */
  resize(width, height, deviceScaleFactor = 1) {
    return this.send("Emulation.setDeviceMetricsOverride", {
      width, height, deviceScaleFactor, mobile: false,
    });
  }

  /** Goes to an address, and waits until the page is there. */
  async go(url) {
    await this.send("Page.navigate", { url });
    await this.until(`document.readyState === "complete" &&
      document.querySelector("#cells button, body:not(:has(#cells))") !== null`);
  }

  /** Returns what an expression is in the page. A test uses it to see what is shown. */
  async see(expression) {
    const { result, exceptionDetails } = await this.send("Runtime.evaluate", {
      expression, returnByValue: true, awaitPromise: true,
    });
    if (exceptionDetails) {
      throw new Error(exceptionDetails.exception?.description ?? exceptionDetails.text);
    }
    return result.value;
  }

  /** Waits until an expression is true in the page. */
  async until(expression) {
    const end = Date.now() + PATIENCE;
    while (!await this.see(`Boolean(${expression})`).catch(() => false)) {
      if (Date.now() > end) {
        throw new Error(`not shown: ${expression}`);
      }
      await wait(20);
    }
  }

  /** Waits until what was done is drawn. */
  settle() {
    return this.see("new Promise((done) => requestAnimationFrame(() => setTimeout(done, 0)))");
  }

  /** Returns the text that an element shows. */
  text(selector) {
    return this.see(`document.querySelector(${JSON.stringify(selector)}).innerText`);
  }

  /** Returns the texts that elements show. */
  texts(selector) {
    return this.see(`[...document.querySelectorAll(${JSON.stringify(selector)})]
      .map((one) => one.innerText)`);
  }

  /** Clicks into the middle of an element. */
  async click(selector) {
    const [x, y] = await this.see(`(() => {
      const one = document.querySelector(${JSON.stringify(selector)});
      one.scrollIntoView({ block: "center", behavior: "instant" });
      const box = one.getBoundingClientRect();
      return [box.left + box.width / 2, box.top + box.height / 2];
    })()`);
    for (const type of ["mousePressed", "mouseReleased"]) {
      await this.send("Input.dispatchMouseEvent", { type, x, y, button: "left", clickCount: 1 });
    }
    await this.settle();
  }

  /** Presses a key, with the Control or the Shift key if its name begins with `Control+` or
   * `Shift+`. */
  async press(name, commands = []) {
    const key = name.replace(/^(Control|Shift)\+/, "");
    const modifiers = name.startsWith("Control+") ? CONTROL : name.startsWith("Shift+") ? SHIFT : 0;
    const text = key === "Enter" ? "\r" : key.length === 1 && modifiers === 0 ? key : undefined;
    const isWord = /^[a-z0-9]$/i.test(key);
    const number = CODES[key] ?? (isWord ? key.toUpperCase().charCodeAt(0) : 0);
    const event = { key, windowsVirtualKeyCode: number, modifiers };
    await this.send("Input.dispatchKeyEvent", {
      type: text === undefined ? "rawKeyDown" : "keyDown", text, commands, ...event,
    });
    await this.send("Input.dispatchKeyEvent", { type: "keyUp", ...event });
    await this.settle();
  }

  /** Types into what has the focus, in place of all that is there. */
  async write(text) {
    await this.click("#text");
    await this.press("Control+a", ["selectAll"]);
    await this.send("Input.insertText", { text });
    await this.settle();
  }

  /** Chooses an option of a list. */
  async choose(selector, value) {
    await this.see(`(() => {
      const list = document.querySelector(${JSON.stringify(selector)});
      list.value = ${JSON.stringify(value)};
      list.dispatchEvent(new Event("change", { bubbles: true }));
    })()`);
    await this.settle();
  }

  /** Returns a picture of the page, or of its first pixels from the top on, as bytes of a PNG. */
  async picture(height = undefined) {
    const { cssContentSize, cssVisualViewport } = await this.send("Page.getLayoutMetrics");
    const clip = { x: 0, y: 0, width: cssVisualViewport.clientWidth,
                   height: height ?? cssContentSize.height, scale: 1 };
    const { data } = await this.send("Page.captureScreenshot", {
      format: "png", clip, captureBeyondViewport: true,
    });
    return Buffer.from(data, "base64");
  }

  close() {
    return this.#browser.send("Target.closeTarget", { targetId: this.#target });
  }
}
