// Chromium without a window, driven by the DevTools protocol over a pipe.
import { spawn, execFileSync } from "node:child_process";
import { mkdtempSync, rmSync, writeFileSync } from "node:fs";
import { tmpdir } from "node:os";
import { join } from "node:path";

const NAMES = ["chromium", "chromium-browser", "google-chrome"];

/** The browser's name, or an Error that says what to install. */
function found() {
  for (const name of NAMES) {
    try {
      return execFileSync("sh", ["-c", `command -v ${name}`], { encoding: "utf8" }).trim();
    } catch {
      // the next one
    }
  }
  throw new Error("chromium was not found: apt-get install chromium");
}

// Without its sandbox: as root and in containers it has none, and it opens only pages of this machine.
const WORDS = [
  "--headless=new", "--no-sandbox", "--remote-debugging-pipe", "--no-first-run", "--no-default-browser-check", "--disable-gpu",
  "--disable-extensions", "--disable-dev-shm-usage", "--hide-scrollbars", "--force-device-scale-factor=1",
];

const ARROWS = { ArrowLeft: 37, ArrowUp: 38, ArrowRight: 39, ArrowDown: 40, Home: 36, End: 35 };
const KEYS = { Enter: 13, " ": 32, Escape: 27, Tab: 9, ...ARROWS };

/** What runs in the page: the middle of an element, scrolled into sight. */
function middleOf(selector) {
  const element = document.querySelector(selector);
  if (!element) return null;
  if (!element.closest("svg")) element.scrollIntoView({ block: "nearest" });
  const { x, y, width, height } = element.getBoundingClientRect();
  return [x + width / 2, y + height / 2];
}

function focusOn(selector) {
  const element = document.querySelector(selector);
  element.focus();
  element.select?.();
}

export class Browser {
  #next = 1;
  #waiting = new Map();
  #rest = "";
  #listeners = [];
  said = "";

  static async start({ width = 1280, height = 820 } = {}) {
    const browser = new Browser();
    browser.folder = mkdtempSync(join(tmpdir(), "bench-"));
    const words = [...WORDS, `--user-data-dir=${browser.folder}`, "about:blank"];
    browser.process = spawn(found(), words, { stdio: ["ignore", "ignore", "pipe", "pipe", "pipe"] });
    browser.process.stdio[2].setEncoding("utf8").on("data", (text) => (browser.said = (browser.said + text).slice(-2000)));
    browser.process.stdio[4].setEncoding("utf8").on("data", (text) => browser.#heard(text));
    browser.process.on("exit", () => browser.#ended());
    const { targetId } = await browser.send("Target.createTarget", { url: "about:blank" }, null);
    ({ sessionId: browser.session } = await browser.send("Target.attachToTarget", { targetId, flatten: true }, null));
    for (const domain of ["Page", "Runtime", "Log", "Network"]) await browser.send(`${domain}.enable`);
    await browser.size(width, height);
    browser.#keepFaults();
    return browser;
  }

  /** Keeps what the page throws or the browser reports as an error. */
  #keepFaults() {
    this.faults = [];
    const said = {
      "Runtime.exceptionThrown": ({ exceptionDetails: { exception, text } }) => exception?.description ?? text,
      "Log.entryAdded": ({ entry: { level, text, url } }) => (level === "error" ? `${text} ${url ?? ""}` : null),
    };
    this.listen((method, params) => {
      const fault = said[method]?.(params);
      if (fault) this.faults.push(fault);
    });
  }

  #heard(text) {
    const parts = (this.#rest + text).split("\0");
    this.#rest = parts.pop();
    for (const part of parts) this.#message(JSON.parse(part));
  }

  #message({ id, method, params, result, error }) {
    if (method) return this.#listeners.forEach((listener) => listener(method, params));
    const { resolve, reject, name } = this.#waiting.get(id);
    this.#waiting.delete(id);
    return error ? reject(new Error(`${name}: ${error.message}`)) : resolve(result);
  }

  #ended() {
    const error = new Error(`chromium has ended: ${this.said}`);
    for (const { reject } of this.#waiting.values()) reject(error);
  }

  listen(listener) {
    this.#listeners.push(listener);
  }

  /** Sends a command of the protocol, and waits for its answer. */
  send(method, params = {}, session = this.session) {
    const id = this.#next++;
    const answer = new Promise((resolve, reject) => this.#waiting.set(id, { resolve, reject, name: method }));
    this.process.stdio[3].write(`${JSON.stringify({ id, method, params, ...(session ? { sessionId: session } : {}) })}\0`);
    return answer;
  }

  async size(width, height, mobile = false) {
    await this.send("Emulation.setDeviceMetricsOverride", { width, height, deviceScaleFactor: 1, mobile });
    await this.send("Emulation.setTouchEmulationEnabled", { enabled: mobile });
    for (let frame = 0; frame < 3; frame++) await this.settled();
  }

  async colours(scheme) {
    const features = [["prefers-color-scheme", scheme], ["prefers-reduced-motion", "reduce"]];
    await this.send("Emulation.setEmulatedMedia", { features: features.map(([name, value]) => ({ name, value })) });
  }

  /** What an expression is in the page, a promise's value too. */
  async value(expression) {
    const how = { awaitPromise: true, returnByValue: true };
    const { result, exceptionDetails: fault } = await this.send("Runtime.evaluate", { expression, ...how });
    if (fault) throw new Error(`${expression}: ${fault.exception?.description ?? fault.text}`);
    return result.value;
  }

  /** What a function answers that runs in the page. */
  run(what, ...given) {
    return this.value(`(${what})(${given.map((value) => JSON.stringify(value)).join(", ")})`);
  }

  /** Whether the network is there. */
  async network(there) {
    const rates = { latency: 0, downloadThroughput: -1, uploadThroughput: -1 };
    await this.send("Network.emulateNetworkConditions", { offline: !there, ...rates });
  }

  /** Waits until an expression is true. */
  async until(expression, seconds = 40) {
    const end = Date.now() + 1000 * seconds;
    while (Date.now() < end) {
      if (await this.value(expression).catch(() => false)) return;
      await new Promise((resolve) => setTimeout(resolve, 15));
    }
    throw new Error(`never true: ${expression}`);
  }

  async open(address) {
    await this.send("Page.navigate", { url: "about:blank" });
    await this.send("Page.navigate", { url: address });
    await this.until("document.documentElement.dataset.ready");
    for (let frame = 0; frame < 2; frame++) await this.settled();
  }

  /** Waits for a frame: what was due before it is drawn. */
  settled() {
    return this.value("new Promise((done) => requestAnimationFrame(() => done(true)))");
  }

  async mouse(type, x, y, more = {}) {
    await this.send("Input.dispatchMouseEvent", { type, x, y, button: "left", clickCount: 1, ...more });
  }

  async clickAt(x, y) {
    await this.mouse("mousePressed", x, y);
    await this.mouse("mouseReleased", x, y);
    await this.settled();
  }

  /** The middle of an element, scrolled into sight. */
  async middle(selector) {
    const middle = await this.run(middleOf, selector);
    if (!middle) throw new Error(`no element ${selector}`);
    return middle;
  }

  async click(selector) {
    await this.clickAt(...(await this.middle(selector)));
  }

  async drag(points) {
    await this.mouse("mousePressed", ...points[0]);
    for (const point of points) await this.mouse("mouseMoved", ...point, { buttons: 1 });
    await this.mouse("mouseReleased", ...points[points.length - 1]);
    await this.settled();
  }

  async tap(x, y) {
    await this.send("Input.dispatchTouchEvent", { type: "touchStart", touchPoints: [{ x, y }] });
    await this.send("Input.dispatchTouchEvent", { type: "touchEnd", touchPoints: [] });
    await this.settled();
  }

  /** Presses a key, with Ctrl (2), Alt (1) or Shift (8). */
  async key(key, modifiers = 0) {
    const text = key.length === 1 && !(modifiers & 3) ? key : key === "Enter" ? "\r" : undefined;
    const windowsVirtualKeyCode = KEYS[key] ?? key.toUpperCase().charCodeAt(0);
    await this.send("Input.dispatchKeyEvent", { type: "keyDown", key, text, modifiers, windowsVirtualKeyCode });
    await this.send("Input.dispatchKeyEvent", { type: "keyUp", key, modifiers, windowsVirtualKeyCode });
    await this.settled();
  }

  /** Puts a text into a field, as a paste does. */
  async fill(selector, text) {
    await this.run(focusOn, selector);
    await this.send("Input.insertText", { text });
    await this.settled();
  }

  async text(selector) {
    return this.run((found) => document.querySelector(found).textContent, selector);
  }

  /** An attribute or a property of an element. */
  async of(selector, name) {
    return this.run((found, key) => document.querySelector(found).getAttribute(key) ?? document.querySelector(found)[key], selector, name);
  }

  async picture(file) {
    const { data } = await this.send("Page.captureScreenshot", { format: "png" });
    writeFileSync(file, Buffer.from(data, "base64"));
  }

  async end() {
    const gone = new Promise((resolve) => this.process.once("exit", resolve));
    await this.send("Browser.close", {}, null).catch(() => this.process.kill());
    await gone;
    rmSync(this.folder, { recursive: true, force: true, maxRetries: 5 });
  }
}
