// The bench in a browser: served by tools/bench-page, and used by clicks and keys.
import { spawn } from "node:child_process";
import { readFile } from "node:fs/promises";
import { createServer } from "node:http";
import { extname } from "node:path";
import { Browser } from "./browser.mjs";
import { ROOT } from "./places.mjs";

/** Serves target/web, and answers its address and what ends it. */
export async function served() {
  const server = spawn("python3", [`${ROOT}tools/bench-page`, "--made", "--quiet", "--port", "0"], { stdio: ["ignore", "pipe", "inherit"] });
  process.once("exit", () => server.kill());
  process.once("SIGTERM", () => process.exit(1));
  const address = await new Promise((resolve, reject) => {
    server.stdout.once("data", (text) => resolve(String(text).split(" ")[0]));
    server.once("exit", () => reject(new Error("tools/bench-page has ended")));
  });
  const gone = new Promise((resolve) => server.once("exit", resolve));
  return { address, end: () => server.kill() && gone };
}

const TYPES = { ".html": "text/html", ".css": "text/css", ".js": "text/javascript", ".svg": "image/svg+xml" };

/** Serves target/web below a folder by a plain file server that knows few types, not .wasm and not .mjs. */
export async function plainlyServed() {
  const server = createServer(async (request, answer) => {
    const name = /^\/some\/where\/([^?]*)/.exec(request.url)?.[1] || "index.html";
    const bytes = await readFile(`${ROOT}target/web/${name}`).catch(() => null);
    answer.writeHead(bytes ? 200 : 404, { "Content-Type": TYPES[extname(name)] ?? "application/octet-stream" });
    answer.end(bytes ?? "");
  });
  await new Promise((resolve) => server.listen(0, "127.0.0.1", resolve));
  return { address: `http://127.0.0.1:${server.address().port}/some/where/`, end: () => (server.close(), server.closeAllConnections()) };
}

/** What runs in the page: the place of a button by its text, from 1. */
function buttonAt(text) {
  return [...document.querySelectorAll("#examples button")].findIndex((button) => button.textContent === text) + 1;
}

function chooseIn(selector, value) {
  const menu = document.querySelector(selector);
  menu.value = value;
  menu.dispatchEvent(new Event("change", { bubbles: true }));
}

export class BenchPage extends Browser {
  static async begin(options) {
    const page = Object.setPrototypeOf(await Browser.start(options), BenchPage.prototype);
    await page.colours("light");
    return page;
  }

  /** Where a vertex is. */
  vertex(q) {
    return this.middle(`#graph [data-vertex="${q}"] .body`);
  }

  async clickVertex(q) {
    await this.clickAt(...(await this.vertex(q)));
  }

  /** Chooses a tool and its options, by the values of their radio buttons. */
  async tool(name, options = {}) {
    await this.click(`[data-tool=${name}]`);
    for (const [option, value] of Object.entries(options)) await this.click(`input[name=${option}][value="${value}"]`);
  }

  async tab(name) {
    await this.click(`#tab-${name}`);
  }

  /** A new session of n qubits in +Z. */
  async fresh(n) {
    await this.click("#new");
    await this.fill("#new-n", String(n));
    await this.click("#new-do");
  }

  async example(name) {
    await this.click("#new");
    await this.click(`#examples button:nth-child(${await this.run(buttonAt, name)})`);
  }

  async choose(selector, value) {
    await this.run(chooseIn, selector, value);
    await this.settled();
  }

  /** What the page exports. */
  async exported(kind) {
    await this.tab("texts");
    await this.choose("#export-kind", kind);
    return this.value("document.querySelector('#exported').value");
  }

  /** Loads a text by pasting it. */
  async paste(text) {
    await this.tab("texts");
    await this.value("document.querySelector('#pasted').value = ''");
    await this.fill("#pasted", text);
    await this.click("#load");
  }
}
