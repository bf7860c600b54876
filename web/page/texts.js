// Texts in and out.
import { Refusal, generate } from "../engine/index.js";
import { $, copied, counted, el, say } from "./dom.js";
import { EXPORTS } from "./exports.js";
import { loaded } from "./loading.js";

const WHAT = { job: "A job", circuit: "A circuit", state: "A state" };

export class Texts {
  constructor(bench, opened) {
    Object.assign(this, { bench, opened });
    $("load").addEventListener("click", () => this.load($("pasted").value));
    $("file").addEventListener("change", (event) => this.#file(event.target));
    $("draw-job").addEventListener("submit", (event) => this.#draw(event));
    $("export-kind").append(...Object.entries(EXPORTS).map(([value, [text]]) => el("option", { value }, text)));
    $("export-kind").addEventListener("change", () => this.draw());
    $("copy").addEventListener("click", () => this.#copy());
    $("download").addEventListener("click", () => this.#download());
  }

  async #copy() {
    say($("export-said"), await copied($("exported").value, $("exported")));
  }

  async #file(input) {
    const [file] = input.files;
    if (!file) return;
    $("pasted").value = await file.text();
    input.value = "";
    this.load($("pasted").value);
  }

  #draw(event) {
    event.preventDefault();
    try {
      const [n, count, seed] = ["draw-n", "draw-count", "draw-seed"].map((id) => BigInt($(id).value.trim() || 0));
      $("pasted").value = generate(n, count, seed);
      this.load($("pasted").value);
    } catch (error) {
      const said = error instanceof Refusal ? error.message : "Qubits, steps and seed are whole numbers; a seed is at most 2^64 − 1.";
      say($("load-said"), said, true);
    }
  }

  /** Loads a text as a new session, or says what is wrong with it. */
  load(text) {
    try {
      const { kind, start, moves, places } = loaded(text);
      this.bench.begin({ start, moves, places });
      const ahead = moves.length ? ` with ${counted(moves.length, "step")} ahead` : "";
      say($("load-said"), `${WHAT[kind]} on ${counted(start.n, "qubit")}${ahead}.`);
      this.opened(kind);
    } catch (error) {
      say($("load-said"), error.message, true);
    }
  }

  draw() {
    const text = EXPORTS[$("export-kind").value][2](this.bench);
    $("exported").value = text ?? "";
    $("copy").disabled = $("download").disabled = text === null;
    const none = "Some steps are none of a job, or they do not start in +Z: take the job that makes this state.";
    say($("export-said"), text === null ? none : "", text === null);
  }

  #download() {
    const name = EXPORTS[$("export-kind").value][1];
    const type = name.endsWith("svg") ? "image/svg+xml" : "text/plain";
    const address = URL.createObjectURL(new Blob([$("exported").value], { type }));
    el("a", { href: address, download: name }).click();
    setTimeout(() => URL.revokeObjectURL(address), 1000);
    say($("export-said"), `${name} is saved with the downloads.`);
  }
}
