// The page: its parts, and what they tell one another.
import { load, version } from "../engine/index.js";
import { Address } from "./address.js";
import { Bench } from "./bench.js";
import { Compare } from "./compare.js";
import { helpDialog, linkDialog, newDialog, themeButton } from "./dialogs.js";
import { Display } from "./display.js";
import { $, say } from "./dom.js";
import { EXAMPLES } from "./examples.js";
import { Gestures } from "./gestures.js";
import { GraphView } from "./graph.js";
import { Hand } from "./hand.js";
import { pageKeys, vertexKeys } from "./keys.js";
import * as moves from "./moves.js";
import { keepFiles } from "./offline.js";
import { askQuestions } from "./questions.js";
import { Steps } from "./steps.js";
import { Tabs } from "./tabs.js";
import { Texts } from "./texts.js";

class Page {
  constructor() {
    const { state, places } = EXAMPLES["Ring of 6"]();
    this.view = new GraphView($("graph"));
    this.bench = new Bench(state, places, this.view.size[0] / this.view.size[1]);
    this.address = new Address(this.bench);
    this.#makePanels();
    this.hand = new Hand(this.bench, this.view, () => this.#handChanged());
    this.bench.listen((happened) => this.#changed(happened));
    this.#listenToGraph();
    this.#listenToButtons();
    this.#takeDrops();
  }

  #makePanels() {
    const { bench, view } = this;
    const [steps, compare] = [new Steps(bench), new Compare(bench)];
    this.texts = new Texts(bench, (kind) => this.#loaded(kind));
    this.display = new Display(bench, view, {
      "tab-steps": () => steps.draw(),
      "tab-compare": () => compare.draw(),
      "tab-texts": () => this.texts.draw(),
    });
    this.tabs = new Tabs((chosen) => {
      this.display.chosen = chosen;
      this.display.refresh();
    });
  }

  #changed(happened) {
    if (happened.opened) this.hand.from = null;
    this.display.from = this.hand.from;
    this.display.changed(happened);
    this.address.keep();
  }

  #handChanged() {
    this.display.from = this.hand?.from ?? null;
    this.display.bubble.hide();
    this.display.refresh(false);
  }

  #loaded(kind) {
    this.address.begin();
    if (kind !== "state") this.tabs.choose("tab-steps");
  }

  #listenToGraph() {
    const { bench, view, hand } = this;
    new Gestures(view, {
      pulls: () => hand.pulls,
      click: (vertex, point) => hand.click(vertex, point),
      drag: (vertex, point) => bench.move(vertex, view.place(point, bench.state.n)),
      dragged: () => this.address.keep(),
      pair: (a, b) => hand.join(a, b),
      loop: (vertices, more) => bench.setSide(more ? [...bench.side, ...vertices] : vertices),
    });
    vertexKeys(view, {
      use: (vertex) => hand.use(vertex),
      shift: (vertex, [dx, dy]) => bench.move(vertex, [bench.places[vertex][0] + dx, bench.places[vertex][1] + dy]),
    });
    new ResizeObserver(() => this.display.refresh(false)).observe($("stage"));
  }

  #listenToButtons() {
    const { bench, hand, view } = this;
    const on = (id, does) => $(id).addEventListener("click", does);
    pageKeys({
      undo: () => bench.undo(),
      redo: () => bench.redo(),
      escape: () => hand.leaveOff() || bench.setSide([]),
      letter: (key) => hand.tools.byKey(key),
    });
    on("undo", () => bench.undo());
    on("redo", () => bench.redo());
    on("reduce", () => bench.act(moves.reduce()));
    on("skip", () => view.element(0).focus());
    askQuestions(bench, (row) => hand.measureRow(row));
    newDialog(bench, () => this.address.begin());
    linkDialog(bench);
    helpDialog();
  }

  /** A file or a text that is dropped on the page is loaded. */
  #takeDrops() {
    document.addEventListener("dragover", (event) => event.preventDefault());
    document.addEventListener("drop", async (event) => {
      event.preventDefault();
      const text = (await event.dataTransfer.files[0]?.text()) ?? event.dataTransfer.getData("text");
      $("pasted").value = text;
      if (text) this.texts.load(text);
    });
  }
}

async function begin() {
  themeButton();
  try {
    await load();
  } catch (error) {
    $("trouble").hidden = false;
    say($("trouble"), `The engine could not be loaded. ${error.message}`);
    return;
  }
  const { hash } = location;
  const page = new Page();
  $("about").textContent += ` Version ${version()}.`;
  page.address.open(hash);
  document.documentElement.dataset.ready = "yes";
  keepFiles();
}

begin();
