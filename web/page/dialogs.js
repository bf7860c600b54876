// The dialogs: a new session, the link, help; and the colours.
import { State } from "../engine/index.js";
import { $, copied, counted, el, say } from "./dom.js";
import { EXAMPLES } from "./examples.js";
import { stateName } from "./words.js";

const LONG = 8000;

/** A new session: so many qubits in one state, or an example. */
export function newDialog(bench, opened) {
  const dialog = $("new-dialog");
  $("new-code").append(...[8, 10, 0, 2, 4, 6].map((code) => el("option", { value: code }, stateName(code))));
  const begin = (made) => {
    bench.begin(made);
    opened();
  };
  const example = ([name, make]) => {
    const { state, places } = make();
    begin({ start: state, places });
    dialog.close("example");
    say($("status"), name);
  };
  const button = (entry) => el("button", { type: "button", onclick: () => example(entry) }, entry[0]);
  $("examples").append(...Object.entries(EXAMPLES).map(button));
  $("new").addEventListener("click", () => dialog.showModal());
  dialog.addEventListener("close", () => {
    if (dialog.returnValue !== "new") return;
    const n = Number($("new-n").value);
    begin({ start: new State(Array(n).fill(0n), Array(n).fill(Number($("new-code").value))) });
    dialog.returnValue = "";
  });
}

/** The link of the session or of its state. */
export function linkDialog(bench) {
  const dialog = $("link-dialog");
  const show = () => {
    const whole = dialog.querySelector("input:checked").value === "session";
    const address = `${location.href.split("#")[0]}#${bench.link(whole)}`;
    $("link-text").value = address;
    const long = address.length > LONG ? " Some mail programs cut such a link: the state alone is shorter." : "";
    say($("link-said"), `${counted(address.length, "character")}.${long}`);
  };
  $("link").addEventListener("click", () => {
    show();
    dialog.showModal();
  });
  for (const radio of dialog.querySelectorAll("input[type=radio]")) radio.addEventListener("change", show);
  const copy = async () => say($("link-said"), await copied($("link-text").value, $("link-text")));
  $("link-copy").addEventListener("click", copy);
}

export function helpDialog() {
  $("help").addEventListener("click", () => $("help-dialog").showModal());
}

const THEMES = ["", "light", "dark"];
const SAID = { "": "as the system has them", light: "light", dark: "dark" };

/** Colours as the system has them, light or dark; the choice is kept in the browser where it may be. */
export function themeButton() {
  const kept = () => {
    try {
      return localStorage.getItem("theme") ?? "";
    } catch {
      return "";
    }
  };
  const use = (theme) => {
    document.documentElement.dataset.theme = theme;
    $("theme").setAttribute("aria-label", `Colours: ${SAID[theme]}`);
    $("theme").title = `Colours: ${SAID[theme]}`;
  };
  let theme = THEMES.includes(kept()) ? kept() : "";
  use(theme);
  $("theme").addEventListener("click", () => {
    theme = THEMES[(THEMES.indexOf(theme) + 1) % THEMES.length];
    use(theme);
    try {
      localStorage.setItem("theme", theme);
    } catch {
      // nothing is kept then
    }
  });
}
