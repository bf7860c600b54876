// The page in chromium, by clicks, keys and fingers; its answers against those of the proved programs and the command.
// Needs chromium, target/web (tools/bench-page --build), target/bin and target/shared.
import assert from "node:assert/strict";
import { mkdtempSync, rmSync, writeFileSync } from "node:fs";
import { tmpdir } from "node:os";
import { join } from "node:path";
import { after, before, test } from "node:test";
import { BenchPage, plainlyServed, served } from "./bench.mjs";
import { command, program } from "./places.mjs";

let page;
let server;
const folder = mkdtempSync(join(tmpdir(), "bench-test-"));

before(async () => {
  server = await served();
  page = await BenchPage.begin();
});

after(async () => {
  await page?.end();
  server?.end();
  rmSync(folder, { recursive: true });
});

const LIST = "sign z x\n0 0000000000000000 0000000000000003\n0 0000000000000003 0000000000000000\n";
const BELL = "qubits\n2\nop a b value\ngate 0 0 8\ngate 1 0 8\ncz 0 1 0\ngate 1 0 8\n";

/** The record that the program job prints of a text. */
const recordOf = (job) => program("job", job).replace(/.*(?=qubit code)/s, "");

/** A Bell pair on a new page, by clicks alone. */
async function bell() {
  await page.open(server.address);
  await page.fresh(1);
  await page.tool("add", { added: 8 });
  const [x, y] = await page.vertex(0);
  await page.clickAt(x + 150, y);
  await page.tool("gate", { gate: "H" });
  await page.clickVertex(0);
  await page.tool("join", { pair: "CX" });
  await page.clickVertex(0);
  await page.clickVertex(1);
}

test("a Bell pair by clicks is the one of the command", async () => {
  await bell();
  assert.equal(await page.text("#generators"), "+XX\n+ZZ\n");
  assert.equal(await page.exported("record"), command(["reduce"], LIST).stdout);
  assert.equal(await page.exported("record"), recordOf(BELL));
  assert.ok(program("job", await page.exported("steps")).endsWith(recordOf(BELL)));
});

test("a refused measurement says its words where it happens, and changes nothing", async () => {
  await bell();
  await page.tool("measure", { pauli: "Z", outcome: "1" });
  await page.clickVertex(0);
  assert.equal(await page.text("#status"), "measure Z at 0 with 1: outcome 1, not determined");
  await page.tool("measure", { outcome: "0" });
  await page.clickVertex(1);
  assert.match(await page.text("#bubble"), /^Refused 14: a determined outcome contradicts the supplied bit/);
  await page.clickVertex(0);
  assert.match(await page.text("#bubble"), /^Refused 16: the call names a used qubit/);
  const said = program("job", `${BELL}measure 0 0 5\nmeasure 1 0 4\nmeasure 0 0 4\n`);
  assert.match(said, /\n4 0 1 0\n5 14 0 0\n6 16 0 0\n/);
  assert.equal(await page.value("document.querySelector('#bubble').className"), "bubble refused");
  assert.equal(await page.exported("record"), said.replace(/.*(?=qubit code)/s, ""));
});

test("undo and redo, by keys and buttons", async () => {
  await bell();
  await page.key("z", 2);
  assert.equal(await page.text("#generators"), "+XI\n+IZ\n");
  await page.click("#undo");
  await page.click("#undo");
  assert.equal(await page.text("#generators"), "+Z\n");
  assert.equal(await page.value("document.querySelector('#undo').disabled"), true);
  for (let k = 0; k < 3; k++) await page.key("y", 2);
  assert.equal(await page.text("#generators"), "+XX\n+ZZ\n");
  assert.equal(await page.value("document.querySelector('#redo').disabled"), true);
});

test("a used photon is shown as such, and renewed", async () => {
  await bell();
  await page.tool("measure", { pauli: "X", outcome: "0" });
  await page.clickVertex(0);
  assert.equal(await page.of('[data-vertex="0"]', "aria-label"), "Qubit 0, used, left in +X");
  await page.tool("renew", { code: 4 });
  await page.clickVertex(1);
  assert.match(await page.text("#bubble"), /^Refused 20: the qubit to renew is not used/);
  await page.clickVertex(0);
  assert.equal(await page.text("#generators"), "+YI\n+IX\n");
});

test("a job of 4,096 steps is stepped through, and ends as the program says", async () => {
  await page.open(server.address);
  await page.tab("texts");
  await page.click("#draw-job button");
  const text = await page.value("document.querySelector('#pasted').value");
  assert.equal(text.split("\n").length, 4096 + 4);
  assert.equal(await page.text("#where"), "0 of 4096 done");
  for (let k = 0; k < 3; k++) await page.click("#forward");
  const first = text.split("\n").slice(0, 6).join("\n");
  assert.equal(await page.text("#where"), "3 of 4096 done");
  assert.equal(await page.exported("record"), recordOf(`${first}\n`));
  await page.tab("steps");
  await page.fill("#goto", "700");
  await page.click("#goto-do");
  assert.equal(await page.exported("record"), recordOf(`${text.split("\n").slice(0, 703).join("\n")}\n`));
  await page.tab("steps");
  await page.click("#last");
  assert.equal(await page.text("#where"), "4096 of 4096 done");
  const due = program("job", text);
  const shown = await page.run(() => [...document.querySelectorAll("#steps li")].map((line) => [line.id, line.title]));
  const lines = due.split("\n").slice(1).map((line) => line.split(" "));
  for (const [id, told] of shown) assert.equal(/refused (\d+)/.exec(told)?.[1] ?? "0", lines[id.slice(5)][1], id);
  assert.ok(shown.length > 10);
  assert.equal(await page.exported("record"), due.replace(/.*(?=qubit code)/s, ""));
  assert.equal(await page.exported("steps"), text);
});

test("a circuit is pasted and stepped through; noise is refused with its line", async () => {
  await page.open(server.address);
  await page.paste("H 0\nDEPOLARIZE1(0.1) 0\n");
  assert.match(await page.text("#load-said"), /^line 2: DEPOLARIZE1 is noise/);
  await page.paste("H 0\nCX 0 1 1 2\nM 0 1 2\n");
  await page.click("#last");
  const told = await page.value("[...document.querySelectorAll('#steps li')].map((line) => line.title)");
  assert.equal(told.length, 6);
  assert.equal(new Set(told.slice(3).map((text) => /outcome \d/.exec(text)[0])).size, 1);
});

test("two rings are compared: the choice, the complementations and their film are the command's", async () => {
  await page.open(server.address);
  await page.example("Ring of 6");
  await page.tool("gate", { gate: "SQRT_X" });
  await page.clickVertex(0);
  await page.clickVertex(3);
  await page.tool("gate", { gate: "S" });
  await page.clickVertex(1);
  const [ring, present] = [join(folder, "ring.txt"), join(folder, "present.txt")];
  writeFileSync(ring, "+XZIIIZ\n+ZXZIII\n+IZXZII\n+IIZXZI\n+IIIZXZ\n+ZIIIZX\n");
  writeFileSync(present, await page.exported("strings"));
  const due = command(["compare", present, ring]).stdout.split("\n");
  await page.tab("compare");
  await page.choose("#first-state", "present");
  await page.choose("#second-state", "family ring");
  await page.click("#compare");
  const rows = await page.run(() => {
    const cells = (row) => [...row.cells].slice(0, 3).map((cell) => cell.textContent);
    return [...document.querySelectorAll("#choice tbody tr")].map((row) => cells(row).join(" "));
  });
  assert.deepEqual(rows, due.slice(1, 7));
  const list = due[7].split(" ").slice(1);
  assert.equal(await page.text("#compare-said"), `Equivalent, by ${list.length} complementations at ${list.join(", ")}.`);
  for (let k = 0; k < list.length; k++) await page.click("#film-next");
  assert.match(await page.text("#frame"), /This is the reduced graph of the second state\.$/);
  assert.equal(await page.value("document.querySelector('#film .edges').getAttribute('d').match(/M/g).length"), 6);
  await page.choose("#second-state", "family path");
  await page.click("#compare");
  assert.match(await page.text("#compare-said"), /^Not equivalent \(13\)/);
  await page.choose("#second-state", "text");
  await page.fill("#other-text", "+XX\n+ZI");
  await page.click("#compare");
  assert.equal(await page.text("#compare-said"), "refused 9: two generators do not commute");
});

test("a link opens the session again, with its past, its places and its named states", async () => {
  await bell();
  await page.tab("compare");
  await page.fill("#name", "bell");
  await page.click("#save button");
  await page.tool("measure", { pauli: "Z", outcome: "lot" });
  await page.clickVertex(0);
  await page.key("z", 2);
  await page.click("#link");
  const link = await page.value("document.querySelector('#link-text').value");
  await page.click("#link-dialog button[value='']");
  const [record, places] = [await page.exported("record"), [await page.vertex(0), await page.vertex(1)]];
  await page.open(link);
  assert.equal(await page.exported("record"), record);
  const again = [await page.vertex(0), await page.vertex(1)];
  places.forEach((place, q) => place.forEach((part, axis) => assert.ok(Math.abs(part - again[q][axis]) < 2)));
  await page.click("#redo");
  assert.match(await page.exported("record"), /^0 \d+ 0{16} 1$/m);
  await page.tab("compare");
  assert.match(await page.text("#held"), /^bell 2 qubits, 1 edge/);
  await page.click("#held button");
  assert.equal(await page.exported("record"), record);
  await page.open(`${server.address}#start=2.AA.Q.0&moves=H.0;FOO.1`);
  assert.match(await page.text("#status"), /^This link cannot be opened: the link has a move that is none: FOO\.1/);
});

test("a loop marks a side, whose entanglement and a typed row's value are the command's", async () => {
  await page.open(server.address);
  await page.example("Ring of 6");
  await page.tool("select");
  const [[x1, y1], [x2, y2]] = [await page.vertex(1), await page.vertex(2)];
  await page.drag([[x1 - 50, y1 - 50], [x1 + 50, y1 - 50], [x2 + 50, y2 + 50], [x2 - 50, y2 + 50], [x1 - 50, y1 - 50]]);
  await page.tab("state");
  assert.equal(await page.value("document.querySelector('#side').value"), "1 2");
  assert.equal(await page.text("#rank"), "2");
  writeFileSync(join(folder, "ring.txt"), await page.exported("strings"));
  await page.tab("state");
  for (const row of ["+XZIIIZ", "-XZIIIZ", "XIIIII"]) {
    await page.fill("#row", row);
    const due = command(["expectation", join(folder, "ring.txt"), "--", row]).stdout.split("\n")[1].split(" ")[1];
    assert.equal((await page.text("#value")).replace("−", "-").replace("+", ""), due);
  }
  await page.fill("#row", "XX");
  assert.match(await page.text("#expectation"), /^refused 1: .*\(2 typed\)$/);
  await page.fill("#row", "XXXXXX");
  await page.click("#measure-row");
  assert.match(await page.text("#value"), /^[+−]1$/);
});

test("the keyboard does all of it", async () => {
  await page.open(server.address);
  await page.fresh(3);
  await page.value("document.querySelector('[data-vertex=\"0\"]').focus()");
  await page.key("g");
  await page.key("Enter");
  assert.match(await page.text("#generators"), /^\+XII/);
  await page.key("End");
  await page.key("Enter");
  await page.key("j");
  await page.key("Home");
  await page.key("Enter");
  await page.key("End");
  await page.key("Enter");
  assert.equal(await page.value("document.activeElement.dataset.vertex"), "2");
  assert.match(await page.text("#generators"), /^\+XIZ/);
  const before = await page.vertex(2);
  await page.key("ArrowLeft", 1);
  assert.ok((await page.vertex(2))[0] < before[0]);
  await page.key("ArrowUp");
  assert.equal(await page.value("document.activeElement.dataset.vertex"), "0");
  await page.key("v");
  await page.key(" ");
  assert.equal(await page.value("document.querySelector('#side').value"), "0");
  await page.key("Escape");
  assert.equal(await page.value("document.querySelector('#side').value"), "");
  await page.value("document.querySelector('#tab-state').focus()");
  await page.key("ArrowRight");
  assert.equal(await page.value("document.activeElement.id"), "tab-steps");
});

test("everything that takes the focus has a name and a role", async () => {
  await page.open(server.address);
  await page.send("Accessibility.enable");
  for (const tab of ["state", "steps", "compare", "texts"]) {
    await page.tab(tab);
    const { nodes } = await page.send("Accessibility.getFullAXTree");
    const takesFocus = ({ properties }) => properties?.some(({ name, value }) => name === "focusable" && value.value);
    const found = nodes.filter((node) => !node.ignored && takesFocus(node) && node.role.value !== "RootWebArea");
    assert.ok(found.length > 15);
    for (const { role, name } of found) assert.ok(name?.value && role.value !== "generic", `${role.value} without a name`);
  }
});

test("on a telephone nothing is wider than the screen, and fingers work", async () => {
  await page.size(390, 844, true);
  await page.open(server.address);
  await page.tool("gate", { gate: "H" });
  await page.tap(...(await page.vertex(3)));
  assert.equal(await page.text("#status"), "H at 3");
  for (const tab of ["state", "steps", "compare", "texts"]) {
    await page.tab(tab);
    assert.ok((await page.value("document.documentElement.scrollWidth")) <= 390, tab);
  }
  await page.size(1280, 820);
});

/** What runs in the page: the time from the next click to its picture. */
function timeToPicture() {
  const drawn = (event, done) => {
    const channel = new MessageChannel(); // its message comes after the frame is painted
    channel.port1.onmessage = () => done(performance.now() - event.timeStamp);
    requestAnimationFrame(() => channel.port2.postMessage(0));
  };
  window.drawn = new Promise((done) => {
    document.querySelector("#graph").addEventListener("pointerup", (event) => drawn(event, done), { once: true });
  });
}

/** The times between frames from now on. */
function timeFrames() {
  window.between = [];
  let last = performance.now();
  const tick = (now) => {
    window.between.push(now - last);
    last = now;
    requestAnimationFrame(tick);
  };
  requestAnimationFrame(tick);
}

test("64 vertices: a click is a picture soon, and a drag does not stutter", async (context) => {
  await page.open(server.address);
  const gates = Array.from({ length: 64 }, (_, q) => `gate ${q} 0 8\n`).join("");
  const pairs = Array.from({ length: 900 }, (_, k) => `cz ${(7 * k) % 64} ${(7 * k + 1 + ((k * k) % 62)) % 64} 0\n`).join("");
  await page.paste(`qubits\n64\nop a b value\n${gates}${pairs}`);
  await page.click("#last");
  await page.tab("state");
  await page.tool("complement");
  const times = [];
  for (const q of [5, 20, 33, 47, 60]) {
    await page.run(timeToPicture);
    await page.clickVertex(q);
    times.push(await page.value("window.drawn"));
  }
  const [x, y] = await page.vertex(27);
  await page.tool("select");
  await page.run(timeFrames);
  await page.drag(Array.from({ length: 30 }, (_, k) => [x + 3 * k, y + 2 * k]));
  const worst = await page.value("Math.max(...window.between)");
  const edges = await page.value("document.querySelector('#graph .edges').getAttribute('d').match(/M/g).length");
  const middle = times.sort((a, b) => a - b)[2];
  const click = `${middle.toFixed(0)} ms from click to picture (most ${times[4].toFixed(0)})`;
  context.diagnostic(`64 vertices, ${edges} edges: ${click}, slowest frame of a drag ${worst.toFixed(0)} ms`);
  assert.ok(edges > 300 && middle < 1000, `${middle} ms`);
});

test("all comes from the page's own address, nothing after it is loaded, and no fault is told", async () => {
  const asked = [];
  page.listen((method, params) => method === "Network.requestWillBeSent" && asked.push(params.request.url));
  await page.open(server.address);
  await page.until("document.documentElement.dataset.kept");
  const loaded = asked.length;
  assert.ok(loaded > 20 && asked.every((url) => url.startsWith(server.address) || url === "about:blank"), asked.join(" "));
  await page.network(false);
  await page.example("Cluster of 8 × 8");
  for (const tab of ["steps", "compare", "texts", "state"]) await page.tab(tab);
  await page.network(true);
  assert.equal(asked.length, loaded);
  assert.deepEqual(page.faults, []);
});

test("any file server will do, below any folder", async (context) => {
  const plain = await plainlyServed();
  context.after(() => plain.end());
  await page.open(plain.address);
  await page.until("document.documentElement.dataset.kept");
  assert.match(await page.text("#generators"), /^\+XZIIIZ\n/);
  assert.deepEqual(page.faults, []);
});

test("where its server is gone the page opens again from what the browser kept", async () => {
  await page.open(server.address);
  await page.until("document.documentElement.dataset.kept && navigator.serviceWorker.controller");
  await server.end();
  await page.open(`${server.address}#start=2.AI.g.0`);
  assert.equal(await page.text("#generators"), "+XX\n+ZZ\n");
});
