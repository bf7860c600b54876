// Writes the pictures of the page that documents show: node web/tests/pictures.mjs (to docs/pictures, or to a folder).
// Needs chromium and target/web (tools/bench-page --build).
import { BenchPage, served } from "./bench.mjs";
import { ROOT } from "./places.mjs";

const folder = process.argv[2] ?? `${ROOT}docs/pictures`;

/** README's ring of six: S at 2, Y measured at 0, the side of 1 and 2, a row. */
async function ring(page) {
  await page.size(1180, 760);
  await page.example("Ring of 6");
  await page.tool("gate", { gate: "S" });
  await page.clickVertex(2);
  await page.tool("measure", { pauli: "Y", outcome: "1" });
  await page.clickVertex(0);
  await page.fill("#row", "+IIZXZI");
  await page.fill("#side", "1 2");
  await page.tool("gate");
  await page.picture(`${folder}/bench.png`);
}

/** A comparison, one complementation before its end. */
async function compared(page) {
  await page.size(1180, 760);
  await page.example("Ring of 6");
  await page.tool("gate", { gate: "SQRT_X" });
  for (const vertex of [0, 1, 3]) await page.clickVertex(vertex);
  await page.tab("compare");
  await page.fill("#name", "start");
  await page.click("#save button");
  await page.choose("#second-state", "family ring");
  await page.click("#compare");
  await page.click("#film-next");
  await page.picture(`${folder}/bench-compare.png`);
}

/** 64 qubits in dark colours, in the middle of a job. */
async function many(page) {
  await page.size(1180, 760);
  await page.colours("dark");
  await page.tab("texts");
  const each = (made) => Array.from({ length: 64 }, (_, q) => made(q)).join("");
  const right = (q) => (q % 8 < 7 ? `cz ${q} ${q + 1} 0\n` : "");
  const down = (q) => (q < 56 ? `cz ${q} ${q + 8} 0\n` : "");
  const cluster = each((q) => `gate ${q} 0 8\n`) + each((q) => right(q) + down(q));
  const measured = [9, 10, 27, 28, 45].map((q, k) => `measure ${q} 0 ${[4, 3, 2, 5, 2][k]}\n`).join("");
  await page.paste(`qubits\n64\nop a b value\n${cluster}${measured}measure 9 0 4\n${"gate 3 0 4\n".repeat(3)}`);
  await page.fill("#goto", "182");
  await page.click("#goto-do");
  await page.picture(`${folder}/bench-64.png`);
}

/** A refused measurement on a telephone. */
async function telephone(page) {
  await page.size(390, 780, true);
  await page.colours("light");
  await page.example("GHZ state on 5");
  await page.tool("measure", { pauli: "Z", outcome: "1" });
  await page.tap(...(await page.vertex(0)));
  await page.tool("measure", { outcome: "0" });
  await page.tap(...(await page.vertex(1)));
  await page.picture(`${folder}/bench-telephone.png`);
}

const server = await served();
const page = await BenchPage.begin();
await page.open(server.address);
for (const draw of [ring, compared, many, telephone]) await draw(page);
await page.end();
server.end();
