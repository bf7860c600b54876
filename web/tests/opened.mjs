// Opens a bench that is served with the link of a Bell pair, and prints the generators that it shows.
//
//   node web/tests/opened.mjs ADDRESS
import { BenchPage } from "./bench.mjs";

const page = await BenchPage.begin();
try {
  await page.open(`${process.argv[2]}#start=2.II..0&moves=H.0;CX.0.1`);
  if (page.faults.length) throw new Error(page.faults.join("\n"));
  process.stdout.write(await page.text("#generators"));
} finally {
  await page.end();
}
