// Where things are in the clone, and what its programs and its command print.
import { execFileSync, spawnSync } from "node:child_process";
import { fileURLToPath } from "node:url";

export const ROOT = fileURLToPath(new URL("../../", import.meta.url));

/** What a proved program prints of a text. */
export const program = (name, text) => execFileSync(`${ROOT}target/bin/${name}`, { input: text, encoding: "utf8" });

/** What the command prints of a text: what it says, and its messages. */
export function command(words, text = "") {
  const env = { ...process.env, PYTHONPATH: `${ROOT}python`, PYTHONDONTWRITEBYTECODE: "1" };
  const { stdout, stderr, status } = spawnSync("python3", ["-m", "sukhlent", ...words], { input: text, encoding: "utf8", env });
  return { stdout, stderr, status };
}

/** Numbers that look random, the same in every run. */
export function source(seed) {
  let state = BigInt(seed);
  return (below) => {
    state ^= (state << 13n) & ((1n << 64n) - 1n);
    state ^= state >> 7n;
    state ^= (state << 17n) & ((1n << 64n) - 1n);
    return Number((state >> 20n) % BigInt(below));
  };
}
