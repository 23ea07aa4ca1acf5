// The same by es-module-lexer; prints, on the second line, each file's specifiers as JSON.
import { readFileSync } from "node:fs";
import { pathToFileURL } from "node:url";

const { init, parse } = await import(pathToFileURL(process.argv[2]).href);
await init;
const texts = readFileSync(0, "utf8").split("\n").filter(Boolean).map((path) => readFileSync(path, "utf8"));
let best = Infinity;
let found = [];
for (let round = 0; round < 5; round++) {
  const start = performance.now();
  found = texts.map((text) => {
    try {
      return parse(text)[0].filter((it) => it.n !== undefined).map((it) => it.n);
    } catch {
      return null;
    }
  });
  best = Math.min(best, performance.now() - start);
}
const read = found.filter((it) => it !== null);
console.log(`${best.toFixed(3)} ${read.length} ${read.flat().length}`);
console.log(JSON.stringify(found));
