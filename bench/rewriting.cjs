// Compares the trees of two texts: standard input has a line of JSON for each pair, {file, old, new, moves, values}. A move is
// [place, by]: places from there on have moved by so much; values are the old and the new value of each literal that was
// changed. Places count UTF-16 units. Prints a line for each pair that differs in anything else, and how many there were.
"use strict";
const path = require("path");
const [folder, kind] = process.argv.slice(2);
const load = (name) => require(path.join(folder, name));
const acorn = kind === "acorn" ? load("acorn") : null;
const ts = kind === "typescript" ? load("typescript") : null;

class Differs extends Error {}
const differ = (where, what) => {
  throw new Differs(`${where}: ${what}`);
};

function mover(moves) {
  return (place) => moves.reduce((by, [at, more]) => (at <= place ? by + more : by), place);
}

// The value of a literal that was changed, by its place; each is met once or more, as node and as part.
function sameValue(old, now, changed, where) {
  if (changed !== undefined) {
    if (old !== changed[0] || now !== changed[1]) differ(where, `${JSON.stringify(old)} became ${JSON.stringify(now)}`);
  } else if (old !== now) {
    differ(where, `${JSON.stringify(old)} became ${JSON.stringify(now)}`);
  }
}

function byAcorn(pair, moved, changed, met) {
  const read = (text) => {
    for (const sourceType of ["module", "script"]) {
      try {
        return acorn.parse(text, { ecmaVersion: "latest", sourceType, allowHashBang: true });
      } catch {
        continue;
      }
    }
    return null;
  };
  const compare = (a, b, where) => {
    if (Array.isArray(a)) {
      if (!Array.isArray(b) || a.length !== b.length) differ(where, "lists differ");
      a.forEach((item, i) => compare(item, b[i], `${where}[${i}]`));
    } else if (a && typeof a === "object" && typeof a.type === "string") {
      if (!b || a.type !== b.type) differ(where, `${a.type} became ${b && b.type}`);
      if (b.start !== moved(a.start) || b.end !== moved(a.end)) differ(where, "positions");
      const literal = a.type === "Literal" ? changed.get(a.start) : undefined;
      for (const key of new Set([...Object.keys(a), ...Object.keys(b)])) {
        if (key === "start" || key === "end") continue;
        if (literal !== undefined && key === "value") {
          sameValue(a.value, b.value, literal, where);
          met.add(a.start);
        } else if (literal === undefined || key !== "raw") {
          compare(a[key], b[key], `${where}.${key}`);
        }
      }
    } else if (a instanceof RegExp) {
      if (String(a) !== String(b)) differ(where, "regular expressions differ");
    } else if (a && typeof a === "object") {
      for (const key of new Set([...Object.keys(a), ...Object.keys(b)])) compare(a[key], b[key], `${where}.${key}`);
    } else if (a !== b) {
      differ(where, `${String(a)} became ${String(b)}`);
    }
  };
  const old = read(pair.old);
  const now = read(pair.new);
  if (old === null && now === null) return false;
  if (old === null || now === null) differ(pair.file, "only one of the texts is read");
  compare(old, now, "");
  return true;
}

function byTypescript(pair, moved, changed, met) {
  const read = (text) => ts.createSourceFile(pair.file, text, ts.ScriptTarget.Latest, true);
  const old = read(pair.old);
  const now = read(pair.new);
  if (old.parseDiagnostics.length !== now.parseDiagnostics.length) differ(pair.file, "diagnostics differ");
  const compare = (a, b, where) => {
    const name = ts.SyntaxKind[a.kind];
    if (a.kind !== b.kind) differ(where, `${name} became ${ts.SyntaxKind[b.kind]}`);
    if (b.getStart(now) !== moved(a.getStart(old)) || b.end !== moved(a.end)) differ(`${where}/${name}`, "positions");
    if (a.flags !== b.flags) differ(`${where}/${name}`, "flags");
    const literal = a.kind === ts.SyntaxKind.StringLiteral ? changed.get(a.getStart(old)) : undefined;
    if (a.text !== undefined && a.kind !== ts.SyntaxKind.SourceFile) {
      sameValue(a.text, b.text, literal, `${where}/${name}`);
      if (literal !== undefined) met.add(a.getStart(old));
    }
    const below = (node) => {
      const found = [];
      ts.forEachChild(node, (child) => void found.push(child));
      return found;
    };
    const [as, bs] = [below(a), below(b)];
    if (as.length !== bs.length) differ(`${where}/${name}`, "numbers of parts");
    as.forEach((part, i) => compare(part, bs[i], `${where}/${name}[${i}]`));
  };
  compare(old, now, "");
  return old.parseDiagnostics.length === 0;
}

let [pairs, read, differing, literals] = [0, 0, 0, 0];
require("readline")
  .createInterface({ input: process.stdin, crlfDelay: Infinity })
  .on("line", (line) => {
    const pair = JSON.parse(line);
    const changed = new Map(pair.values.map(([place, old, now]) => [place, [old, now]]));
    const met = new Set();
    pairs += 1;
    try {
      if ((acorn ? byAcorn : byTypescript)(pair, mover(pair.moves), changed, met)) {
        read += 1;
        if (met.size !== changed.size) differ(pair.file, `${met.size} of ${changed.size} changed literals were met`);
        literals += met.size;
      }
    } catch (error) {
      if (!(error instanceof Differs)) throw error;
      differing += 1;
      console.log(`${pair.file}: ${error.message}`);
    }
  })
  .on("close", () => console.log(`${pairs} pairs, ${read} of them read, ${literals} changed literals met, ${differing} pairs differ`));
