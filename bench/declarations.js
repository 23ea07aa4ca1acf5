// What TypeScript says of printed declarations: reads [[source, declarations], ..] as JSON, each a path, and writes JSON:
//   read, kept   how many texts its parser takes; in how many imports, export lists, interfaces and aliases come back as it prints them
//   codes        errors of its checker that refuse a declaration file as such, by their codes
//   classes      of each name that a source declares at its top: how the declarations differ from those of tsc --declaration
//   faults       [path, what isn't so]
"use strict";
const ts = require("typescript");
const fs = require("fs");
const K = ts.SyntaxKind;
const pairs = JSON.parse(fs.readFileSync(0, "utf8"));
const printer = ts.createPrinter({ removeComments: true });
const faults = [];
const parsed = (path, text) => ts.createSourceFile(path, text, ts.ScriptTarget.Latest, true);

// ---- what stays

const STAYS = [K.ImportDeclaration, K.ImportEqualsDeclaration, K.ExportDeclaration, K.NamespaceExportDeclaration, K.InterfaceDeclaration, K.TypeAliasDeclaration];
const staying = (file) => file.statements.filter((it) => STAYS.includes(it.kind)).map((it) => printer.printNode(ts.EmitHint.Unspecified, it, file).replace(/,?(\s*[}\])>])/g, "$1").replace(/\s+/g, " "));

// ---- what refuses a declaration file, whatever its names mean

const REFUSES = (code) => (code >= 1000 && code < 2000) || [2369, 2371, 2391, 2394, 2464, 2714, 2715, 7010, 7011].includes(code);

function codesOf(paths) {
  const options = { noResolve: true, lib: ["lib.esnext.d.ts"], types: [], noEmit: true, target: ts.ScriptTarget.Latest };
  const program = ts.createProgram(paths, options);
  const codes = {};
  for (const path of paths) {
    const file = program.getSourceFile(path);
    // An expression that stays after export default is refused as a whole.
    const whole = file.statements.filter((it) => ts.isExportAssignment(it) && !ts.isIdentifier(it.expression));
    const isInside = (it) => it.code !== 2714 && whole.some((node) => node.pos <= it.start && it.start < node.end);
    for (const it of program.getSemanticDiagnostics(file)) if (REFUSES(it.code) && !isInside(it)) codes[`TS${it.code}`] = (codes[`TS${it.code}`] ?? 0) + 1;
  }
  return codes;
}

// ---- beside tsc --declaration

function declaredBy(paths) {
  const options = { declaration: true, emitDeclarationOnly: true, skipLibCheck: true, noEmitOnError: false, target: ts.ScriptTarget.ES2020, lib: ["lib.es2020.d.ts"], types: [], moduleResolution: ts.ModuleResolutionKind.NodeJs, outDir: "/declared", removeComments: true, experimentalDecorators: true };
  const program = ts.createProgram(paths, options);
  const made = new Map();
  for (const path of paths) {
    const file = program.getSourceFile(path);
    if (file && !file.isDeclarationFile) program.emit(file, (_, text) => made.set(path, text), undefined, true);
  }
  return made;
}

const nameOf = (node) => (node.name && node.name.getText ? node.name.getText() : "");
const has = (node, kind) => (node.modifiers ?? []).some((it) => it.kind === kind);

// The declarations of a file by kind and name: variables one by one, those of namespaces after the name of the outermost.
function namesIn(container, front = "", found = new Map()) {
  const add = (key, node) => found.set(front + key, [...(found.get(front + key) ?? []), node]);
  for (const it of container.statements) {
    if (ts.isVariableStatement(it)) for (const one of it.declarationList.declarations) add(MADE.test(nameOf(one)) ? "made name" : `variable ${nameOf(one)}`, one);
    else if (ts.isFunctionDeclaration(it)) add(`function ${nameOf(it)}`, it);
    else if (ts.isClassDeclaration(it)) add(`class ${nameOf(it)}`, it);
    else if (ts.isEnumDeclaration(it)) add(`enum ${nameOf(it)}`, it);
    else if (ts.isInterfaceDeclaration(it)) add(`interface ${nameOf(it)}`, it);
    else if (ts.isTypeAliasDeclaration(it)) add(`alias ${nameOf(it)}`, it);
    else if (ts.isExportAssignment(it)) add("default", it);
    else if (ts.isModuleDeclaration(it)) {
      let body = it.body;
      while (body && ts.isModuleDeclaration(body)) body = body.body;
      if (body) namesIn(body, `${front}${nameOf(it)} / `, found);
    }
  }
  return found;
}
// What tsc and this project call a default that has no name.
const MADE = /^(_default(_\d+)?|_dts_\d+)$/;

const text = (node) => printer.printNode(ts.EmitHint.Unspecified, node, node.getSourceFile()).replace(/\b(_default(_\d+)?|_dts_\d+)\b/g, "_default").replace(/\s+/g, " ")
  .replace(/[;,]? (?=[}\])])/g, "").replace(/([{[(]) /g, "$1").replace(/'/g, '"').replace(/^(export )?(default )?(declare )?/, "$1$2");
const isAny = (type) => !type || type.kind === K.AnyKeyword;
const IGNORED = [K.DeclareKeyword, K.ExportKeyword];

// How two declarations of one name differ: adds classes, and answers nothing.
function differs(a, b, found) {
  if (!a || !b) return void (a !== b && found.add("other"));
  if (text(a) === text(b)) return;
  if (ts.isTypeNode(a) && ts.isTypeNode(b)) return types(a, b, found);
  if (a.kind !== b.kind) return void found.add("other");
  if (ts.isEnumDeclaration(a)) return void (text(a.name) === text(b.name) && a.members.length === b.members.length ? found.add("values of an enum") : found.add("other"));
  if (ts.isClassDeclaration(a) || ts.isInterfaceDeclaration(a)) return members(a, b, found);
  if (ts.isExportAssignment(a)) return void found.add("default export");
  signature(a, b, found);
}

function both(mine, other, found) {
  for (const [key, nodes] of mine) {
    const peers = other.get(key);
    if (!peers) found.add(key.endsWith("made name") ? "default export" : "a name that isn't exported");
    else each(nodes, peers, found);
  }
  for (const key of other.keys()) if (!mine.has(key)) found.add(key.endsWith("made name") ? "default export" : "a name of theirs alone");
}

function each(nodes, peers, found) {
  if (nodes.length !== peers.length) return void found.add("another number of overloads");
  nodes.forEach((node, n) => differs(node, peers[n], found));
}

function members(a, b, found) {
  const byKey = (it) => { const all = new Map(); for (const one of it.members) { const key = ts.isConstructorDeclaration(one) ? "constructor" : (ts.isGetAccessor(one) ? "get " : ts.isSetAccessor(one) ? "set " : "") + (one.name ? text(one.name) : text(one)); all.set(key, [...(all.get(key) ?? []), one]); } return all; };
  const [mine, other] = [byKey(a), byKey(b)];
  if (text2(a.heritageClauses) !== text2(b.heritageClauses)) found.add("what a class extends");
  const properties = (a.members.find(ts.isConstructorDeclaration)?.parameters ?? []).filter((it) => ts.getCombinedModifierFlags(it)).map(nameOf);
  for (const [key, nodes] of mine) {
    const peers = other.get(key);
    if (!peers) found.add("a member that tsc drops");
    else each(nodes, peers, found);
  }
  for (const key of other.keys()) if (!mine.has(key)) found.add(key.startsWith("#") ? "#private" : properties.includes(key) ? "parameters that are properties" : "a member of theirs alone");
}
const text2 = (nodes) => (nodes ?? []).map(text).join(" ");

function signature(a, b, found) {
  if (a.type || b.type || a.initializer || b.initializer) value(a, b, found);
  if (a.parameters || b.parameters) parameters(a.parameters ?? [], b.parameters ?? [], found);
  if (Boolean(a.questionToken) !== Boolean(b.questionToken)) found.add("a mark ?");
  if (text2(a.typeParameters) !== text2(b.typeParameters)) found.add("other");
  const words = (it) => (it.modifiers ?? []).filter((one) => !IGNORED.includes(one.kind)).map(text).join(" ");
  if (words(a) !== words(b)) found.add(words(a).replace("async", "").trim() === words(b) ? "the word async" : has(a, K.PrivateKeyword) || ts.isParameter(a) ? "parameters that are properties" : "modifiers");
  if (Boolean(a.asteriskToken) !== Boolean(b.asteriskToken)) found.add("a star");
}

function value(a, b, found) {
  if (b.initializer && !a.initializer) return void found.add("a literal as value");
  if (a.initializer && !b.initializer) return void found.add("the default of a default export's parameter");
  if (!a.type && !b.type) return;
  if (isAny(a.type)) return void (!isAny(b.type) && found.add(has(a, K.PrivateKeyword) ? "private types" : "a type that only a checker infers"));
  if (!b.type) return void found.add(has(b, K.PrivateKeyword) ? "private types" : "other");
  differs(a.type, b.type, found);
}

function parameters(a, b, found) {
  if (a.length !== b.length) return void found.add("other");
  a.forEach((it, n) => { if (text(it) !== text(b[n])) { if (!ts.isIdentifier(it.name) && text(it.name) !== text(b[n].name)) found.add("a pattern of a parameter"); signature(it, b[n], found); } });
}

function types(a, b, found) {
  if (isAny(a)) return void found.add("a type that only a checker infers");
  if (ts.isTypeOperatorNode(a) && a.operator === K.ReadonlyKeyword && !(ts.isTypeOperatorNode(b) && b.operator === K.ReadonlyKeyword)) return void found.add("readonly of what a const holds");
  if (ts.isTypeLiteralNode(a) && ts.isTypeLiteralNode(b)) return literals(a, b, found);
  if (ts.isTypeQueryNode(a) && !ts.isTypeQueryNode(b)) return void found.add("typeof a name");
  if (ts.isFunctionTypeNode(a) && ts.isFunctionTypeNode(b)) return signature(a, b, found);
  if (ts.isUnionTypeNode(b) && b.types.some((it) => text(it) === text(a)) && b.types.some((it) => it.kind === K.UndefinedKeyword)) return void found.add("| undefined of a default");
  if (ts.isTupleTypeNode(a) || (ts.isTypeOperatorNode(a) && ts.isTypeOperatorNode(b))) return void found.add("elements of an array");
  if ([K.StringKeyword, K.NumberKeyword, K.BooleanKeyword, K.BigIntKeyword].includes(a.kind)) return void found.add("a literal type");
  found.add("a type in other words");
}

function literals(a, b, found) {
  const by = (it) => new Map(it.members.map((one) => [one.name ? text(one.name).replace(/^\[(\d+)\]$/, "$1") : text(one), one]));
  const [mine, other] = [by(a), by(b)];
  for (const [key, one] of mine) {
    const peer = other.get(key);
    if (!peer) found.add("a key in other words");
    else {
      if (has(one, K.ReadonlyKeyword) !== has(peer, K.ReadonlyKeyword)) found.add("readonly of what a const holds");
      if (one.type && peer.type) differs(one.type, peer.type, found);
      else if (one.kind !== peer.kind) found.add("a key in other words");
    }
  }
  for (const key of other.keys()) if (!mine.has(key)) found.add("a property that is dropped");
}

const classes = {};
const count = (key) => { classes[key] = (classes[key] ?? 0) + 1; };
const examples = {};
let read = 0, kept = 0;
const sources = pairs.filter(([path]) => !/\.d\.[mc]?ts$/.test(path));
const theirs = sources.length ? declaredBy(sources.map((pair) => pair[0])) : new Map();
for (const [path, place] of pairs) {
  const [source, ours] = [parsed(path, fs.readFileSync(path, "utf8")), parsed(place, fs.readFileSync(place, "utf8"))];
  if (ours.parseDiagnostics.length) faults.push([path, `TypeScript doesn't read: ${ts.flattenDiagnosticMessageText(ours.parseDiagnostics[0].messageText, " ")} at ${ours.parseDiagnostics[0].start}`]);
  else read++;
  const [before, after] = [staying(source), staying(ours)];
  if (JSON.stringify(before) === JSON.stringify(after)) kept++;
  else faults.push([path, `what stays differs: ${before.find((it, n) => it !== after[n])?.slice(0, 200)} / ${after.find((it, n) => it !== before[n])?.slice(0, 200)}`]);
  if (!theirs.has(path)) continue;
  const [mine, other] = [namesIn(ours), namesIn(parsed(`${path}.d.ts`, theirs.get(path)))];
  for (const key of new Set([...mine.keys(), ...other.keys()])) {
    const found = new Set();
    both(new Map(mine.has(key) ? [[key, mine.get(key)]] : []), new Map(other.has(key) ? [[key, other.get(key)]] : []), found);
    count(found.size ? [...found].sort().join("; ") : "the same");
    if (process.env.EXAMPLES) for (const one of found) (examples[one] ??= []).length < 5 && examples[one].push(`${path}: ${(mine.get(key) ?? [])[0]?.getText().slice(0, 160)} / ${(other.get(key) ?? [])[0]?.getText().slice(0, 160)}`);
  }
}
// Names that differ in one way count by it, others by how many ways.
const shown = { "the same": 0 };
const single = {};
for (const [key, n] of Object.entries(classes)) {
  if (key === "the same") shown[key] = n;
  else if (!key.includes("; ")) single[key] = (single[key] ?? 0) + n;
  else single["several of these"] = (single["several of these"] ?? 0) + n;
}
for (const [key, n] of Object.entries(single).sort((a, b) => b[1] - a[1])) shown[key] = n;
if (process.env.EXAMPLES) console.error(JSON.stringify(examples, null, 1));
console.log(JSON.stringify({ read, kept, codes: codesOf(pairs.map((pair) => pair[1])), classes: shown, faults }));
