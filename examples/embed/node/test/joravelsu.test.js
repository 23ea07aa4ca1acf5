"use strict";
const assert = require("node:assert/strict");
const { test } = require("node:test");
const joravelsu = require("..");

const { sites, unread, mentions, rewrite, build, report, version, Builder } = joravelsu;
const { SourceError, ChangeError, BundleError, AnswerError, TooManyModules } = joravelsu;

test("sites", () => {
  assert.deepEqual(sites('import "./b.ts";', "TypeScript"), [
    { kind: "import", typeOnly: false, start: 7, end: 15, value: "./b.ts", attribute: null },
  ]);
  const found = sites('export type * from "\\u00e9" with { type: "json" }; import(`a`, b); import("a", b);', "TypeScript");
  assert.deepEqual(found.map(({ kind, typeOnly, value, attribute }) => [kind, typeOnly, value, attribute]), [
    ["export", true, "é", "json"],
    ["dynamic", false, "a", undefined],
  ]);
  assert.deepEqual(sites("", "Mjs"), []);
  assert.deepEqual(sites(Buffer.from("\ufeffimport 'a'"), "Mjs")[0].start, 7);
});

test("more sites and longer values than the first buffers hold", () => {
  const value = "x".repeat(200);
  const found = sites(`import "${value}";`.repeat(300), "Mjs");
  assert.equal(found.length, 300);
  assert.equal(found[299].value, value);
});

test("why a source has no sites", () => {
  assert.throws(() => sites("1 = 2;", "Mjs"), (e) => e instanceof SourceError && e.status === 11 && e.place === 0);
  assert.throws(() => sites('"a', "Mjs"), (e) => e instanceof SourceError && e.status === 10 && e.place === 0);
  assert.throws(() => sites(Uint8Array.of(97, 255), "Mjs"), (e) => e instanceof SourceError && e.status === 7 && e.place === 1);
  assert.throws(() => sites("{}", "Json"), (e) => e instanceof SourceError && e.status === 9 && e.place === null);
  assert.throws(() => sites("a", "Perl"), (e) => e instanceof SourceError && e.status === 8);
  assert.throws(() => sites(1, "Mjs"), TypeError);
});

test("unread", () => {
  assert.deepEqual(unread("import(a); require('b');"), [
    { kind: "import", start: 0, end: 9 },
    { kind: "require", start: 11, end: 23 },
  ]);
  assert.equal(unread("require(a);".repeat(200)).length, 200);
});

test("mentions", () => {
  assert.deepEqual(mentions("eval(Math); import(a)", "Mjs", ["Math", "a"]), [
    { reason: "name", start: 0, end: 4 },
    { reason: "import", start: 12, end: 21 },
  ]);
  assert.deepEqual(mentions("with (a) this.b", "Cjs", new Set(["a"]), { strict: true }).map((it) => it.reason), ["with", "this"]);
  assert.equal(mentions("a;".repeat(200), "Mjs", []).length, 200);
  assert.throws(() => mentions("1 = 2", "Mjs", []), (e) => e instanceof SourceError && e.status === 11);
});

test("rewrite", () => {
  const text = 'import "./b.ts"; import("./c.ts");';
  assert.equal(rewrite(text, "TypeScript", { 0: "./lib/b.ts" }), 'import "./lib/b.ts"; import("./c.ts");');
  assert.equal(rewrite(text, "TypeScript", new Map([[1, 'é"'], [0, "b"]])), 'import "b"; import("é\\"");');
  assert.equal(rewrite(text, "TypeScript", {}), text);
  assert.throws(() => rewrite(text, "TypeScript", { 2: "a" }), (e) => e instanceof ChangeError && e.status === 13 && e.site === 2);
  assert.throws(() => rewrite("1 = 2", "Mjs", { 0: "a" }), SourceError);
});

test("declarations", () => {
  assert.deepEqual(joravelsu.declarations("/** a */ export function f(a = 1, b): string { return a + b; }", "TypeScript"), {
    text: "/** a */\nexport declare function f(a?: number, b: any): string;\n",
    diagnostics: [{ kind: "any", start: 34, end: 35 }],
  });
  assert.equal(joravelsu.declarations("/** a */ export const b = 1;", "TypeScript", { comments: false }).text, "export declare const b: number;\n");
  assert.equal(joravelsu.declarations("export const a = {}.a;".repeat(200), "TypeScript").diagnostics.length, 200);
  assert.throws(() => joravelsu.declarations("1 = 2", "Mjs"), (e) => e instanceof SourceError && e.status === 11);
});

test("exports", () => {
  assert.deepEqual(joravelsu.exports('export const a = 1; export * from "./b.js";', "Mjs"), { names: ["a"], again: ["./b.js"] });
  assert.deepEqual(joravelsu.exports("exports.b = 1; module.exports.a = 2;", "Cjs", { commonJs: true }), { names: ["a", "b"], again: [] });
  assert.throws(() => joravelsu.exports("1 = 2", "Mjs"), SourceError);
});

test("report", () => {
  const bundle = { roots: ["file:///a.ts"], modules: [{ specifier: "file:///a.ts", text: 'import "./b.ts";' }] };
  assert.equal(report(bundle), [
    "root file:///a.ts",
    "file:///a.ts module TypeScript 16",
    '  import 7-15 "./b.ts" - -> file:///b.ts',
    "file:///b.ts error Missing",
    "entries 2",
    "",
  ].join("\n"));
  assert.throws(() => report("{}"), (e) => e instanceof BundleError && e.message === 'error Bundle "/roots"');
  assert.throws(() => report({ ...bundle, limit: 1 }), (e) => e.message === "error TooManyModules 2");
});

const FILES = new Map([
  ["file:///a.ts", 'import "./b.ts" with { type: "json" };\n  import("./c");'],
  ["file:///b.ts", "{}"],
  ["file:///c", { redirect: "file:///c.ts" }],
  ["file:///c.ts", "é; 1 = 2"],
]);

test("build", async () => {
  const graph = await build(["file:///a.ts"], async (specifier) => FILES.get(specifier));
  assert.deepEqual(graph.entries.map((entry) => entry.specifier), [...FILES.keys()]);
  const [a] = graph.entries;
  assert.deepEqual(a.edges, [
    { kind: "import", typeOnly: false, start: 7, end: 15, value: "./b.ts", attribute: "json", target: null, targetSpecifier: null,
      fault: "InvalidTypeAssertion" },
    { kind: "dynamic", typeOnly: false, start: 48, end: 53, value: "./c", attribute: null, target: 2, targetSpecifier: "file:///c",
      fault: null },
  ]);
  assert.deepEqual(graph.place(a, 48), [2, 10]);
  assert.equal(graph.place(a, 1000), null);
  const c = graph.resolve("file:///c");
  assert.deepEqual([c.state, c.fault, c.place], ["error", "Parse", 4]);
  assert.equal(graph.get("file:///d.ts"), undefined);
});

test("build loads at the same time", async () => {
  let [now, most] = [0, 0];
  const graph = await build(["file:///a.ts"], async (specifier) => {
    most = Math.max(most, ++now);
    await new Promise((resolve) => setTimeout(resolve, 5));
    now--;
    return specifier.endsWith("/a.ts") ? Array.from({ length: 50 }, (_, i) => `import "./${i}.ts";`).join("") : "";
  });
  assert.deepEqual([graph.entries.length, most], [51, 50]);
});

test("build with options, and what ends it", async () => {
  const importMap = { base: "file:///", map: { imports: { x: "./lib/x.css" } } };
  const graph = await build(["file:///a.ts"], (specifier) => (specifier.endsWith("/a.ts") ? 'import "x"; import "y";' : { body: "" }), { importMap });
  assert.deepEqual(graph.entries.map(({ specifier, fault, mediaType }) => [specifier, fault, mediaType]), [
    ["file:///a.ts", null, "TypeScript"],
    ["file:///lib/x.css", "UnsupportedMediaType", "Css"],
  ]);
  assert.equal(graph.entries[0].edges[1].fault, "ImportPrefixMissing");
  await assert.rejects(build(["file:///a.ts"], () => Promise.reject(new RangeError("no"))), RangeError);
  await assert.rejects(build(["file:///a.ts"], (specifier) => FILES.get(specifier), { limit: 1 }), (e) => e instanceof TooManyModules && e.seen === 2);
  await assert.rejects(build(["a"], () => ""), (e) => e instanceof BundleError && e.message === 'error Bundle "/roots/0"');
});

test("answers that aren't taken", () => {
  const builder = new Builder(["file:///a.ts"]);
  assert.throws(() => builder.answer(0, ""), (e) => e instanceof AnswerError && e.status === 20);
  assert.equal(builder.poll(), false);
  assert.deepEqual([...builder.wanted()], [[0, "file:///a.ts"]]);
  assert.throws(() => builder.answer(0, { redirect: "b" }), (e) => e.status === 23);
  builder.answer(0, { external: true });
  assert.throws(() => builder.answer(0, ""), (e) => e.status === 21);
  assert.equal(builder.poll(), true);
  assert.equal(builder.entry(0).state, "external");
  assert.equal(builder.entry(1), null);
});

test("as a module of ECMAScript", async () => {
  const it = await import("../index.mjs");
  assert.deepEqual(it.version(), [0, 1, 0]);
  assert.deepEqual(version(), [0, 1, 0]);
  assert.equal(it.exports, joravelsu.exports);
  assert.equal(it.default, joravelsu);
});
