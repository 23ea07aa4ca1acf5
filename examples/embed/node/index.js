// Module graphs and import sites of JavaScript and TypeScript, by the C library.
"use strict";
const addon = require("./joravelsu.node");

const MEDIA_TYPES = ["Dts", "Dmts", "Dcts", "TypeScript", "Mts", "Cts", "Tsx", "JavaScript", "Mjs", "Cjs", "Jsx", "Json", "Wasm"];
const KINDS = [
  "import", "export", "import-equals", "dynamic", "reference-path", "reference-types", "wasm", "referrer",
  "import-source", "import-defer", "dynamic-source", "dynamic-defer", "require", "require-resolve", "type-import", "worker", "address",
];
const CALLS = ["import", "require"];
const DIAGNOSTICS = ["type", "any", "property", "spread", "using"];
const MENTIONS = ["name", "import", "meta", "with", "member", "key", "this"];
const REASONS = {
  6: "the text is over 16 MiB",
  7: "the text is no UTF-8",
  8: "there is no such media type",
  9: "modules of this media type are no sources",
  10: "a part of the text is no token",
  11: "the tokens are no program of the grammar",
};
const REFUSALS = {
  12: "its specifier is no text",
  13: "no site has this number",
  14: "the site is in a comment",
  15: "the number isn't above that of the change before it",
};
const [NO_UTF8, NO_MEDIA_TYPE] = [7, 8];

/** Why a source isn't read: the library's status, and the byte of the text at which a fault is, or null. */
class SourceError extends Error {
  constructor(status, place) {
    super((REASONS[status] ?? `status ${status}`) + (place === null ? "" : ` at byte ${place}`));
    this.name = "SourceError";
    this.status = status;
    this.place = place;
  }
}

/** Why a change can't be made: the library's status, and the number of the site. */
class ChangeError extends Error {
  constructor(status, site) {
    super(`site ${site}: ${REFUSALS[status]}`);
    this.name = "ChangeError";
    this.status = status;
    this.site = site;
  }
}

/** Why a bundle has no graph: the line that the program writes for it. */
class BundleError extends Error {
  constructor(line) {
    super(line);
    this.name = "BundleError";
  }
}

function bytesOf(text) {
  if (typeof text === "string") return Buffer.from(text, "utf8");
  if (text instanceof Uint8Array) return text;
  throw new TypeError("a text is a string or a Uint8Array");
}

function mediaTypeOf(name) {
  const number = MEDIA_TYPES.indexOf(name);
  if (number < 0) throw new SourceError(NO_MEDIA_TYPE, null);
  return number;
}

// The result, which isn't the library's status.
function done(result) {
  if (result !== null && typeof result === "object" && !Array.isArray(result)) {
    throw new SourceError(result.status, result.status === NO_UTF8 || result.status >= 10 ? result.place : null);
  }
  return result;
}

function sites(text, mediaType) {
  return done(addon.sites(bytesOf(text), mediaTypeOf(mediaType))).map(({ kind, typeOnly, start, end, value, has, attribute }) => ({
    kind: KINDS[kind],
    typeOnly,
    start,
    end,
    value,
    attribute: has === 2 ? attribute : has === 1 ? undefined : null,
  }));
}

function unread(text) {
  const numbers = done(addon.unread(bytesOf(text)));
  const calls = [];
  for (let i = 0; i < numbers.length; i += 3) {
    calls.push({ kind: CALLS[numbers[i]], start: numbers[i + 1], end: numbers[i + 2] });
  }
  return calls;
}

function mentions(text, mediaType, allowed, { strict = false } = {}) {
  const names = Buffer.from([...allowed].join("\n"), "utf8");
  const numbers = done(addon.mentions(bytesOf(text), mediaTypeOf(mediaType), names, Number(strict)));
  const found = [];
  for (let i = 0; i < numbers.length; i += 3) {
    found.push({ reason: MENTIONS[numbers[i]], start: numbers[i + 1], end: numbers[i + 2] });
  }
  return found;
}

function rewrite(text, mediaType, specifiers) {
  const pairs = [...(specifiers instanceof Map ? specifiers : new Map(Object.entries(specifiers)))]
    .map(([site, specifier]) => [Number(site), Buffer.from(specifier, "utf8")])
    .sort((a, b) => a[0] - b[0]);
  const changes = [];
  let length = 0;
  for (const [site, specifier] of pairs) {
    if (!Number.isSafeInteger(site) || site < 0) throw new ChangeError(13, site);
    changes.push(site, length, length += specifier.length);
  }
  const result = addon.rewrite(bytesOf(text), mediaTypeOf(mediaType), changes, Buffer.concat(pairs.map((pair) => pair[1])));
  if (typeof result === "object" && result.status in REFUSALS) throw new ChangeError(result.status, pairs[result.change][0]);
  return done(result);
}

function exportsOf(text, mediaType, { commonJs = false } = {}) {
  const [names, again] = done(addon.exports(bytesOf(text), mediaTypeOf(mediaType), commonJs ? 1 : 0));
  return { names, again };
}

function declarations(text, mediaType, { comments = true } = {}) {
  const [declared, numbers] = done(addon.declarations(bytesOf(text), mediaTypeOf(mediaType), Number(comments)));
  const diagnostics = [];
  for (let i = 0; i < numbers.length; i += 3) {
    diagnostics.push({ kind: DIAGNOSTICS[numbers[i]], start: numbers[i + 1], end: numbers[i + 2] });
  }
  return { text: declared, diagnostics };
}

function report(bundle) {
  const text = typeof bundle === "string" || bundle instanceof Uint8Array ? bundle : JSON.stringify(bundle);
  const result = addon.report(bytesOf(text));
  if (result.status !== 0) throw new BundleError(result.text.trim());
  return result.text;
}

// ---- a graph whose loads the caller does

const ALL_MEDIA_TYPES = [...MEDIA_TYPES, "Jsonc", "Json5", "Css", "Html", "Markdown", "Sql", "SourceMap", "Unknown", null];
const STATES = ["module", "redirect", "package", "external", "error"];
const FAULTS = [
  null, "Missing", "Loading", "TooManyRedirects", "UnsupportedMediaType", "Decode", "Parse", "WasmParse", "DataUrl",
  "PackageReference",
];
const EDGE_FAULTS = [
  null, "ImportPrefixMissing", "InvalidUrl", "InvalidDowngrade", "InvalidLocalImport", "InvalidTypeAssertion",
  "InvalidSourcePhase", "Refused",
];
const ANSWERS = {
  7: "a header isn't UTF-8",
  20: "no request has this number",
  21: "the request was answered before",
  22: "no answer is of this kind",
  23: "the redirect's target is no URL",
};
const [TOO_MANY_MODULES, NOT_YET] = [1, 16];
const NOTHING = new Uint8Array(0);

/** More is reached than the limit allows; `seen` were counted. */
class TooManyModules extends Error {
  constructor(seen) {
    super(`over the limit: ${seen} specifiers are reached`);
    this.name = "TooManyModules";
    this.seen = seen;
  }
}

/** Why an answer isn't taken. Nothing has changed. */
class AnswerError extends Error {
  constructor(status) {
    super(ANSWERS[status] ?? `status ${status}`);
    this.name = "AnswerError";
    this.status = status;
  }
}

// The kind, the bytes and the content type of what a loader returned.
function answerOf(answer) {
  if (answer === null || answer === undefined) return [3, NOTHING, NOTHING];
  if (typeof answer === "string" || answer instanceof Uint8Array) return [0, bytesOf(answer), NOTHING];
  if (answer === "external" || answer.external === true) return [2, NOTHING, NOTHING];
  if (answer.failed === true) return [4, NOTHING, NOTHING];
  if (answer.redirect !== undefined) return [1, bytesOf(answer.redirect), NOTHING];
  return [0, bytesOf(answer.body), bytesOf(answer.contentType ?? "")];
}

const orNull = (number) => (number < 0 ? null : number);

/** A graph under construction, for a loop of one's own. */
class Builder {
  #graph;

  constructor(roots, options = {}) {
    this.#graph = addon.graphNew(bytesOf(JSON.stringify({ roots, ...options, modules: [] })));
    if (typeof this.#graph === "string") throw new BundleError(this.#graph.trim());
  }

  poll() {
    const [status, seen] = addon.graphPoll(this.#graph);
    if (status === TOO_MANY_MODULES) throw new TooManyModules(seen);
    if (status !== 0 && status !== NOT_YET) throw new Error("the graph has ended without a result");
    return status === 0;
  }

  *wanted(from = 0) {
    for (let next = addon.graphWanted(this.#graph, from); next !== null; next = addon.graphWanted(this.#graph, next[0] + 1)) yield next;
  }

  answer(number, answer) {
    const status = addon.graphAnswer(this.#graph, number, ...answerOf(answer));
    if (status !== 0) throw new AnswerError(status);
  }

  entry(number) {
    const it = addon.graphEntry(this.#graph, number);
    if (it === null) return null;
    const fault = FAULTS[it.fault];
    return {
      number,
      specifier: it.specifier,
      state: STATES[it.state],
      mediaType: ALL_MEDIA_TYPES[it.mediaType],
      size: it.size,
      target: orNull(it.target),
      targetSpecifier: it.targetSpecifier || null,
      fault,
      place: fault === "Parse" ? it.place : null,
      edges: it.edges.map((edge) => ({
        kind: KINDS[edge.kind],
        typeOnly: edge.typeOnly,
        start: edge.start,
        end: edge.end,
        value: edge.value,
        attribute: edge.has === 2 ? edge.attribute : edge.has === 1 ? undefined : null,
        target: orNull(edge.target),
        targetSpecifier: edge.targetSpecifier || null,
        fault: EDGE_FAULTS[edge.fault],
      })),
    };
  }

  place(number, byte) {
    return addon.graphPlace(this.#graph, number, byte);
  }
}

/** The graph of all that is reached from some roots. */
class Graph {
  #builder;
  #numbers = new Map();

  constructor(builder) {
    this.#builder = builder;
    this.entries = [];
    for (let entry = builder.entry(0); entry !== null; entry = builder.entry(this.entries.length)) {
      this.#numbers.set(entry.specifier, entry.number);
      this.entries.push(entry);
    }
  }

  get(specifier) {
    return this.entries[this.#numbers.get(specifier)];
  }

  resolve(specifier) {
    let entry = this.get(specifier);
    for (let i = 0; i < 10 && entry?.state === "redirect" && entry.target !== null; i++) entry = this.entries[entry.target];
    return entry;
  }

  place(entry, byte) {
    return this.#builder.place(entry.number, byte);
  }
}

async function build(roots, loader, options = {}) {
  const builder = new Builder(roots, options);
  const loads = new Map();
  let from = 0;
  while (!builder.poll()) {
    for (const [number, specifier] of builder.wanted(from)) {
      loads.set(number, Promise.resolve(loader(specifier)).then((answer) => [number, answer]));
      from = number + 1;
    }
    const [number, answer] = await Promise.race(loads.values());
    loads.delete(number);
    builder.answer(number, answer);
  }
  return new Graph(builder);
}

function version() {
  const number = addon.version();
  return [Math.floor(number / 10000), Math.floor(number / 100) % 100, number % 100];
}

module.exports = {
  sites, unread, mentions, rewrite, exports: exportsOf, declarations, build, report, version,
  Builder, Graph, SourceError, ChangeError, BundleError, AnswerError, TooManyModules,
};
