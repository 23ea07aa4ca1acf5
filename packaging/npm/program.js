"use strict";
// The module graph of a bundle, by the program graph_tool of this package.
const { spawnSync } = require("node:child_process");
const path = require("node:path");

const program = path.join(__dirname, "bin", "graph_tool");

class BundleError extends Error {}

function run(words, bundle) {
  const input = typeof bundle === "string" || Buffer.isBuffer(bundle) ? bundle : JSON.stringify(bundle);
  const done = spawnSync(program, words, { input, maxBuffer: Infinity });
  if (done.error) throw done.error;
  if (done.status === 0) return done.stdout.toString();
  const line = done.stdout.toString().trim();
  throw new BundleError(line || `graph_tool ended with status ${done.status ?? done.signal}`);
}

/** The report of a bundle's graph, as text. The bundle is an object or its JSON. Throws BundleError if there is none. */
exports.graph = (bundle) => run(["build"], bundle);
/** The bundle's modules in evaluation order, dependencies first, or an import cycle, as text. */
exports.order = (bundle) => run(["order"], bundle);
/** The bundle of the same modules as files of a folder, a file: URL that ends with "/", as text. */
exports.vendor = (base, bundle) => run(["vendor", base], bundle);
exports.BundleError = BundleError;
/** The path of the program. */
exports.program = program;
