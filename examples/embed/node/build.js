// Compiles addon.c against the C library into joravelsu.node: node build.js
// JORAVELSU_PREFIX is where tools/build-library installed the library; without it pkg-config finds it. NODE_INCLUDE is the
// folder of node_api.h, if that isn't beside this Node. CC and CFLAGS are the compiler and more flags.
"use strict";
const { execFileSync } = require("node:child_process");
const fs = require("node:fs");
const path = require("node:path");

function fail(why) {
  console.error(`joravelsu: ${why}`);
  process.exit(1);
}

function headers() {
  const beside = path.resolve(process.execPath, "..", "..", "include", "node");
  const folders = [process.env.NODE_INCLUDE, beside, "/usr/include/node", "/usr/local/include/node"];
  return folders.find((folder) => folder && fs.existsSync(path.join(folder, "node_api.h"))) ??
    fail("node_api.h isn't here: install the headers of Node (Debian: libnode-dev), or set NODE_INCLUDE");
}

function library() {
  const prefix = process.env.JORAVELSU_PREFIX;
  if (prefix) return [`-I${path.join(prefix, "include")}`, path.join(prefix, "lib", "libjoravelsu.a")];
  try {
    return execFileSync("pkg-config", ["--cflags", "--libs", "joravelsu"], { encoding: "utf8" }).trim().split(/\s+/);
  } catch {
    return fail("the library isn't here: tools/build-library PREFIX makes it; then set JORAVELSU_PREFIX=PREFIX");
  }
}

const out = path.join(__dirname, "joravelsu.node");
const flags = ["-shared", "-fPIC", "-O2", "-std=c99", "-Wall", "-Wextra", ...(process.env.CFLAGS ?? "").split(/\s+/).filter(Boolean)];
if (process.platform === "darwin") flags.push("-undefined", "dynamic_lookup");
try {
  execFileSync(process.env.CC ?? "cc", [...flags, `-I${headers()}`, path.join(__dirname, "addon.c"), ...library(), "-o", out], { stdio: "inherit" });
} catch (error) {
  fail(`addon.c doesn't compile: ${error.message}`);
}
