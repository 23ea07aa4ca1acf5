/// <reference path="globals.d.ts" />
import { readFile } from "node:fs/promises";
import path from "path";
import { start } from "./app";
import { format } from "./util/format.js";
import { store } from "@/store";
import { emitter } from "tiny-events";
import type { Note } from "./model";

export async function main(file: string): Promise<void> {
  const notes: Note[] = JSON.parse(await readFile(path.resolve(file), "utf8"));
  store.fill(notes);
  emitter.on("open", (name: string) => import(`./pages/${name}`));
  start(format(notes.length));
  if (notes.length === 0) await import("./faulty");
}
