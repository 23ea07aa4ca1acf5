import type { Note } from "./model";
import { emitter } from "tiny-events";
import { start } from "./app";

export const store = {
  notes: [] as Note[],
  fill(notes: Note[]): void {
    this.notes = notes;
    emitter.emit("filled");
  },
  watch(act: () => void): void {
    emitter.on("filled", act);
  },
  again: () => start("again"),
};
