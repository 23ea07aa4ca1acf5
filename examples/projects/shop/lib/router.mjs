import { emit } from "./events.mjs";

const routes = new Map();

export const route = (path, open) => routes.set(path, open);

export async function start(path) {
  for (const [at, open] of routes) {
    if (at === path) {
      emit("open", { path, page: await open() });
    }
  }
}
