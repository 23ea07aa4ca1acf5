import { on } from "../lib/events.mjs";
import * as math from "../lib/math.cjs";

export class Home {
  #visits = 0;
  static title = "Home";

  constructor() {
    on("open", ({ path }) => (this.#visits += path === "/" ? 1 : 0));
  }

  get visits() {
    return math.round(this.#visits);
  }
}

export { Home as default };
