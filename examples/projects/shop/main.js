import { route, start as run } from "./lib/router.mjs";
import settings from "./settings.json" with { type: "json" };
export * from "./lib/events.mjs";

// Pages are loaded when they are opened: these three are dynamic.
route("/", () => import("./pages/home.js"));
route("/cart", async () => {
  const { cart } = await import(`./pages/${settings.cart}.js`);
  return cart();
});
route("/about", () => import("./pages/about.js", { with: {} }));
run(settings.start ?? "/");
