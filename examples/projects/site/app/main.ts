// The first module of a small site.
import "./router.ts";
import "./pages.ts";
import "../lib/log.js";
import "../styles/theme.ts";
