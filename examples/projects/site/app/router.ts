import "../lib/history.ts";
import "../lib/log.js";
