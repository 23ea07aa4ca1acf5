// One import for each kind of fault.
import "./assigns";
import "./View";
import "./decorated";
import "./cast";
import "./string.js";
import "./bracket.js";
import "./latin1.js";
import "./broken.wasm";
import "./gone";
import "./theme.css";
import "not-installed";
import "http://[";
import "npm:";
import "data:text/javascript";
import data from "./data.json" with { type: "text" };
const legacy = require("./legacy.cjs");
