export { default as Home } from "./home.js";
export * as missing from "./team.js";
