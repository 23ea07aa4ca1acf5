import "../lib/history.ts"; import "../styles/theme.ts";
