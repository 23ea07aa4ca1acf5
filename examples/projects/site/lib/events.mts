import "./history.ts"; // a cycle
