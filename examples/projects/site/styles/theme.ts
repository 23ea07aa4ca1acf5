import "./colors.mjs";
