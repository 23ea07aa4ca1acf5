/* colors */ import "https://example.com/palette.js";
