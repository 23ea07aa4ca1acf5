import "./+page.ts";
import "./[id].ts";
import "./@scope/a.ts";
import "./(shop)/cart,100%25.ts";
