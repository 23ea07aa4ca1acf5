/* Pages are loaded for their effects. */
import "./home.ts";
import "./about.ts"
import "./contact.ts"
