export { home } from "./home";
export const about = () => import("./about");
