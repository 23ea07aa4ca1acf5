import { home } from "./pages";
import { store } from "./store";
import icon from "@acme/icons/star";

export function start(title: string): void {
  store.watch(() => home(title, icon));
}
