import { pad } from "old-format";

export const home = (title: string, icon: string): string => pad(`${icon} ${title}`);
