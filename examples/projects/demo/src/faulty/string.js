export const text = "no end;
export const more = 1;
