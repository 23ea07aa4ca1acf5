const value: unknown = 1;
export const number = <number>value;
