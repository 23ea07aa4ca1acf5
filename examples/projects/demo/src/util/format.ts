export const format = (count: number): string => `${count} notes`;
