export const count = 1;

export function reset(): void {
  let total = count;
  for (const step of [1, 2]) {
    total + step = 2;
  }
}
