export function sum(numbers, start) {
  let total = 0;
  for (const number of numbers) totl += number;
  return total;
}
