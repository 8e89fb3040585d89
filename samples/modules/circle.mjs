export const PI = 3.14159;
export function area(radius) { return PI * radius * radius; }
