export class Square { constructor(side) { this.side = side; } }
export function area(side) { return side * side; }
