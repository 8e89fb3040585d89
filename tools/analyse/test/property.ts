export class Shelf {
  constructor(private books: number, label: string) {}
}
