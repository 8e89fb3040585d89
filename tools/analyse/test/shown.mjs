import { readFile } from "fs";
const limit = 10;
unused: for (const x of [1]) {}
export class Store {
  #items = new Map();
  constructor(name) { this.name = name; }
  get size() { return this.#items.size; }
  add(key, value = limit) {
    if (this.#items.has(key)) return false;
    this.#items.set(key, value);
    return true;
  }
}
// é 𝒳: columns count characters, spans count bytes
export async function load(path) {
  try {
    const text = await readFile(path);
    return JSON.parse(text);
  } catch (e) {
    console.log(`${path}: ${e.message}`, "<b>&amp;</b>");
    return null;
  }
}
var twice = 1;
var twice = twice + limit;
