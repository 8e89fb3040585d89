import { parse as read, limit } from './parse.mjs';
import store, { _ } from './store.mjs';
import * as all from './all.mjs';
import fs from 'node:fs';

let total = 0;
export function sum(list) {
  for (const each of list) total += read(each);
  return { total, limit, all, _ };
}
store.add(fs.readFileSync('x'));
