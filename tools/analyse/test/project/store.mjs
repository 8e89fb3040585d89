import { parse } from './parse.mjs';
import { gone } from './parse.mjs';
export const _ = (_) => _ + gone;
export default { items: [], add(one) { this.items.push(parse(one)); } };
