export const parse = (text) => Number(text);
let top = 3;
export { top as limit };
