export * from './parse.mjs';
export { default as store } from './store.mjs';
