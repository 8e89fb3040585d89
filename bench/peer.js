'use strict';
// How long a peer's scope analysis takes of a source file that it has parsed, in nanoseconds of the processor: the least of so many
// times. usage: peer.js FILE TIMES [eslint-scope | typescript | babel | terser]
// Where the peer isn't installed, or can't read the file, it prints 0 and says so on standard error.

const fs = require('fs');
const path = require('path');
const { load } = require('../tools/source-to-tree/load');

const [file, times, peer = 'eslint-scope'] = process.argv.slice(2);
const text = fs.readFileSync(file, 'utf8');
const sourceType = /^(import|export)\b/m.test(text) ? 'module' : 'script';

// What the work takes, in microseconds of the processor.
function timed(work) {
  const before = process.cpuUsage();
  work();
  const { user, system } = process.cpuUsage(before);
  return user + system;
}

// Each peer gives a function that analyses the program once and gives the time. Those whose analysis writes into the tree get a new tree
// each time, which isn't counted.
const peers = {
  'eslint-scope': () => {
    const ast = load('acorn').parse(text, { ecmaVersion: 'latest', sourceType, ranges: true, allowHashBang: true });
    const { analyze } = load('eslint-scope');
    return () => timed(() => analyze(ast, { ecmaVersion: 2022, sourceType, ignoreEval: true, optimistic: true }));
  },

  // The binder ties declarations to their scopes; references are tied later, one by one, by the checker.
  typescript: () => {
    const ts = load('typescript');
    return () => {
      const source = ts.createSourceFile(file, text, ts.ScriptTarget.Latest, true, ts.ScriptKind.JS);
      return timed(() => ts.bindSourceFile(source, { allowJs: true }));
    };
  },

  babel: () => {
    const babel = load('@babel/standalone');
    const options = { ast: true, code: false, sourceType, configFile: false, babelrc: false, compact: true };
    return () => {
      let took = Infinity;
      const visitor = { Program: path => { took = timed(() => path.scope.crawl()); } };
      babel.transform(text, { ...options, plugins: [() => ({ visitor })] });
      return took;
    };
  },

  // Terser offers its parser and its scopes only in the files that its bundle is made of.
  terser: async () => {
    load('terser');
    const lib = path.join(path.dirname(require.resolve('terser')), '..', 'lib');
    const { parse } = await import(path.join(lib, 'parse.js'));
    await import(path.join(lib, 'scope.js'));
    return () => {
      const program = parse(text, { module: sourceType === 'module' });
      return timed(() => program.figure_out_scope({}));
    };
  },
};

async function main() {
  if (!Object.hasOwn(peers, peer)) throw new Error(`no peer is called ${peer}: ${Object.keys(peers).join(', ')}`);
  const analyse = await peers[peer]();
  let least = Infinity;
  for (let i = 0; i < Number(times); i++) least = Math.min(least, analyse());
  console.log(least * 1000);
}

main().catch(error => {
  console.error(`peer.js: ${peer}: ${String(error.message).split('\n')[0]}`);
  console.log(0);
});
