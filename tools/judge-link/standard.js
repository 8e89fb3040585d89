'use strict';
// The Standard's ResolveExport, written out as it stands there, over the small random projects: an answer that stands neither on
// the linker nor on the parsers of the tool. The statements are those that projects.js writes, one a line.

const FORMS = [
  [/^import \{ (\w+) as (\w+) \} from '\.\/(\S+)';$/, ([name, local, file], line) => ({ imported: { name, local, file, line } })],
  [/^import \* as (\w+) from '\.\/(\S+)';$/, ([local, file], line) => ({ imported: { name: null, local, file, line } })],
  [/^import (\w+) from '\.\/(\S+)';$/, ([local, file], line) => ({ imported: { name: 'default', local, file, line } })],
  [/^export const (\w+) = 1;$/, ([name]) => ({ exported: { name, binding: name } })],
  [/^export default function (\w+)\(\) \{\}$/, ([local]) => ({ exported: { name: 'default', binding: local } })],
  [/^const \w+ = 1; export \{ (\w+) as (\w+) \};$/, ([local, name]) => ({ exported: { name, binding: local } })],
  [/^export \{ (\w+) as (\w+) \};$/, ([local, name], line) => ({ listed: { local, name, line } })],
  [/^export \{ (\w+) as (\w+) \} from '\.\/(\S+)';$/, ([wanted, name, file], line) => ({ passed: { wanted, name, file, line } })],
  [/^export \* as (\w+) from '\.\/(\S+)';$/, ([name, file], line) => ({ passed: { wanted: null, name, file, line } })],
  [/^export \* from '\.\/(\S+)';$/, ([file]) => ({ star: file })],
  [/^(?:export \{\};|import '\.\/\S+';)?$/, () => ({})],
];

function statementOf(text, line) {
  for (const [form, read] of FORMS) {
    const found = form.exec(text);
    if (found !== null) {
      return read(found.slice(1), line);
    }
  }
  throw new Error(`no statement: ${text}`);
}

const of = (statements, part) => statements.map((one) => one[part]).filter((one) => one !== undefined);

// The entries of a module: local, indirect and star exports, as ParseModule sorts them.
function moduleOf(text) {
  const statements = text.split('\n').map((line, place) => statementOf(line, place + 1));
  const imports = of(statements, 'imported');
  const indirect = of(statements, 'passed');
  const own = of(statements, 'exported');
  for (const { local, name, line } of of(statements, 'listed')) {
    const imported = imports.find((one) => one.local === local);
    // A namespace that is imported and exported is a binding of the module itself.
    if (imported.name === null) {
      own.push({ name, binding: local });
    } else {
      indirect.push({ wanted: imported.name, name, file: imported.file, line });
    }
  }
  return { imports, indirect, local: own, stars: of(statements, 'star') };
}

// {file, binding}, null where nothing is found or what is found is circular, or 'ambiguous'. A namespace binds null.
function resolveExport(modules, file, name, resolveSet) {
  if (resolveSet.some((one) => one.file === file && one.name === name)) {
    return null;
  }
  resolveSet.push({ file, name });
  const { local, indirect } = modules[file];
  const own = local.find((one) => one.name === name);
  if (own !== undefined) {
    return { file, binding: own.binding };
  }
  const passed = indirect.find((one) => one.name === name);
  if (passed !== undefined) {
    return passed.wanted === null ? { file: passed.file, binding: null } : resolveExport(modules, passed.file, passed.wanted, resolveSet);
  }
  return name === 'default' ? null : resolveStars(modules, file, name, resolveSet);
}

function resolveStars(modules, file, name, resolveSet) {
  let found = null;
  for (const star of modules[file].stars) {
    const resolution = resolveExport(modules, star, name, resolveSet);
    if (resolution === 'ambiguous') {
      return resolution;
    }
    if (resolution !== null && found !== null && (resolution.file !== found.file || resolution.binding !== found.binding)) {
      return 'ambiguous';
    }
    found = found || resolution;
  }
  return found;
}

// The lines at which a name resolves to nothing or to several things, as `file:line`.
function faultsOf(project) {
  const modules = Object.fromEntries(Object.entries(project).map(([file, text]) => [file, moduleOf(text)]));
  const isFault = (file, name) => [null, 'ambiguous'].includes(resolveExport(modules, file, name, []));
  return Object.entries(modules).flatMap(([file, { imports, indirect }]) => [
    ...imports.filter((one) => one.name !== null && isFault(one.file, one.name)),
    ...indirect.filter((one) => one.wanted !== null && isFault(file, one.name)),
  ].map(({ line }) => `${file}:${line}`));
}

module.exports = { faultsOf };
