// Bolgwyr for other programs. All calls are synchronous. They run the proved programs, which stand in crates/*/out of the
// package or in the folder that the variable BOLGWYR_PROGRAMS names.

/** A place in a text: bytes of UTF-8 from 0, line and column (in characters) from 1. */
export interface Span {
  start: number;
  end: number;
  line: number;
  column: number;
}

export interface Reading {
  /** The name of the file, which tells its language and goal; `input.js` where there is none. */
  file?: string;
  /** In place of what the file's name tells. */
  parser?: 'acorn' | 'typescript';
  goal?: 'script' | 'module' | 'commonjs';
}

export interface AnalyseOptions extends Reading {
  /** Early errors among the diagnostics, which else are the redeclarations alone. */
  check?: boolean;
  nodes?: boolean;
  classes?: boolean;
  stats?: boolean;
}

export interface Scope {
  id: number;
  /** Null for the root. */
  parent: number | null;
  node: number;
  flags: string[];
  /** In order of binding. */
  bindings: { name: string; symbol: number }[];
  /** The kind of the node that opens the scope, and that node's span. */
  kind: string;
  span: Span;
}

export interface SymbolEntry {
  id: number;
  name: string;
  scope: number;
  /** The first declaration, and the span of the name there. */
  node: number;
  span: Span;
  flags: string[];
  /** Each declaration, where there are more than one. */
  redeclarations: { node: number; span: Span; flags: string[] }[];
  /** Ids of the references that mean it. */
  references: number[];
  /** Whether calls of it have no side effects. */
  pure: boolean;
}

export interface Reference {
  id: number;
  name: string;
  node: number;
  scope: number;
  flags: string[];
  /** Null where the name is free. */
  symbol: number | null;
  span: Span;
}

export interface Diagnostic {
  /** Such as `TS(1228)`. */
  code: string | null;
  message: string;
  /** The first is the place of the diagnostic, the others are related. */
  labels: { span: Span; text: string | null }[];
  help: string | null;
  note: string | null;
}

export interface ClassElement {
  id: number;
  name: string;
  span: Span;
  isPrivate: boolean;
  isStatic: boolean;
  kind: string[];
}

export interface ClassEntry {
  id: number;
  node: number;
  parent: number | null;
  elements: ClassElement[];
  /** Uses of private names, with the ids of the elements that they mean. */
  uses: { node: number; name: string; span: Span; elements: number[] }[];
}

/** The tables of a program. Ids are places in the lists; `node` is the number of a node in the tree, in preorder. */
export interface Tables {
  file: string;
  goal: 'script' | 'module' | 'commonjs';
  lang: 'js' | 'jsx' | 'ts' | 'tsx' | 'dts';
  scopes: Scope[];
  symbols: SymbolEntry[];
  references: Reference[];
  /** Names that no scope around their references binds, in order of the first. */
  free: { name: string; references: number[] }[];
  unusedLabels: { node: number; name: string; span: Span }[];
  diagnostics: Diagnostic[];
  /** With the options of these names. */
  nodes?: { id: number; kind: string; parent: number; scope: number }[];
  classes?: ClassEntry[];
  stats?: { nodes: number; scopes: number; symbols: number; references: number };
}

export type Severity = 'off' | 'warn' | 'error';

export interface UnusedOptions {
  /** `local` leaves out what a script declares at its top. `all` is the default. */
  vars?: 'all' | 'local';
  /** `after-used` (the default) leaves out parameters before one that is used. */
  args?: 'all' | 'after-used' | 'none';
  /** Whether parameters of `catch` are told; by default they aren't. */
  caught?: boolean;
  /** Names that match this pattern aren't told: `^_` by default. */
  ignore?: string;
}

/** A severity, options, or both. */
export type Rule<Options> = Severity | Options | [Severity] | [Severity, Options];

export interface Rules {
  'no-unused'?: Rule<UnusedOptions>;
  'no-undeclared'?: Rule<Record<string, never>>;
  'no-redeclare'?: Rule<Record<string, never>>;
  'early-error'?: Rule<Record<string, never>>;
  'unused-label'?: Rule<Record<string, never>>;
  /** Imports that lead nowhere, which `bolgwyr check --project` tells. The text of one file has no such findings. */
  'unresolved-import'?: Rule<Record<string, never>>;
}

/** The settings of a `bolgwyr.json`, and how the text is read. No file is looked for. */
export interface CheckOptions extends Reading {
  rules?: Rules;
  /** These rules alone. */
  only?: (keyof Rules)[];
  /** Environments of the package `globals`, such as `browser` and `node`. Without them the text's own names tell. */
  env?: string[] | Record<string, boolean>;
  globals?: Record<string, boolean | 'readonly' | 'writable' | 'off'>;
}

export interface Place {
  line: number;
  column: number;
  endLine: number;
  endColumn: number;
  /** Null where only line and column are known. */
  span: { start: number; end: number } | null;
}

export interface Finding extends Place {
  /** A rule, or `syntax` for a text that no parser reads. */
  rule: keyof Rules | 'syntax';
  severity: 'warn' | 'error';
  message: string;
  /** Other places that belong to it; those in other files have `file`. */
  related: (Place & { message: string; file?: string })[];
  /** What is said of the place itself. */
  said?: string;
  help?: string;
  note?: string;
}

/** A text that has no tables: no parser reads it, or it is too large or too deep. */
export class Refusal extends Error {
  line?: number;
  column?: number;
  /** The byte at which the place begins. */
  start?: number;
}

/** The tables of a text. Throws a Refusal. */
export function analyse(text: string, options?: AnalyseOptions): Tables;

/** The findings of a text, in order of their places. Throws a Refusal for a text that is too large or too deep. */
export function check(text: string, options?: CheckOptions): Finding[];

/** A place in a module, with lines and columns from 1. */
export interface LinkPlace {
  file: string; line: number; column: number; endLine: number; endColumn: number; span: { start: number; end: number } }
export interface LinkRelated extends LinkPlace { message: string }
export type LinkRule = 'unresolved-import' | 'uninstalled-package' | 'missing-export' | 'circular-export' |
  'ambiguous-export' | 'duplicate-export' | 'unreadable-module' | 'unparsable-module';
export interface LinkFinding extends LinkRelated { rule: LinkRule; related: LinkRelated[] }
export interface LinkNote extends LinkPlace { kind: 'absent' | 'unknown'; name: string }
export interface LinkImport extends LinkPlace {
  name: string | null; local: string; specifier: string; outcome: string; target: string | null }
export interface LinkSpecifier extends Omit<LinkPlace, 'file'> {
  text: string; way: 'import' | 'export' | 'dynamic' | 'require' | 'augment'; typed: boolean;
  file: string | null; external: string | null; nowhere: string | null }
export interface LinkModule { file: string; kind: string; exports: string[]; specifiers: LinkSpecifier[] }
export interface LinkFault { entry: string; message: string }
export interface LinkOptions { cwd?: string; strict?: boolean; packages?: boolean }
export interface LinkAnswer {
  modules: LinkModule[]; imports: LinkImport[]; findings: LinkFinding[]; notes: LinkNote[]; faults: LinkFault[] }
/** Which imports of the modules that entries (files or folders) reach lead nowhere. */
export function link(entries: string[], options?: LinkOptions): LinkAnswer;

export * from './tools/rename/index';
export * from './tools/mangle/index';
