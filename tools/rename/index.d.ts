// The types of renaming in source text.

export interface RenameOptions {
  /** The name of the file, which tells its language and goal; `input.js` where there is none. */
  file?: string;
  /** The new name: an identifier. */
  to: string;
  /** Line and column of a declaration or a use, both from 1; a column counts characters. */
  line?: number;
  column?: number;
  /** In place of line and column: the name of the one symbol that has it. */
  name?: string;
  parser?: 'acorn' | 'typescript';
  goal?: 'script' | 'module' | 'commonjs';
  /** Asks for a source map. */
  map?: boolean;
}

export interface RenameEdit {
  /** Bytes of the text before. */
  start: number;
  end: number;
  line: number;
  column: number;
  old: string;
  text: string;
}

export interface RenameMap {
  version: number;
  file: string | null;
  sources: string[];
  sourcesContent: string[];
  names: string[];
  mappings: string;
  toString(): string;
  toUrl(): string;
}

export interface Renamed {
  text: string;
  edits: RenameEdit[];
  map: RenameMap | null;
  /** What the renaming may change that no table knows. */
  warnings: string[];
}

/** Gives the text in which a symbol has another name. Throws a RenameRefusal where that would change what any name means. */
export function rename(text: string, options: RenameOptions): Renamed;

export interface ProjectOptions {
  file: string;
  to: string;
  line?: number;
  column?: number;
  name?: string;
  /** Files or folders from which all modules are reached. */
  entries: string[];
  /** The folder from which files are named. */
  cwd?: string;
}

export interface ProjectChange {
  file: string;
  /** The file's name for people. */
  shown: string;
  before: string;
  after: string;
  edits: RenameEdit[];
}

/** Renames in all modules that entries reach. No file is written. */
export function renameInProject(options: ProjectOptions): { changes: ProjectChange[]; warnings: string[] };

/** Why a symbol doesn't get a name, with the place of what is in the way where there is one. */
export class RenameRefusal extends Error {
  status: 1;
  line: number | null;
  column: number | null;
  /** The line of source and a mark below the place. */
  excerpt: string[];
  /** Of a renaming in a project: the file of the place. */
  file?: string;
  linesFor(file: string): string[];
}
