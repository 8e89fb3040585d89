// The types of mangling of source text.

import { RenameEdit, RenameMap } from '../rename/index';

export interface MangleOptions {
  /** The name of the file, which tells its language and goal; `input.js` where there is none. */
  file?: string;
  parser?: 'acorn' | 'typescript';
  goal?: 'script' | 'module' | 'commonjs';
  /** The variables of a script get short names, too. */
  toplevel?: boolean;
  /** Asks for a source map. */
  map?: boolean;
}

export interface Mangled {
  text: string;
  edits: RenameEdit[];
  map: RenameMap | null;
}

/** Gives the text with short local names. Throws a RenameRefusal where a name that would change can't be followed. */
export function mangle(text: string, options?: MangleOptions): Mangled;
