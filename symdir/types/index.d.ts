/**
 * What a directory of TypeScript or JavaScript exports, and what it lacks: the commands of `symdir` as a library.
 * Files are paths below the directory; lines and columns begin at 1, and columns count UTF-16 units.
 */

/** Opens a directory: reads its modules, and starts one process of `symq`, which answers until the directory is closed. */
export function openFolder(directory: string | URL, options?: Options): Promise<Folder>;

/** Each option has the meaning of the command's. */
export interface Options {
  /** Entry points, in place of those of package.json or deno.json. */
  entry?: readonly string[];
  /** Excludes modules by their paths below the directory. */
  skip?: readonly RegExp[];
  /** Also reads JavaScript that has declarations or sources next to it. */
  js?: boolean;
  /** Also reads the modules of `node_modules` that are reached. */
  packages?: boolean;
  /** By default a declaration file without `export {..}` exports all that it declares; `false` takes Deno's rule. */
  ambientExports?: boolean;
  /** By default syntax trees are cached in the user's cache directory. */
  cache?: boolean;
  /** Lists in `shared` names that several modules export along `export *`, and reports them as missing. */
  strict?: boolean;
  /** By default function bodies are read. With `false` opening is faster, `uses` leaves them out, and `unused` and `cycles` fail. */
  bodies?: boolean;
  /** The program `symq`. By default the one that the environment variable SYMQ names, the repository's, or the one on the PATH. */
  symq?: string;
  /** Is called with what is under way, and with an empty text at its end. */
  progress?: (text: string) => void;
}

/** A directory that is open. Its functions may be called at once, and fail with a {@link SymdirError}. */
export interface Folder extends AsyncDisposable, Disposable {
  /** Its absolute path. */
  readonly directory: string;
  /** The modules that users import. */
  readonly entries: string[];
  readonly modules: string[];
  /** What couldn't be read or parsed. The rest is answered. */
  readonly faults: Fault[];
  /** Lists the public names of all entries. */
  names(): Promise<ExportedName[]>;
  /** Lists what one module exports. */
  exports(file: string): Promise<Exports>;
  /** Lists non-exported types that the public API references. */
  leaks(): Promise<Leak[]>;
  /** Lists unresolved imports and `export *`, imports of missing exports, and files that can't be read or parsed. */
  missing(): Promise<Missing[]>;
  /** Finds the definitions of the names at a place, with the modules in between. */
  where(at: Spot): Promise<Found[]>;
  /** Finds the imports, re-exports and references of the declarations at a place. */
  uses(at: Spot): Promise<Used[]>;
  /** Lists exports that nothing uses, files that no root reaches, and dependencies that nothing imports. */
  unused(options?: { production?: boolean }): Promise<Unused>;
  /** Lists import cycles, each with the import to cut. */
  cycles(): Promise<Cycles>;
  /** Ends the process. Calls that are under way fail. */
  close(): Promise<void>;
}

/**
 * Why there is no answer:
 * - `argument`: an argument or an option isn't valid, or names a directory, a module or a line that doesn't exist;
 * - `setup`: TypeScript or `symq` isn't found, or can't be started;
 * - `source`: the directory has no modules, or the file in question has a syntax error;
 * - `system`: the operating system refused to read or write a file;
 * - `engine`: `symq` or a parser ended;
 * - `closed`: the directory is closed.
 */
export type ErrorKind = 'argument' | 'setup' | 'source' | 'system' | 'engine' | 'closed';

export class SymdirError extends Error {
  constructor(message: string, kind: ErrorKind, cause?: unknown);
  readonly kind: ErrorKind;
}

export interface Position {
  file: string;
  line: number;
  column: number;
}

/** A place in a file. Without a column all names in the line are meant; `name` selects one of them, as `Foo` or `a.b`. */
export interface Spot {
  file: string;
  line: number;
  column?: number;
  name?: string;
}

export interface Fault extends Position {
  text: string;
}

/** Where something is defined; of a whole module, the statement that stands for it. */
export interface Definition extends Position {
  kind: string;
  by?: Position & { text: string };
}

/** An `export *`: the module that has it, and the specifier in it. */
export interface Star {
  file: string;
  text: string;
}

/** An end that is no definition. `unknown` is a name that may exist, and `why` says of the file why that isn't known. */
export interface End {
  what: 'external' | 'import' | 'name' | 'unknown' | 'global';
  file: string;
  name: string;
  why?: string;
}

export interface ExportedName {
  /** The module that exports it. */
  entry: string;
  name: string;
  /** The kinds of its definitions, as `class+namespace`. */
  kind: string;
  defined: Definition[];
  /** Each `export *` on the way. */
  through: Star[];
  unresolved: End[];
}

export interface Exports {
  names: ExportedName[];
  /** Each `export *` whose names aren't known; `external` is the module that it resolves to, `isLost` where that can't be read or parsed. */
  open: (Position & { entry: string; text: string; external: string | null; isLost?: boolean })[];
  /** With `strict`, names that several modules export along `export *`. */
  shared: { module: string; name: string; owners: { file: string; through: Star[] }[] }[];
  /** The names of `declare module "name"`, of a file that exports nothing. */
  declared: string[];
  /** Why the names of a file that exports nothing aren't known, as `is CommonJS`. */
  unlisted: string[];
}

export interface Leak extends Definition {
  name: string;
  /** Whether its own module exports it. */
  exported: boolean;
  /** The public declarations and members that reference it. */
  neededBy: string[];
}

export interface Missing extends Position {
  /** `package` and `file` are unresolved imports, `unread` and `syntax` faults of a file. */
  what: 'syntax' | 'unread' | 'file' | 'package' | 'name' | 'shared';
  /** The specifier, the name, or what is wrong. */
  text: string;
  /** The statement, as `export *`; of a name the module that lacks it, of a shared name the modules that export it. */
  how: string;
}

export interface Found {
  name: string;
  at: Position;
  ways: {
    /** The modules between. */
    through: string[];
    /** `null` for an end that is no definition. */
    defined: Definition | null;
    unresolved: End | null;
  }[];
}

export interface Use extends Position {
  how: 'import' | 'import type' | 're-export' | 'export *' | 'export' | 'reference';
  /** Whether only types need it. */
  isType: boolean;
}

export interface Used {
  name: string;
  defined: Definition[];
  uses: Use[];
}

export interface UnusedExport extends Position {
  name: string;
  kind: string;
  /** Whether its own module uses it. */
  inFile: boolean;
}

export interface Dependency extends Position {
  name: string;
  /** What it is imported for; `unknown` if only JavaScript that isn't read may import it. */
  use: 'values' | 'types' | 'nothing' | 'unknown';
}

export interface Unused {
  files: string[];
  exports: UnusedExport[];
  /** Values that others use as types only. */
  typesOnly: UnusedExport[];
  dependencies: Dependency[];
}

/** An import: one module, another one, and the statements that lead from the one to the other. */
export interface Step {
  from: string;
  to: string;
  statements: (Position & { how: string; text: string })[];
}

/** Modules that all import each other. */
export interface Cycle {
  modules: string[];
  shortest: Step[];
  /** The import that takes most modules out of cycles, and how many; `isSure` if no other one takes more. */
  cut: Step & { opens: number; isSure: boolean };
}

export interface Cycles {
  cycles: Cycle[];
  /** Cycles through imports of types or `import()`, which don't exist when modules load. */
  deferred: Cycle[];
}

declare global {
  interface SymbolConstructor {
    readonly dispose: unique symbol;
    readonly asyncDispose: unique symbol;
  }
  interface Disposable {
    [Symbol.dispose](): void;
  }
  interface AsyncDisposable {
    [Symbol.asyncDispose](): PromiseLike<void>;
  }
}
