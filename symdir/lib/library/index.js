// The command as a library: a directory that stays open, and what the commands print as objects. `types/index.d.ts` describes it.
import { Failure, failureOf } from '../failure.js';
import { begin } from '../folder/begin.js';
import { Folder } from '../folder/folder.js';
import { findSymq } from '../program.js';
import { checkUnused, checkedSpot, readingOf } from './options.js';

/** @typedef {import('../../types/index.js').Options} Options */
/** @typedef {import('../../types/index.js').Spot} Spot */
/** @typedef {import('../failure.js').Kind} Kind */

export class SymdirError extends Error {
  /** @param {string} message @param {Kind} kind @param {unknown} [cause] */
  constructor(message, kind, cause) {
    super(message, { cause });
    this.name = 'SymdirError';
    this.kind = kind;
  }
}

/** @param {unknown} error @returns {unknown} it as users know it; a fault of this program stays what it is */
function errorOf(error) {
  const failure = failureOf(error);
  return failure === null ? error : new SymdirError(failure.message, failure.kind, error);
}

/** A directory that is open. Of the functions each command has, what it alone needs is loaded where it is called. */
class OpenFolder {
  #folder;
  #options;
  /** @type {Promise<void> | undefined} */
  #closing;

  /** @param {Folder} folder @param {Options} options */
  constructor(folder, options) {
    this.#folder = folder;
    this.#options = options;
    const { sources } = folder;
    const short = (/** @type {string} */ it) => folder.short(it);
    this.directory = sources.folder;
    this.entries = folder.entries.map(short);
    this.modules = [...sources.modules.values()].filter((it) => sources.files.holds(it.file)).map((it) => short(it.specifier));
    const unread = sources.unreadable().map(({ file, error }) => ({ file, line: 1, column: 1, text: `can't be read (${error})` }));
    this.faults = [...unread, ...sources.unparsed().map(({ file, line, column, text }) => ({ file, line, column, text }))];
  }

  /** @template T @param {(folder: Folder) => Promise<T>} work @returns {Promise<T>} */
  async #answer(work) {
    const isOpen = () => this.#closing === undefined;
    const closed = () => new SymdirError(`${this.directory} is closed`, 'closed');
    if (!isOpen()) throw closed();
    try {
      return await work(this.#folder);
    } catch (error) {
      throw isOpen() ? errorOf(error) : closed();
    }
  }

  names() {
    return this.#answer(async (folder) => (await import('../commands/api.js')).publicNames(folder));
  }

  /** @param {string} file */
  exports(file) {
    return this.#answer(async (folder) => {
      const [{ exportsOf }, { moduleOf }] = await Promise.all([import('../commands/api.js'), import('../commands/where.js')]);
      if (typeof file !== 'string') throw new Failure('exports takes a file', 2);
      const found = await exportsOf(folder, [moduleOf(folder, file).specifier]);
      return { ...found, declared: found.declared.map((it) => it.module), unlisted: found.unlisted.map((it) => it.why) };
    });
  }

  leaks() {
    return this.#answer(async (folder) => (await (await import('../commands/leaks.js')).findLeaks(folder)).leaks);
  }

  missing() {
    return this.#answer(async (folder) => (await import('../commands/missing.js')).findMissing(folder, this.#options.strict ?? false));
  }

  /** @param {Spot} at */
  where(at) {
    return this.#answer(async (folder) => {
      const { spot, name } = checkedSpot(at);
      return (await import('../commands/where.js')).findDefinitions(folder, spot, name);
    });
  }

  /** @param {Spot} at */
  uses(at) {
    return this.#answer(async (folder) => {
      const { spot, name } = checkedSpot(at);
      return (await (await import('../commands/uses.js')).findUses(folder, spot, name)).all;
    });
  }

  /** @param {{ production?: boolean }} [options] */
  unused(options = {}) {
    return this.#answer(async (folder) => {
      this.#checkBodies('unused');
      checkUnused(options);
      return (await import('../commands/unused.js')).findUnused(folder, options.production ?? false);
    });
  }

  cycles() {
    return this.#answer(async (folder) => {
      this.#checkBodies('cycles');
      const { cycles, deferred } = await (await import('../commands/cycles.js')).findCycles(folder);
      return { cycles, deferred };
    });
  }

  /** @param {string} name of what looks at the bodies of functions */
  #checkBodies(name) {
    if (this.#options.bodies === false) throw new Failure(`${name} needs function bodies: open the directory without bodies: false`, 2);
  }

  /** @returns {Promise<void>} */
  close() {
    this.#closing ??= this.#folder.close();
    return this.#closing;
  }
}

/** @param {string} name of a symbol that newer versions of Node have @param {(folder: OpenFolder) => unknown} value */
function addDispose(name, value) {
  const key = /** @type {any} */ (Symbol)[name];
  if (key) Object.defineProperty(OpenFolder.prototype, key, { value() { return value(this); }, writable: true, configurable: true });
}

addDispose('asyncDispose', (folder) => folder.close());
addDispose('dispose', (folder) => void folder.close());

/** @param {import('../folder/begin.js').Begun} begun @param {Options} options @returns {Promise<Folder>} */
async function opened(begun, { entry = [] }) {
  const folder = await Folder.read(begun, { entry: [...entry] });
  try {
    folder.open(/** @type {import('../folder/begin.js').Asked} */ (begun.asked));
    // symq has read the graph when it answers
    await folder.ask([['module', folder.entries[0]]]);
    return folder;
  } catch (error) {
    await folder.sources.pool?.close();
    await folder.close();
    throw error;
  }
}

/** @param {string | URL} directory @param {Options} [options] @returns {Promise<OpenFolder>} */
export async function openFolder(directory, options = {}) {
  try {
    const reading = readingOf(directory, options);
    const begun = await begin(reading, { symq: findSymq(options.symq), strict: options.strict });
    try {
      return new OpenFolder(await opened(begun, options), options);
    } catch (error) {
      await begun.last?.close();
      throw error;
    }
  } catch (error) {
    throw errorOf(error);
  }
}
