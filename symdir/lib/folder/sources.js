// A folder of sources: its modules, parsed, and what their imports stand for.
import path from 'node:path';

import { isCode, isJavaScript } from '../language.js';
import { counted } from '../output.js';
import { saveMemory } from '../tree/budget.js';
import { Configs } from './configs.js';
import { sourcesOf } from './endings.js';
import { packageFile } from './packages.js';
import { Open } from './open.js';
import { Resolver } from './resolve.js';
import { bestPattern } from './aliases.js';
import { ambientSpecifier, shortOf } from './specifier.js';

/** @typedef {import('./kept.js').Parsed} Parsed */
/** @typedef {import('../tree/converter.js').Reference} Reference */
/** @typedef {import('../tree/convert.js').Fault} Fault */

/**
 * @typedef {object} Module
 * @property {string} specifier
 * @property {string} file absolute
 * @property {Parsed} parsed
 */

/** The configuration files of the folder that are looked at in any case. */
const CONFIGS = ['package.json', 'deno.json', 'deno.jsonc', 'tsconfig.json', 'jsconfig.json'];

/** Where trees have so many bytes, all that is made of them takes much memory. */
const MUCH = 16_000_000;

/** @param {string} text of an import @returns {boolean} whether it is a path, which no `declare module` can name but by a star */
function isPath(text) {
  return /^(\/|\.{1,2}(\/|$))/.test(text);
}

export class Sources {
  /** @param {import('./begin.js').Begun} begun */
  constructor({ reading, files, kept, pool, others, resolver }) {
    this.reading = reading;
    this.folder = reading.folder;
    this.files = files;
    this.kept = kept;
    this.parsers = pool;
    this.others = others;
    this.resolver = resolver ?? new Resolver(files, new Configs(files));
    this.configs = this.resolver.configs;
    /** @type {Map<string, Module>} by specifier */
    this.modules = new Map();
    /** @type {Map<string, Map<string, string>>} by specifier and text */
    this.resolutions = new Map();
    /** @type {(graph?: string) => Promise<void>} keeps what is new, with the name of the graph that is asked, and ends with the threads: to be called when nothing waits for this one */
    this.keep = async () => {};
    /** @type {Set<string>} specifiers of modules that aren't read */
    this.external = new Set();
    /** @type {{ file: string, error: string }[]} */
    this.unread = [];
    /** @type {import('./pool.js').Pool | undefined} */
    this.pool = undefined;
    /** @type {Set<string>} what files that are no modules declare by `declare module "name"` */
    this.ambient = new Set();
    /** How many bytes the trees have. */
    this.size = 0;
  }

  /** @param {Parsed} parsed a tree that is there from then on */
  count({ text }) {
    const isFew = this.size < MUCH;
    this.size += text.length;
    if (isFew && this.size >= MUCH && !this.reading.typescript) saveMemory();
  }

  /** @param {string} file absolute @returns {string} */
  specifierOf(file) {
    const below = this.files.below(file);
    if (!below.startsWith('../')) return `file:///${below}`;
    const inPackages = file.lastIndexOf('/node_modules/');
    return inPackages < 0 ? `file://${file}` : `file://${file.slice(inPackages)}`;
  }

  /** @param {string} specifier @returns {string} below the folder, as people read it */
  short(specifier) {
    return shortOf(specifier);
  }

  /** @param {string} file a module of JavaScript @returns {boolean} whether declarations or sources say what it has */
  hasTypes(file) {
    if (sourcesOf(file).some((it) => this.files.has(it))) return true;
    const own = this.configs.packageAt(path.posix.dirname(file));
    const types = own?.value.types ?? own?.value.typings;
    return own !== null && typeof types === 'string' && this.files.has(path.posix.join(own.folder, types));
  }

  /** Reads the modules of the folder, and then what they lead to. */
  async read() {
    let isNew = false;
    try {
      let wanted = this.files.code().filter((it) => this.reading.javascript || !isJavaScript(it) || !this.hasTypes(it));
      this.unread.push(...this.files.unread.map((file) => ({ file: this.files.below(file), error: 'EACCES' })));
      while (wanted.length > 0) {
        const parsed = await this.parse(wanted);
        isNew ||= parsed > 0;
        wanted = this.resolveAll(wanted);
      }
      this.resolveDeclared();
      isNew = (await this.parseRequires()) || isNew;
    } catch (error) {
      await this.pool?.close();
      throw error;
    }
    for (const { specifier, parsed } of this.modules.values()) this.others?.set(specifier, parsed);
    const isOther = isNew || this.kept?.modules.size !== this.modules.size;
    this.keep = async (graph = this.kept?.graph ?? '') => {
      const isKept = !isOther && graph === this.kept?.graph;
      await Promise.all([this.pool?.close(), isKept || this.kept?.write(new Map([...this.modules.values()].map((it) => [it.file, it.parsed])), graph)]);
    };
  }

  /** @returns {{ file: string, error: string }[]} what can't be read: modules, folders and configuration files, each once */
  unreadable() {
    return [...this.unread, ...this.configs.unread.map(({ file, error }) => ({ file: this.files.below(file), error }))];
  }

  /** @returns {(Fault & { file: string })[]} what can't be parsed: modules, and configuration files, those of the folder itself even where nothing needs them */
  unparsed() {
    for (const it of CONFIGS) this.configs.value(path.posix.join(this.folder, it));
    const modules = [...this.modules.values()].flatMap(({ specifier, parsed: { fault } }) => (fault ? [{ file: this.short(specifier), ...fault }] : []));
    return [...this.configs.faults.map((it) => ({ ...it, file: this.files.below(it.file) })), ...modules];
  }

  /** @returns {string[]} what couldn't be read or parsed, a line each */
  faults() {
    const unread = this.unreadable().map(({ file, error }) => `${file}: can't be read (${error})`);
    return [...unread, ...this.unparsed().map(({ file, line, column, text }) => `${file}:${line}:${column}: ${text}`)];
  }

  /** @param {string} file @param {string} specifier @returns {{ parsed: Parsed, isNew: boolean } | null} its tree, if it is kept or another folder has it, which is new then */
  known(file, specifier) {
    const other = this.others?.get(specifier);
    if (!other && !this.kept?.modules.has(file)) return null;
    const hash = this.files.hash(file);
    const parsed = this.kept?.get(file, hash);
    if (parsed) return { parsed, isNew: false };
    return other?.hash === hash ? { parsed: other, isNew: true } : null;
  }

  /** @param {string[]} wanted files @returns {Promise<number>} of how many no tree was kept */
  async parse(wanted) {
    /** @type {Map<string, Parsed>} */
    const found = new Map();
    const jobs = [];
    let taken = 0;
    for (const file of wanted) {
      const specifier = this.specifierOf(file);
      const known = this.known(file, specifier);
      if (known) this.count(known.parsed);
      if (known) found.set(file, known.parsed);
      else jobs.push({ file, specifier });
      if (known?.isNew) taken++;
    }
    let done = 0;
    if (jobs.length > 0) {
      this.reading.progress(`parsed 0 of ${counted(jobs.length, 'file')}`);
      this.pool = await this.parsers();
    }
    await this.pool?.parse(jobs, (file, made, error) => {
      this.reading.progress(++done < jobs.length ? `parsed ${done} of ${counted(jobs.length, 'file')}` : '');
      if (made) this.count(made);
      if (made) found.set(file, made);
      else this.unread.push({ file: this.files.below(file), error: error ?? '' });
      // looked up while other files are parsed, so that it is known when all are
      for (const { text } of made?.references ?? []) this.resolver.resolve(file, text);
    });
    for (const file of wanted) {
      const parsed = found.get(file);
      const specifier = this.specifierOf(file);
      if (parsed) this.modules.set(specifier, { specifier, file, parsed });
      else this.external.add(specifier);
      if (parsed?.isScript) for (const it of parsed.modules) this.ambient.add(it);
    }
    return jobs.length + taken;
  }

  /** @param {Module} module @param {Open} open @returns {string[]} the texts of its `import a = require(..)` that stand for modules whose names `export` tells */
  namespacesOf({ specifier, parsed }, open) {
    const texts = new Set(parsed.references.filter(({ how }) => how === 'require').map(({ text }) => text));
    const to = (/** @type {string} */ text) => this.typed(this.resolutions.get(specifier)?.get(text) ?? '');
    return [...texts].filter((it) => open.reason(to(it)) === null).sort();
  }

  /** Parses modules again whose `import a = require(..)` stand for something else than was known when they were parsed. @returns {Promise<boolean>} whether there are any */
  async parseRequires() {
    const open = new Open(this);
    const jobs = [...this.modules.values()].flatMap((it) => {
      const namespaces = this.namespacesOf(it, open);
      return JSON.stringify(namespaces) === JSON.stringify(it.parsed.namespaces) ? [] : [{ file: it.file, specifier: it.specifier, namespaces }];
    });
    if (jobs.length === 0) return false;
    this.pool = await this.parsers();
    await this.pool.parse(jobs, (file, made) => {
      const module = this.modules.get(this.specifierOf(file));
      if (module && made) module.parsed = made;
    });
    return true;
  }

  /** @param {string[]} files whose references are resolved @returns {string[]} files that they lead to and that aren't read yet */
  resolveAll(files) {
    /** @type {Set<string>} */
    const more = new Set();
    for (const file of files) {
      const module = this.modules.get(this.specifierOf(file));
      if (!module) continue;
      /** @type {Map<string, string>} */
      const table = new Map();
      this.resolutions.set(module.specifier, table);
      for (const { text } of module.parsed.references) {
        if (table.has(text)) continue;
        const to = this.target(file, text, more);
        if (to !== null) table.set(text, to);
      }
    }
    return [...more].sort();
  }

  /** Resolves what is left to modules that files declare which were read later. */
  resolveDeclared() {
    if (this.ambient.size === 0) return;
    for (const { specifier, parsed } of this.modules.values()) {
      const table = this.resolutions.get(specifier);
      for (const { text } of table ? parsed.references : []) {
        const to = table?.has(text) ? null : this.ambientTarget(text);
        if (to !== null) table?.set(text, to);
      }
    }
  }

  /** @param {string} from @param {string} text @param {Set<string>} more is given the file where it isn't read yet @returns {string | null} a specifier */
  target(from, text, more) {
    const found = this.resolver.resolve(from, text);
    if (!found) return this.ambientTarget(text);
    // what is declared goes before files
    if (found.file && this.isRead(found.file) && this.ambient.has(text) && !isPath(text)) return this.ambientTarget(text);
    const specifier = found.external ?? this.specifierOf(/** @type {string} */ (found.file));
    if (this.modules.has(specifier) || this.external.has(specifier) || more.has(found.file ?? '')) return specifier;
    if (found.file && this.isRead(found.file)) more.add(found.file);
    else if (found.file && !this.files.holds(found.file)) return this.outside(found.file, text);
    else this.external.add(specifier);
    return specifier;
  }

  /** @param {string} text @returns {string | null} the specifier of what `declare module` declares by this name, or by a pattern with a star */
  ambientTarget(text) {
    const name = bestPattern([...this.ambient].filter((it) => !isPath(text) || it.includes('*')), text);
    if (name === null) return null;
    this.external.add(ambientSpecifier(name));
    return ambientSpecifier(name);
  }

  /** @param {string} file @param {string} text @returns {string} the specifier of a module that isn't in the folder and isn't read */
  outside(file, text) {
    const specifier = file.includes('/node_modules/') && !text.startsWith('.') ? `npm:${text}` : this.specifierOf(file);
    this.external.add(specifier);
    return specifier;
  }

  /** @param {string} file @returns {boolean} whether a module that is met is read */
  isRead(file) {
    if (!isCode(file) && !file.endsWith('.json')) return false;
    if (this.files.holds(file)) return !this.files.isSkipped(file);
    return this.reading.packages && file.includes('/node_modules/');
  }

  /** @param {string} specifier @returns {string} that of the module with its types, or itself */
  typed(specifier) {
    const module = this.modules.get(specifier);
    return (module && this.typesOf(module)) ?? specifier;
  }

  /** @param {{ file: string }} module of JavaScript, which needn't be read @returns {string | null} the specifier of the module with its types */
  typesOf({ file }) {
    if (!isJavaScript(file)) return null;
    const beside = sourcesOf(file).find((it) => /\.d\.[mc]?ts$/.test(it) && this.modules.has(this.specifierOf(it)));
    if (beside) return this.specifierOf(beside);
    const own = this.configs.packageAt(path.posix.dirname(file));
    const types = own?.value.types ?? own?.value.typings;
    if (own === null || typeof types !== 'string') return null;
    const main = packageFile(this.files, own.folder, { ...own.value, types: undefined, typings: undefined }, '', true);
    const at = this.specifierOf(path.posix.join(own.folder, types));
    return main === file && this.modules.has(at) ? at : null;
  }
}
