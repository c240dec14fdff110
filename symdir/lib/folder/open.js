// Modules whose names aren't all told by `export`, so that a name that isn't found there may be there all the same.

/** @typedef {import('./sources.js').Sources} Sources */

/** @param {import('./sources.js').Module} module of JavaScript without `export =` @returns {boolean} whether it has statements that export: there is a node for each */
function hasExports({ parsed: { text } }) {
  return text.includes('"kind":"Export');
}

const JSON_REASON = 'is JSON';

/** @param {import('./sources.js').Module} module @returns {string | null} why names of its own aren't known, as people read it behind the file; null where they are */
function reasonOf(module) {
  const { file, parsed } = module;
  if (file.endsWith('.json')) return JSON_REASON;
  if (parsed.fault) return 'can\'t be parsed';
  if (parsed.equals !== null) return 'has export =';
  return /\.c?jsx?$/.test(file) && !hasExports(module) ? 'is CommonJS' : null;
}

export class Open {
  /** @param {Sources} sources */
  constructor(sources) {
    this.sources = sources;
    /** @type {Map<string, string | null>} */
    this.own = new Map();
    /** @type {Map<string, string[]>} */
    this.along = new Map();
  }

  /** @param {string} specifier @returns {string | null} why names of the module itself aren't known; null where they are */
  reason(specifier) {
    const module = this.sources.modules.get(specifier);
    if (!module) return 'is external';
    let found = this.own.get(specifier);
    if (found === undefined) this.own.set(specifier, (found = reasonOf(module)));
    return found;
  }

  /** @param {string} specifier @returns {string | null} why parts of the value aren't known that stands for the whole module; null where it is no JSON */
  jsonReason(specifier) {
    const found = this.reason(specifier);
    return found === JSON_REASON ? found : null;
  }

  /** @param {string} specifier @returns {string[]} the modules that its names come from along `export *`, itself first; an empty one for each unresolved statement */
  reached(specifier) {
    const known = this.along.get(specifier);
    if (known) return known;
    const { modules, resolutions } = this.sources;
    const met = new Set([specifier]);
    for (const at of met) {
      for (const { how, text } of modules.get(at)?.parsed.references ?? []) {
        if (how === 'export *') met.add(resolutions.get(at)?.get(text) ?? '');
      }
    }
    const found = [...met];
    this.along.set(specifier, found);
    return found;
  }

  /** @param {string} specifier @param {string} name that the module lacks @returns {string | null} why it may have it all the same; null where it hasn't */
  whyOpen(specifier, name) {
    const own = this.reason(specifier);
    if (own !== null) return own;
    if (name === 'default' && /\.d\.c?ts$/.test(specifier)) return 'may be CommonJS';
    const reached = this.reached(specifier);
    if (name !== 'default' && reached.some((it) => this.reason(it) !== null)) return 'has an export * whose names aren\'t known';
    const isImplicit = reached.some((it) => this.sources.modules.get(it)?.parsed.implicit.includes(name));
    return isImplicit ? 'declares it without export' : null;
  }
}
