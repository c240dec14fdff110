// The names of symbols in full, by their numbers, and which symbols are members of which.

/** @typedef {import('./folder.js').Folder} Folder */

/** For a declaration of a module so many numbers are noted. */
const NOTED = 5;

export class Names {
  /** @param {Folder} folder */
  constructor(folder) {
    this.folder = folder;
    /** @type {Map<string, (string | null)[]>} */
    this.names = new Map();
    /** @type {Map<string, Map<string, number[]>>} */
    this.below = new Map();
  }

  /** @param {string} module @returns {number} how many symbols it has, about: what it declares and imports, and itself */
  sizeOf(module) {
    const parsed = this.folder.sources.modules.get(module)?.parsed;
    return parsed ? parsed.declarations.length / NOTED + parsed.references.reduce((sum, it) => sum + it.names.length, 0) + 2 : 2;
  }

  /** @param {string[]} modules asks for the names of those that aren't known yet: until a number names no symbol */
  async read(modules) {
    let open = [...new Set(modules)].filter((it) => !this.names.has(it));
    for (const it of open) this.names.set(it, []);
    while (open.length > 0) {
      const queries = open.map((it) => Array.from({ length: this.of(it).length + this.sizeOf(it) }, (_, i) => ['name', it, this.of(it).length + i]));
      const answers = await this.folder.ask(queries.flat());
      let at = 0;
      open = open.filter((it, i) => {
        const mine = answers.slice(at, (at += queries[i].length));
        const end = mine.findIndex((answer) => !answer || 'fault' in answer);
        this.of(it).push(...(end < 0 ? mine : mine.slice(0, end)).map((answer) => answer.name));
        return end < 0;
      });
    }
    for (const it of modules) if (!this.below.has(it)) this.below.set(it, this.index(it));
  }

  /** @param {string} module @returns {(string | null)[]} */
  of(module) {
    return /** @type {(string | null)[]} */ (this.names.get(module));
  }

  /** @param {string} module @returns {Map<string, number[]>} the symbols under each name, by that name */
  index(module) {
    /** @type {Map<string, number[]>} */
    const found = new Map();
    this.of(module).forEach((name, symbol) => {
      for (let at = nextPart(name, 0); name && at > 0; at = nextPart(name, at + 1)) {
        const above = name.slice(0, at);
        const list = found.get(above);
        if (list) list.push(symbol);
        else found.set(above, [symbol]);
      }
    });
    return found;
  }

  /** @param {string} module @param {number} symbol @returns {number[]} its members, however deep */
  members(module, symbol) {
    const name = this.of(module)[symbol];
    return name ? this.below.get(module)?.get(name) ?? [] : [];
  }
}

/** @param {string | null} name @param {number} from @returns {number} where the next part begins, by a dot or a bracket; -1 at the end */
function nextPart(name, from) {
  for (let i = from; name && i < name.length; i++) if (i > 0 && (name[i] === '.' || name[i] === '[')) return i;
  return -1;
}
