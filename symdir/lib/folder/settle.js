// The ends of paths as TypeScript has them, where symq, by Deno's rules, says less: `import * as a` and `export * as a` lead to the module,
// a name that a module with `export =` lacks is one of what stands behind it, and a name that may be there isn't told as lacking.
import { Open } from './open.js';
import { isDefinition } from './folder.js';
import { endsOf, visitPaths } from './paths.js';

/** @typedef {import('./folder.js').Folder} Folder */
/** @typedef {import('./folder.js').Definition} Definition */
/** @typedef {any} Entry of a path, as symq gives it */

/** So many modules with `export =` may lead from one to the next. */
const MOST_STEPS = 16;

/** @param {Entry} end of a path @returns {boolean} whether it isn't what TypeScript makes of it yet */
function isUnsettledEnd(end) {
  return isDefinition(end) ? 'star' in end : end.kind === 'part' && end.why === undefined;
}

/** @param {Entry} entry @returns {boolean} whether a path ends that isn't what TypeScript makes of it yet */
export function isUnsettled(entry) {
  return 'next' in entry ? endsOf([entry]).some(isUnsettledEnd) : isUnsettledEnd(entry);
}

/** @param {Entry} entry that lacks a name @returns {string[]} the name and the parts behind it, among which symq has it where they are looked for in a whole module */
function wantedOf({ name, parts }) {
  return parts[0] === name ? parts : [name, ...parts];
}

/** @typedef {{ entry: Entry, reference: unknown[] }} Question what stands behind `export =` that an end may be */

export class Settling {
  /** @param {Folder} folder */
  constructor(folder) {
    this.folder = folder;
    this.open = new Open(folder.sources);
  }

  /**
   * @param {Entry[][]} lists of paths
   * @param {string[]} modules that each of them begins in
   * @param {number} [steps] that may still be made
   * @returns {Promise<Entry[][]>} with other ends where those are none yet
   */
  async settled(lists, modules, steps = MOST_STEPS) {
    /** @type {Map<Entry, Question>} */
    const asked = new Map();
    lists.forEach((list, i) => list.forEach((it) => this.collect(it, modules[i], asked)));
    const found = await this.answers([...asked.values()], steps);
    return lists.map((list, i) => (list.some(isUnsettled) ? list.map((it) => this.made(it, modules[i], found)) : list));
  }

  /** @param {Entry} entry @param {string} before the module before it @param {Map<Entry, Question>} asked is given the ends that may stand behind `export =` */
  collect(entry, before, asked) {
    visitPaths([entry], before, (it, last) => {
      if (!('next' in it) && !isDefinition(it) && it.kind === 'part' && it.module !== last) this.collectEnd(it, asked);
      return it.module;
    });
  }

  /** @param {Entry} end that lacks a name @param {Map<Entry, Question>} asked is given it if it may stand behind `export =` */
  collectEnd(end, asked) {
    const equals = this.folder.sources.modules.get(end.module)?.parsed.equals;
    if (!equals || equals.length === 0) return;
    const [name, ...parts] = equals;
    asked.set(end, { entry: end, reference: ['qualified', name, 1, [...parts, ...wantedOf(end)]] });
  }

  /** @param {Question[]} asked @param {number} steps @returns {Promise<Map<Entry, Entry[]>>} what some of the ends are */
  async answers(asked, steps) {
    const found = new Map();
    if (asked.length === 0 || steps === 0) return found;
    const modules = asked.map(({ entry }) => entry.module);
    const answers = await this.folder.ask(asked.map(({ entry, reference }) => ['resolve', entry.module, reference]));
    const lists = await this.settled(answers.map((it) => it?.entries ?? []), modules, steps - 1);
    lists.forEach((list, i) => {
      if (endsOf(list).some(isDefinition)) found.set(asked[i].entry, list);
    });
    return found;
  }

  /** @param {Entry} entry @param {string} before @param {Map<Entry, Entry[]>} found @returns {Entry} */
  made(entry, before, found) {
    const whole = [entry];
    const waiting = [{ entries: whole, before }];
    for (let last = waiting.pop(); last; last = waiting.pop()) {
      const { entries, before: from } = last;
      entries.forEach((it, i) => {
        if (!('next' in it)) {
          if (isUnsettledEnd(it)) entries[i] = this.madeEnd(it, from, found);
          return;
        }
        entries[i] = { ...it, next: [...it.next] };
        waiting.push({ entries: entries[i].next, before: it.module });
      });
    }
    return whole[0];
  }

  /** @param {Entry} end @param {string} before @param {Map<Entry, Entry[]>} found @returns {Entry} what TypeScript makes of it */
  madeEnd(end, before, found) {
    if (isDefinition(end)) return this.wholeModule(end);
    const next = found.get(end);
    if (next) return { module: end.module, parts: end.parts, next };
    const why = end.module === before ? this.open.jsonReason(end.module) : this.open.whyOpen(end.module, end.name);
    return { ...end, why: why ?? '' };
  }

  /** @param {Entry} entry a definition that stands for a module @returns {Entry} the module */
  wholeModule({ star, ...entry }) {
    const { modules, resolutions } = this.folder.sources;
    const to = resolutions.get(entry.module)?.get(star);
    const module = to === undefined ? undefined : this.folder.sources.typed(to);
    const found = module === undefined ? undefined : modules.get(module);
    if (!found || found.parsed.fault) return { kind: 'specifier', module: entry.module, name: star, parts: [] };
    const { start } = found.parsed;
    return { module, symbol: 0, decl: [0, 0], start, end: start, by: { module: entry.module, start: entry.start, text: star } };
  }
}
