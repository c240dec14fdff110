// `symdir cycles`: modules that import each other in a circle, and which import to cut.
import path from 'node:path';

import { keepsImports } from '../folder/aliases.js';
import { isDefinition } from '../folder/folder.js';
import { languageOf } from '../language.js';
import { columns, counted, placeText } from '../output.js';
import { cycleFinding } from '../report/findings.js';
import { bestCut, cyclicParts, partOf, shortestCycle } from '../uses/circles.js';
import { endsOf } from '../uses/ends.js';
import { linksOf, mentionsOf } from '../uses/links.js';
import { Tree } from '../uses/tree.js';

/** @typedef {import('../folder/folder.js').Folder} Folder */
/** @typedef {import('../uses/links.js').Link} Link */
/** @typedef {import('../uses/circles.js').Edges} Edges */
/** @typedef {import('../cli.js').Run} Run */

/** @typedef {{ file: string, line: number, column: number, how: string, text: string }} Statement */
/** @typedef {{ from: string, to: string, statements: Statement[] }} Step from a module to one that it imports */

/**
 * Modules that import each other in a circle, as `--json` writes them.
 * @typedef {object} Part
 * @property {string[]} modules each of which leads to each other
 * @property {Step[]} shortest a shortest cycle; in what isn't there when modules load one that has such an import
 * @property {Step & { opens: number, isSure: boolean }} cut the import without which most of the modules are in no cycle, how many they are, and whether no other
 *   import opens more
 */

const TYPES = /^(interface|type)$/;

/** No code is made of it. */
const DECLARATIONS = new Tree('', [], true);

/** @param {import('../folder/sources.js').Module} module @returns {Tree} of a declaration file none of its nodes, where none of them can be a call of `require`: its references tell all */
function treeOf(module) {
  const isEnough = languageOf(module.file).declaration && !module.parsed.text.includes('require');
  return isEnough ? DECLARATIONS : Tree.of(module);
}

/** @param {Folder} folder @returns {Link[]} between modules of the folder */
function linksIn(folder) {
  const { modules, files } = folder.sources;
  const own = [...modules.values()].filter((it) => files.holds(it.file));
  const names = new Set(own.map((it) => it.specifier));
  return own.flatMap((it) => {
    const tree = treeOf(it);
    const links = [...linksOf(folder, it, tree), ...mentionsOf(folder, it, tree).filter(({ how }) => how === 'require')];
    return links.filter(({ to }) => to !== null && names.has(to));
  });
}

/** @param {Folder} folder @param {string} specifier @returns {boolean} whether tsconfig.json says that imports of the module stay though types alone need them */
function isKeptFrom({ sources }, specifier) {
  const file = sources.modules.get(specifier)?.file ?? '';
  return keepsImports(sources.configs, path.posix.dirname(file));
}

/**
 * Tells the links that code is made of and that lead to the other module when modules load. What is only exported again is none where it
 * is a type.
 * @param {Folder} folder
 * @param {Link[]} links
 * @returns {Promise<Set<Link>>}
 */
async function loading(folder, links) {
  const kept = new Set(links.filter((it) => it.how !== 'import()' && !it.isErased && isKeptFrom(folder, it.from)));
  const open = links.filter((it) => it.how !== 'import()' && !it.isType && !kept.has(it));
  const isPassing = (/** @type {Link} */ it) => it.taken.length > 0 && it.taken.every(({ isType, isPassed, name }) => isType || (isPassed && name !== '*'));
  const passing = new Set(open.filter(isPassing));
  const asked = [...passing].flatMap((link) => link.taken.filter((it) => !it.isType).map(({ name }) => ({
    link, query: /** @type {[string, unknown[]]} */ ([link.from, ['import', link.text, [name]]]) })));
  const answers = await folder.resolve(asked.map((it) => it.query));
  const loads = new Set([...kept, ...open.filter((it) => !passing.has(it))]);
  asked.forEach(({ link }, i) => void (endsOf(answers[i]).some((it) => isValue(folder, it)) && loads.add(link)));
  return loads;
}

/** @param {Folder} folder @param {any} end of a path @returns {boolean} whether it is a value, or isn't known */
function isValue(folder, end) {
  return !isDefinition(end) || !TYPES.test(folder.kindOf(end));
}

class Graph {
  /** @param {Folder} folder @param {Link[]} links */
  constructor(folder, links) {
    this.folder = folder;
    this.names = [...new Set(links.flatMap((it) => [it.from, /** @type {string} */ (it.to)]))].sort();
    this.number = new Map(this.names.map((it, i) => [it, i]));
    /** @type {Map<number, Link[]>} by both ends */
    this.links = new Map();
    for (const it of links) {
      const key = this.key(it);
      const list = this.links.get(key);
      if (list) list.push(it);
      else this.links.set(key, [it]);
    }
    /** @type {Edges} */
    this.edges = this.names.map(() => []);
    for (const key of this.links.keys()) this.edges[Math.floor(key / this.names.length)].push(key % this.names.length);
  }

  /** @param {Link} link */
  key({ from, to }) {
    return /** @type {number} */ (this.number.get(from)) * this.names.length + /** @type {number} */ (this.number.get(/** @type {string} */ (to)));
  }

  /** @param {string} from @param {string} to @returns {Step} */
  step(from, to) {
    const links = this.links.get(this.key(/** @type {Link} */ ({ from, to }))) ?? [];
    const statements = links.map((it) => ({ ...this.folder.place(from, it.start), how: it.how, text: it.text }));
    return { from: this.folder.short(from), to: this.folder.short(to), statements };
  }

  /** @param {number[]} part @param {((from: string, to: string) => boolean) | null} isMarked an edge that the cycle has to have one of @returns {Part} */
  part(part, isMarked) {
    const edges = partOf(this.edges, part);
    const name = (/** @type {number} */ it) => this.names[part[it]];
    const cycle = shortestCycle(edges, isMarked && ((from, to) => isMarked(name(from), name(to))));
    const { from, to, opened, isSure } = bestCut(edges, cycle);
    return {
      modules: part.map((it) => this.folder.short(this.names[it])).sort(),
      shortest: cycle.map((it, i) => this.step(name(it), name(cycle[(i + 1) % cycle.length]))),
      cut: { ...this.step(name(from), name(to)), opens: opened, isSure },
    };
  }
}

/**
 * @param {Folder} folder
 * @returns {Promise<{ links: number, cycles: Part[], deferred: Part[] }>} those that are there when modules load, and those of which types or
 *   `import()` are a part
 */
export async function findCycles(folder) {
  const links = linksIn(folder);
  const loads = await loading(folder, links);
  const graph = new Graph(folder, links.filter((it) => loads.has(it)));
  const parts = cyclicParts(graph.edges);
  /** @type {Map<string, number>} */
  const partOfModule = new Map(parts.flatMap((part, i) => part.map((it) => /** @type {[string, number]} */ ([graph.names[it], i]))));
  const whole = new Graph(folder, links);
  const isApart = (/** @type {string} */ a, /** @type {string} */ b) => partOfModule.get(a) === undefined || partOfModule.get(a) !== partOfModule.get(b);
  const others = cyclicParts(whole.edges).filter((part) => part.length === 1 ? isApart(whole.names[part[0]], whole.names[part[0]])
    : part.some((it) => isApart(whole.names[it], whole.names[part[0]])));
  const bySize = (/** @type {Part} */ a, /** @type {Part} */ b) => b.modules.length - a.modules.length || (a.modules[0] < b.modules[0] ? -1 : 1);
  // between parts of the one graph no cycle is there when modules load, so that a cycle there has another link
  return {
    links: whole.links.size,
    cycles: parts.map((it) => graph.part(it, null)).sort(bySize),
    deferred: others.map((it) => whole.part(it, isApart)).sort(bySize),
  };
}

/** How many cycles are shown of each sort without `--all`. */
const SHOWN = 10;

/** @param {Run} run @param {string} head @param {Part[]} parts */
function printParts({ print, paint, options }, head, parts) {
  if (parts.length === 0) return;
  print(paint.bold(`${head}: ${parts.length}`));
  const shown = options.all ? parts : parts.slice(0, SHOWN);
  for (const { modules, shortest, cut } of shown) {
    const around = shortest.length < modules.length ? `, the shortest of ${shortest.length}` : '';
    print(`  ${paint.yellow(counted(modules.length, 'module'))}${around}`);
    const rows = shortest.flatMap(({ to, statements: [first] }) => [[`    ${placeText(first)}`, `${first.how} "${first.text}"`, to]]);
    columns(rows, ([place, text, to]) => [place, text, paint.dim(to)]).forEach(print);
    const [{ how, text, ...place }, ...more] = cut.statements;
    const opened = cut.opens === modules.length ? 'breaks all of it' : `takes ${counted(cut.opens, 'module')} out of cycles`;
    print(`    cut ${placeText(place)} ${how} "${text}"${more.length > 0 ? ` and ${more.length} more of it` : ''}: ${opened}`);
  }
  if (shown.length < parts.length) print(`  and ${parts.length - shown.length} more (--all)`);
}

/** @param {Run} run @param {Folder} folder @returns {Promise<number>} the status: 1 where modules load in a circle */
export async function cycles(run, folder) {
  const { links, cycles: all, deferred } = await findCycles(folder);
  const found = run.report.found.rest(all, cycleFinding);
  if (run.options.json) {
    run.report.json({ cycles: found, deferred });
    return run.report.found.status;
  }
  printParts(run, 'import cycles', found);
  printParts(run, 'cycles through type-only imports or import(), which don\'t exist when modules load', deferred);
  const told = found.length === 0 ? 'no import cycle' : counted(found.length, 'import cycle');
  run.report.conclude(`${counted(folder.sources.modules.size, 'module')}, ${counted(links, 'import')} between them: ${told}`);
  return run.report.found.status;
}
