// What a module exports by `export =`: the members of what stands behind it, as TypeScript lists them.
import { isDefinition } from './folder.js';
import { Names } from './names.js';
import { endsOf } from './paths.js';

/** @typedef {import('./folder.js').Folder} Folder */
/** @typedef {import('./folder.js').Definition} Definition */
/** @typedef {import('./folder.js').Unresolved} Unresolved */
/** @typedef {{ name: string, leaves: (Definition | Unresolved)[] }} Member */

/** @param {string} name in full @param {string} above @returns {string | null} the last part, where the rest is that; null of what has none, as a constructor */
function lastPart(name, above) {
  const part = name.startsWith(`${above}.`) ? name.slice(above.length + 1) : '';
  return part === '' || /[.[\]]|^%%/.test(part) ? null : part;
}

/** @param {Folder} folder @param {string} module @returns {Promise<Member[]>} what the whole module exports */
async function namesOf(folder, module) {
  const [{ exports }] = await folder.exports([module]);
  const leaves = await folder.leaves(exports.map((it) => [it.module, it.symbol]));
  return exports.map(({ name }, i) => ({ name, leaves: leaves[i] }));
}

/** @param {Folder} folder @param {string} module @param {number[]} symbols of one name @returns {Promise<Definition[]>} where they are declared and exported: blocks of one namespace have a symbol each */
async function declared(folder, module, symbols) {
  const leaves = await folder.leaves(symbols.map((it) => [module, it]));
  return leaves.flat().filter(isDefinition).filter((it) => folder.declaration(it)?.isExported);
}

/** @param {(Definition | Unresolved)[]} leaves @returns {(Definition | Unresolved)[]} each definition once */
function once(leaves) {
  const met = new Set();
  return leaves.filter((it) => {
    const key = isDefinition(it) ? `${it.module} ${it.start} ${it.end} ${it.symbol}` : it;
    return !met.has(key) && met.add(key);
  });
}

/** @param {Folder} folder @param {Names} names @param {Definition} definition @returns {Promise<Member[]>} what a namespace, a class or a function exports */
async function membersOf(folder, names, { module, symbol }) {
  if (symbol === 0) return namesOf(folder, module);
  await names.read([module]);
  const above = names.of(module)[symbol];
  if (!above) return [];
  /** @type {Map<string, number[]>} */
  const symbols = new Map();
  for (const it of names.members(module, symbol)) {
    const name = lastPart(names.of(module)[it] ?? '', above);
    if (name !== null) symbols.set(name, [...(symbols.get(name) ?? []), it]);
  }
  const blocks = (folder.sources.modules.get(module)?.parsed.blocks ?? []).filter((it) => it.name === above);
  const hidden = new Set(blocks.flatMap((it) => it.hidden));
  const [first, ...parts] = above.split('.');
  const found = [...new Set([...[...symbols.keys()].filter((it) => !hidden.has(it)), ...blocks.flatMap((it) => it.exported)])];
  const paths = await folder.resolve(found.map((it) => [module, ['qualified', first, 1, [...parts, it]]]));
  const again = await Promise.all(found.map((it) => declared(folder, module, symbols.get(it) ?? [])));
  return found.map((name, i) => ({ name, leaves: once([...endsOf(paths[i]), ...again[i]]) })).filter((_, i) => endsOf(paths[i]).some(isDefinition));
}

/** @param {Folder} folder @param {string} specifier @returns {Promise<Member[]>} each name once; none where the module has no `export =`, or no name behind it */
export async function equalsMembers(folder, specifier) {
  const [name, ...parts] = folder.sources.modules.get(specifier)?.parsed.equals ?? [];
  if (name === undefined) return [];
  const reference = parts.length > 0 ? ['qualified', name, 1, parts] : ['id', name, 1];
  const [entries] = await folder.resolve([[specifier, reference]]);
  const names = new Names(folder);
  /** @type {Map<string, Member>} */
  const found = new Map();
  const met = new Set();
  for (const it of endsOf(entries).filter(isDefinition)) {
    const key = `${it.symbol} ${it.module}`;
    if (met.has(key)) continue;
    met.add(key);
    for (const member of await membersOf(folder, names, it)) if (!found.has(member.name)) found.set(member.name, member);
  }
  return [...found.values()];
}
