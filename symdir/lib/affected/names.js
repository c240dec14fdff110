// The public names of a directory, each with the specifiers that it rests on: the modules of its paths, and of the `export *` by which it
// comes. All that its entry rests on, as symq's `inputs` tell it, is more: which names there are.
import { equalsMembers } from '../folder/equals.js';
import { isDefinition } from '../folder/folder.js';
import { endsOf, visitPaths } from '../folder/paths.js';
import { askInputs, keyOf } from '../inputs/inputs.js';

/** @typedef {import('../folder/folder.js').Folder} Folder */
/** @typedef {any} Entry of a path, as symq gives it */

/**
 * @typedef {object} Name
 * @property {string} entry the specifier
 * @property {string} name
 * @property {Set<string>} rests the specifiers of the modules on its paths: what their texts say of it
 * @property {Set<string>} whole those that it rests on besides, as one that stands for a module as a whole
 * @property {string} answer equal where its paths are the same
 */

/** @param {Entry[]} entries of paths @returns {string[]} the modules on them */
function modulesOn(entries) {
  /** @type {string[]} */
  const found = [];
  visitPaths(entries, null, (it) => {
    found.push(it.module);
    return null;
  });
  return found;
}

/** @param {Folder} folder @param {unknown[][]} queries @returns {Promise<Set<string>[]>} the specifiers that each answer rests on; of one where they aren't known, all */
export async function inputsOf(folder, queries) {
  const found = await askInputs(folder, new Map(queries.map((it) => [keyOf(it), it])));
  const all = () => [...folder.sources.modules.keys(), ...folder.sources.external];
  const sets = new Map([...found].map(([key, inputs]) => [key, new Set(inputs?.map((it) => it.specifier) ?? all())]));
  return queries.map((it) => /** @type {Set<string>} */ (sets.get(keyOf(it))));
}

/** @param {Entry[]} entries of paths @returns {unknown[][]} questions whose inputs the ends rest on besides their modules: a module as a whole, and one where a name isn't found */
function behind(entries) {
  return endsOf(entries).flatMap((it) => {
    if (!isDefinition(it)) return it.kind === 'part' ? [['exports', it.module]] : [];
    return it.symbol === 0 ? [['paths', it.module, 0]] : [];
  });
}

/** @param {Folder} folder @param {string} entry @returns {Promise<Name[]>} what stands behind its `export =` */
async function behindEquals(folder, entry) {
  const members = await equalsMembers(folder, entry);
  const [rests] = members.length > 0 ? await inputsOf(folder, [['paths', entry, 0]]) : [new Set()];
  return members.map(({ name, leaves }) => ({ entry, name, rests: new Set([entry, ...leaves.map((it) => it.module)]), whole: rests, answer: JSON.stringify(leaves) }));
}

/** @param {Folder} folder @returns {Promise<Name[]>} the public names, each once for an entry */
export async function restingNames(folder) {
  const { entries } = folder;
  const all = await folder.exports(entries);
  const rows = all.flatMap((it, i) => it.exports.map((row) => ({ entry: entries[i], row })));
  const paths = await folder.paths(rows.map(({ row }) => [row.module, row.symbol]));
  const questions = paths.map(behind);
  const sets = await inputsOf(folder, questions.flat());
  let at = 0;
  const exported = rows.map(({ entry, row }, i) => {
    const whole = new Set(sets.slice(at, (at += questions[i].length)).flatMap((it) => [...it]));
    const rests = new Set([entry, ...row.chain.map(([module]) => module), row.module, ...modulesOn(paths[i])]);
    return { entry, name: row.name, rests, whole, answer: JSON.stringify([row.chain, row.module, row.symbol, paths[i]]) };
  });
  const behindAll = await Promise.all(entries.map((it) => behindEquals(folder, it)));
  const own = new Set(exported.map((it) => `${it.entry} ${it.name}`));
  return [...exported, ...behindAll.flat().filter((it) => !own.has(`${it.entry} ${it.name}`))];
}
