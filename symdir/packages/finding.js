// What symdir, TypeScript and Rollup find in a directory, as lists that compare.js holds against each other. Each is found by a process of
// its own, so that its time can be measured: node finding.js WHO DIRECTORY PACKAGE [JSON of what symdir found]
import { readFileSync } from 'node:fs';
import { createRequire } from 'node:module';
import path from 'node:path';

import { openFolder } from '../lib/library/index.js';
import { leaksBy } from '../tests/leaking.js';
import { lackingBy } from '../tests/definitions.js';
import { circlesBy, edgesBy, isInComment, referencesTo, unusedBy } from '../tests/wanted.js';
import { COMPARED, ROLLUP } from './compared.js';
import { languageOf } from './taken.js';

/** @typedef {import('./compared.js').Compared} Compared */
/** @typedef {{ names: string[], missing: string[], leaks: string[], files: string[], exports: string[], uses: string[], cycles: string[][] }} Lists of what is found, sorted */
/** @typedef {Lists & { entries: string[], spots: string[] }} Mine with the entries, and the definitions whose uses are looked up */
/** @typedef {Lists & { comments: string[], locals: number }} Theirs with the names that comments declare, and how many locals are unused */

/** How many definitions of public names are looked up for their uses. */
const SPOTS = 10;
/** What the compiler says of unused locals and imports, by several of its texts. */
const UNUSED_LOCAL = new Set([6133, 6192, 6196, 6198, 6199]);

/** @param {string[]} list @returns {string[]} */
const sorted = (list) => [...new Set(list)].sort();
/** @param {{ file: string, line: number, column: number }} it @returns {string} */
const placeOf = ({ file, line, column }) => `${file}:${line}:${column}`;

/** @param {string} spot @returns {{ file: string, line: number, column: number }} */
function spotOf(spot) {
  const [, file, line, column] = /** @type {RegExpExecArray} */ (/^(.*):(\d+):(\d+)$/.exec(spot));
  return { file, line: Number(line), column: Number(column) };
}

/** @param {string} directory @param {{ kind: string, file: string, line: number, column: number }} it a definition @returns {string} where its name stands; of a value without a name `default` */
function namePlaceOf(directory, it) {
  if (it.kind !== 'default') return placeOf(it);
  const line = readFileSync(path.join(directory, it.file), 'utf8').split('\n')[it.line - 1];
  return placeOf({ ...it, column: line.indexOf('default', it.column - 1) + 1 });
}

/** @param {string} directory @returns {Promise<Mine>} */
async function bySymdir(directory) {
  const folder = await openFolder(directory, { cache: false });
  const [names, missing, leaks, unused, { cycles }] = await Promise.all([folder.names(), folder.missing(), folder.leaks(), folder.unused(), folder.cycles()]);
  const all = sorted(names.flatMap((it) => it.defined.filter((one) => !one.by).map((one) => namePlaceOf(directory, one))));
  const spots = all.filter((_, i) => i % Math.ceil(all.length / SPOTS) === 0);
  const uses = [];
  for (const spot of spots) {
    for (const it of await folder.uses(spotOf(spot))) uses.push(...it.uses.filter(({ how }) => how !== 'export *').map((one) => `${spot} ${placeOf(one)}`));
  }
  await folder.close();
  return {
    entries: folder.entries, spots,
    names: sorted(names.map((it) => `${it.entry} ${it.name}`)),
    missing: sorted(missing.map((it) => `${it.file}:${it.line} ${it.text}`)),
    leaks: sorted(leaks.map(placeOf)), files: unused.files, exports: sorted(unused.exports.map((it) => `${it.file} ${it.name}`)),
    uses: sorted(uses), cycles: cycles.map((it) => it.modules),
  };
}

/** @param {string} directory @param {Compared} of @param {{ entries: string[], spots: string[] }} mine @returns {Theirs} what TypeScript's checker and its language service say */
function byTypeScript(directory, of, { entries, spots }) {
  const language = languageOf(directory, of, { checkJs: true, noUnusedLocals: true });
  const { modules, exports, syntax } = lackingBy(language);
  const { files, exports: unused } = unusedBy(language, entries, entries);
  const line = (/** @type {[string, string]} */ [place, text]) => `${place.replace(/:\d+$/, '')} ${text}`;
  const shown = language.sources().filter((it) => entries.includes(language.short(it.fileName))).flatMap((it) => language.exports(it).map((one) => ({
    name: `${language.short(it.fileName)} ${one.name}`, isComment: isInComment(one) })));
  const uses = spots.flatMap((spot) => {
    const { file, line: row, column } = spotOf(spot);
    return referencesTo(language, path.join(directory, file), row, column).map(({ place }) => `${spot} ${place}`);
  });
  return {
    names: sorted(shown.map((it) => it.name)), comments: shown.filter((it) => it.isComment).map((it) => it.name),
    missing: sorted([...syntax, ...modules, ...exports].map(line)), leaks: sorted(leaksBy(language, entries)), files, exports: unused, uses: sorted(uses),
    cycles: circlesBy(edgesBy(language, true), null).map((it) => it.modules),
    locals: language.sources().flatMap((it) => language.service.getSemanticDiagnostics(it.fileName)).filter(({ code }) => UNUSED_LOCAL.has(code)).length,
  };
}

/** @param {string} directory @param {Compared} of @returns {Promise<{ cycles: string[][], missing: string[] }>} what Rollup warns of */
async function byRollup(directory, { rollup: entry = '' }) {
  const { rollup } = createRequire(import.meta.url)(ROLLUP);
  /** @type {any[]} */
  const said = [];
  const bundle = await rollup({ input: path.join(directory, entry), external: (/** @type {string} */ it) => !/^[./]/.test(it), onwarn: (/** @type {any} */ it) => said.push(it) });
  await bundle.generate({ format: 'es' });
  const short = (/** @type {string} */ it) => path.relative(directory, it);
  return {
    cycles: said.filter((it) => it.code === 'CIRCULAR_DEPENDENCY').map((it) => sorted(it.ids.map(short))),
    missing: sorted(said.filter((it) => ['MISSING_EXPORT', 'UNRESOLVED_IMPORT'].includes(it.code)).map((it) => `${short(it.id ?? it.loc?.file ?? '')}:${it.loc?.line} ${it.binding ?? it.source ?? ''}`)),
  };
}

/** @param {string[]} words @returns {Promise<unknown>} what is found */
async function found([who, directory, name, mine]) {
  if (who === 'symdir') return bySymdir(directory);
  const of = /** @type {Compared} */ (COMPARED.find((it) => it.name === name));
  return who === 'rollup' ? byRollup(directory, of) : byTypeScript(directory, of, JSON.parse(mine));
}

process.stdout.write(JSON.stringify(await found(process.argv.slice(2))));
