// Writes symdir/COMPARED.md: what symdir finds in ten packages of Debian beside TypeScript and Rollup.
//
//     node symdir/packages/compare.js            compares all packages and writes the page
//     node symdir/packages/compare.js --check    compares them with the page, all but times and versions; status 1 if it differs
//     node symdir/packages/compare.js NAME..     compares these, and prints what the page says of each
//
// --rows FILE stores each row when it is found, and takes those that are there: so a run that was ended is resumed. With --unproved an
// unverified build of symq answers, and the page says so. A difference that no reason explains is printed, and the status is 1. Times are
// those of all processors, by the shell's `times`.
import { spawnSync } from 'node:child_process';
import { appendFileSync, existsSync, mkdtempSync, readFileSync, realpathSync, rmSync, writeFileSync } from 'node:fs';
import os from 'node:os';
import path from 'node:path';
import { fileURLToPath } from 'node:url';

import { unprovedSymq } from '../lib/program.js';
import { ts } from '../tests/language.js';
import { COMPARED, ROLLUP } from './compared.js';
import { putInPlace, takeInto } from './taken.js';

/** @typedef {import('./compared.js').Compared} Compared */
/** @typedef {import('./finding.js').Lists} Lists */
/** @typedef {import('./finding.js').Mine} Mine */
/** @typedef {import('./finding.js').Theirs} Theirs */

const HERE = fileURLToPath(import.meta.url);
const FINDING = path.join(path.dirname(HERE), 'finding.js');
export const PAGE = path.join(path.dirname(HERE), '..', 'COMPARED.md');
/** After which a process that finds is ended. */
const SECONDS = 900;
/** What is compared, in the order of the page. */
const LISTS = /** @type {const} */ (['names', 'missing', 'leaks', 'files', 'exports', 'uses', 'cycles']);

/** @param {string} who @param {string[]} words @returns {{ found: any, seconds: number }} by a process of its own */
function measured(who, words) {
  const { status, stdout, stderr, error } = spawnSync('sh', ['-c', '"$@"; status=$?; times >&2; exit $status', 'sh', process.execPath, FINDING, who, ...words], {
    encoding: 'utf8', maxBuffer: 1 << 28, timeout: SECONDS * 1000 });
  if (error || status !== 0) throw new Error(`${who} ${words[0]}: ${error?.message ?? stderr}`);
  const [user, system] = /** @type {string} */ (stderr.trim().split('\n').pop()).split(' ').map((it) => {
    const [minutes, seconds] = it.replace('s', '').split('m').map(Number);
    return minutes * 60 + seconds;
  });
  return { found: JSON.parse(stdout), seconds: user + system };
}

/** @typedef {{ list: typeof LISTS[number], who: 'symdir' | 'TypeScript' | 'Rollup', what: string }} Difference what one alone finds */
/** @typedef {{ directory: string, comments: string[] }} About a package */

/** @type {{ text: string, holds: (it: Difference, about: About) => boolean }[]} in the order of the page */
const REASONS = [
  { text: 'TypeScript looks for packages in `node_modules` alone, and none is installed next to the sources. For symdir what package.json names is external.',
    holds: ({ list, who, what }) => list === 'missing' && who === 'TypeScript' && !/ [./]/.test(what) },
  { text: 'TypeScript takes a `@typedef` in a comment of JavaScript for an export. By Deno\'s rules comments declare nothing.',
    holds: ({ list, who, what }, { comments }) => list === 'names' && who === 'TypeScript' && comments.includes(what) },
  { text: 'symdir lists `default` of a module with `export =`, as Deno does. TypeScript has it under `esModuleInterop`.',
    holds: ({ list, who, what }, { directory }) => list === 'names' && who === 'symdir' && isEquals(directory, what) },
  { text: 'What `scripts` of package.json run is reached for symdir. TypeScript begins at the entries alone.',
    holds: ({ list, who, what }, { directory }) => list === 'files' && who === 'TypeScript' && isRun(directory, what) },
  { text: 'Rollup warns of each cycle that it meets on its way from the entry. symdir lists groups of modules; each cycle of Rollup\'s is in one.',
    holds: ({ list, who }) => list === 'cycles' && who === 'Rollup' },
];

/** @param {string} directory @param {string} what an entry and a name @returns {boolean} whether it is the default of a module with `export =` */
function isEquals(directory, what) {
  const [entry, name] = what.split(' ');
  return name === 'default' && /^\s*export\s*=/m.test(readFileSync(path.join(directory, entry), 'utf8'));
}

/** @param {string} directory @param {string} file @returns {boolean} whether a script of package.json names it */
function isRun(directory, file) {
  const { scripts = {} } = JSON.parse(readFileSync(path.join(directory, 'package.json'), 'utf8'));
  return Object.values(scripts).some((it) => String(it).split(/\s+/).some((word) => path.normalize(word) === file));
}

/** @param {Lists} mine @param {Lists} theirs @returns {Difference[]} */
function differences(mine, theirs) {
  return LISTS.flatMap((list) => {
    const [a, b] = [mine, theirs].map((it) => it[list].map(String));
    return [...a.filter((it) => !b.includes(it)).map((what) => ({ list, who: /** @type {const} */ ('symdir'), what })),
      ...b.filter((it) => !a.includes(it)).map((what) => ({ list, who: /** @type {const} */ ('TypeScript'), what }))];
  });
}

/** @param {Mine} mine @param {{ cycles: string[][], missing: string[] }} peer @returns {Difference[]} a cycle of Rollup's that is in no group, and a group that it doesn't meet, are symdir's alone */
function peerDifferences(mine, peer) {
  const isIn = (/** @type {string[]} */ cycle, /** @type {string[]} */ group) => cycle.every((it) => group.includes(it));
  const cycles = peer.cycles.map((cycle) => ({
    list: /** @type {const} */ ('cycles'), who: mine.cycles.some((it) => isIn(cycle, it)) ? /** @type {const} */ ('Rollup') : /** @type {const} */ ('symdir'), what: `Rollup: ${cycle}` }));
  const unmet = mine.cycles.filter((group) => !peer.cycles.some((it) => isIn(it, group))).map((it) => ({
    list: /** @type {const} */ ('cycles'), who: /** @type {const} */ ('symdir'), what: `not Rollup: ${it}` }));
  const missing = peer.missing.filter((it) => !mine.missing.includes(it)).map((what) => ({
    list: /** @type {const} */ ('missing'), who: /** @type {const} */ ('symdir'), what: `Rollup: ${what}` }));
  return [...cycles, ...unmet, ...missing];
}

/** @typedef {{ name: string, row: string[], open: Difference[] }} Row of the table, and what no reason explains */

/** @param {Compared} of @returns {Row} */
function compared(of) {
  const directory = realpathSync(mkdtempSync(path.join(os.tmpdir(), 'symdir-compared-')));
  try {
    takeInto(of, directory);
    return comparedIn(directory, of);
  } finally {
    rmSync(directory, { recursive: true });
  }
}

/** @param {string} directory @param {Compared} of @returns {Row} */
function comparedIn(directory, of) {
  const { found: mine, seconds: ours } = measured('symdir', [directory, of.name]);
  const { found: theirs, seconds } = measured('typescript', [directory, of.name, JSON.stringify({ entries: mine.entries, spots: mine.spots })]);
  const peer = of.rollup ? measured('rollup', [directory, of.name]) : null;
  const all = [...differences(mine, theirs), ...(peer ? peerDifferences(mine, peer.found) : [])];
  const numbers = all.map((it) => REASONS.findIndex((reason) => reason.holds(it, { directory, comments: theirs.comments })));
  const notes = (/** @type {string} */ list) => [...new Set(numbers.filter((it, i) => it >= 0 && all[i].list === list))].sort().map((it) => ` (${it + 1})`).join('');
  const cells = LISTS.map((list) => {
    const third = list === 'cycles' && peer ? `; ${peer.found.cycles.length}` : '';
    return `${mine[list].length}; ${theirs[list].length}${third}${notes(list)}`;
  });
  const times = [ours, seconds, ...(peer ? [peer.seconds] : [])].map((it) => it.toFixed(1)).join('; ');
  return { name: of.name, row: [path.relative('/usr/share/nodejs', of.place), ...cells, `${theirs.locals}`, times], open: all.filter((_, i) => numbers[i] < 0) };
}

const UNPROVED = ', by an unverified build of `symq`';
const BUSY = ', beside other work';

/** @param {string[][]} rows @param {{ isUnproved?: boolean, isBusy?: boolean }} how they were found @returns {string} the page */
export function pageOf(rows, { isUnproved = false, isBusy = false }) {
  const { version } = JSON.parse(readFileSync(path.join(path.dirname(ROLLUP), '..', 'package.json'), 'utf8'));
  const table = rows.map((it) => `| ${it.join(' | ')} |`).join('\n');
  return `# Compared on ${rows.length} packages

\`node symdir/packages/compare.js\` writes this page, and \`--check\` compares with it. Each package of Debian is taken without what is built of it. A cell has the
count of symdir and then that of TypeScript ${ts.version}. Exports that nothing uses, and the uses of ten public names, are those of its language service. Cycles are
those of what it emits, and all else is what its checker says. A third count is that of Rollup ${version}. Debian has no madge, knip, depcheck or dependency-cruiser.
Unused locals are found by \`tsc\` alone: symdir looks at what modules export. Seconds are those of all processors for the row, without caches${isUnproved ? UNPROVED : ''}${isBusy ? BUSY : ''}.

| package | public names | missing | leaks | unreachable files | unused exports | uses | cycles | unused locals | seconds |
|---|---|---|---|---|---|---|---|---|---|
${table}

All else is the same, item by item. Where a number stands in brackets, some items differ:
${REASONS.map((it, i) => `${i + 1}. ${it.text}`).join('\n')}
`;
}

/** @param {string} page @returns {string} without what differs from run to run: times, versions, whether symq is proved, and what else runs */
export function stable(page) {
  return page.replace(/^(\|.*\|) [\d.; ]+ \|$/gm, '$1').replace(/\d+\.\d+\.\d+/g, 'VERSION').replace(UNPROVED, '').replace(BUSY, '').replace(/\s+/g, ' ');
}

/** @param {Compared[]} packages @param {string | undefined} file of rows @returns {Row[]} */
function rowsOf(packages, file) {
  const lines = file !== undefined && existsSync(file) ? readFileSync(file, 'utf8').split('\n').filter((it) => it !== '') : [];
  const known = new Map(lines.map((it) => /** @type {Row} */ (JSON.parse(it))).map((it) => [it.name, it]));
  return packages.map((of) => {
    const found = known.get(of.name) ?? compared(of);
    if (file !== undefined && !known.has(of.name)) appendFileSync(file, `${JSON.stringify(found)}\n`);
    return found;
  });
}

/** @param {string[]} words @returns {Promise<number>} the status */
async function main(words) {
  const at = words.indexOf('--rows');
  const [, file] = at < 0 ? [] : words.splice(at, 2);
  const isUnproved = words.includes('--unproved');
  if (isUnproved) process.env.SYMQ = await unprovedSymq();
  const names = words.filter((it) => !it.startsWith('--'));
  putInPlace('rollup', path.dirname(ROLLUP));
  const rows = rowsOf(names.length > 0 ? COMPARED.filter((it) => names.includes(it.name)) : COMPARED, file);
  const open = rows.flatMap((it) => it.open.map((one) => ({ package: it.name, ...one })));
  for (const it of open) console.log(JSON.stringify(it));
  const page = pageOf(rows.map((it) => it.row), { isUnproved, isBusy: os.loadavg()[0] > os.availableParallelism() });
  if (words.includes('--check')) {
    const isSame = names.length === 0 && stable(readFileSync(PAGE, 'utf8')) === stable(page);
    if (!isSame) console.log(`${PAGE} differs from what is found:\n${page}`);
    return isSame && open.length === 0 ? 0 : 1;
  }
  if (names.length === 0 && open.length === 0) writeFileSync(PAGE, page);
  else for (const { row } of rows) console.log(row.join(' | '));
  return open.length > 0 ? 1 : 0;
}

if (process.argv[1] === HERE) process.exitCode = await main(process.argv.slice(2));
