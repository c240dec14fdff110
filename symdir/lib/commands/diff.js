// `symdir diff`: what changed between two public surfaces, and which version that asks for.
import { spawnSync } from 'node:child_process';
import { readFileSync } from 'node:fs';
import path from 'node:path';

import { Failure, fileFailure } from '../failure.js';
import { begin } from '../folder/begin.js';
import { isFile, isFolder, withSlashes } from '../folder/files.js';
import { Folder } from '../folder/folder.js';
import { Temporary } from '../folder/temporary.js';
import { columns, counted } from '../output.js';
import { changeFinding } from '../report/findings.js';
import { adviceOf, compared } from '../surface/compare.js';
import { keptSurface } from '../surface/kept.js';
import { readSurface, withoutMembers } from '../surface/text.js';

/** @typedef {import('../cli.js').Run} Run */
/** @typedef {import('../surface/surface.js').Item} Item */
/** @typedef {import('../surface/compare.js').Change} Change */
/** @typedef {import('../folder/begin.js').Reading} Reading */
/** @typedef {{ items: Item[], isWhole: boolean }} Surface whether members and signatures are known */
/** @typedef {{ read: (folder: string) => Reading, asked: import('../folder/begin.js').Asked, trees?: import('../folder/begin.js').Trees }} How how a folder is read, and what answers */

/** The longest archive of a revision. */
const BYTES = 1 << 30;

/** @param {Run} run @param {Reading} reading @param {How} how @returns {Promise<Item[]>} */
async function surfaceIn(run, reading, { asked, trees }) {
  const begun = await begin(reading, asked, trees);
  try {
    const folder = await Folder.read(begun, { entry: run.options.entry ?? [] });
    try {
      folder.sources.faults().forEach(run.warn);
      folder.open(asked);
      return await keptSurface(folder, run.report.format !== undefined);
    } finally {
      await folder.close();
    }
  } finally {
    await begun.last?.close();
  }
}

/** @param {string} folder @param {string[]} words of git @returns {{ status: number | null, stdout: Buffer, stderr: string }} */
function git(folder, ...words) {
  const { status, stdout, stderr, error } = spawnSync('git', ['-C', folder, ...words], { maxBuffer: BYTES });
  if (error) throw new Failure(`can't start git: ${error.message}`);
  return { status, stdout, stderr: `${stderr}`.trim() };
}

/** @param {string} word @returns {{ revision: string, below: string } | null} the revision and the folder in it; null where git knows none */
function revisionOf(word) {
  const [, revision, below] = /** @type {RegExpExecArray} */ (/^([^:]*)(?::(.*))?$/.exec(word));
  const here = process.cwd();
  if (revision === '' || revision.startsWith('-') || git(here, 'rev-parse', '--verify', '--quiet', `${revision}^{commit}`).status !== 0) return null;
  const prefix = git(here, 'rev-parse', '--show-prefix').stdout.toString().trim();
  return { revision, below: (below ?? prefix).replace(/^\.\/|\/$/g, '') };
}

/** @param {{ revision: string, below: string }} it @param {string} to an empty folder, which is given the files of the revision */
function unpacked({ revision, below }, to) {
  const top = git(process.cwd(), 'rev-parse', '--show-toplevel').stdout.toString().trim();
  const packed = git(top, 'archive', '--format=tar', revision, ...(below === '' ? [] : ['--', below]));
  if (packed.status !== 0) throw new Failure(`git archive ${revision}: ${packed.stderr.split('\n').pop()}`);
  const { status, stderr, error } = spawnSync('tar', ['-x', '-f', '-', '-C', to], { input: packed.stdout });
  if (error || status !== 0) throw new Failure(`tar can't unpack ${revision}: ${error?.message ?? `${stderr}`.trim().split('\n').pop()}`);
}

/** @param {Run} run @param {string} word a folder, a snapshot or a revision @param {How} how @returns {Promise<Surface>} */
export async function surfaceFor(run, word, how) {
  if (isFolder(word)) return { items: await surfaceIn(run, how.read(word), how), isWhole: true };
  if (isFile(word)) return snapshotAt(word);
  const revision = revisionOf(word);
  if (!revision) throw new Failure(`no such directory, snapshot or git revision: ${word}`, 2);
  const temporary = new Temporary();
  try {
    unpacked(revision, temporary.path);
    const folder = withSlashes(path.join(temporary.path, revision.below));
    if (!isFolder(folder)) throw new Failure(`no directory ${revision.below} in revision ${revision.revision}`, 2);
    return { items: await surfaceIn(run, { ...how.read(folder), cache: false }, how), isWhole: true };
  } finally {
    temporary.close();
  }
}

/** @param {string} file @returns {Surface} */
function snapshotAt(file) {
  try {
    return readSurface(readFileSync(file, 'utf8'), file);
  } catch (error) {
    throw error instanceof Failure ? error : fileFailure(file, 'read', error);
  }
}

/** @param {Item[]} items @returns {string[]} */
function entriesOf(items) {
  return [...new Set(items.map((it) => it.entry))];
}

/** @param {Item[]} before @param {Item[]} now @returns {Item[]} those before, with the new name of an entry where one alone has another */
function withEntries(before, now) {
  const [old, fresh] = [entriesOf(before), entriesOf(now)];
  const gone = old.filter((it) => !fresh.includes(it));
  const came = fresh.filter((it) => !old.includes(it));
  if (gone.length !== 1 || came.length !== 1) return before;
  return before.map((it) => (it.entry === gone[0] ? { ...it, entry: came[0] } : it));
}

/** @param {Surface} before @param {Surface} now @returns {Promise<Change[]>} of names alone where one side has no members */
export async function changesBetween(before, now) {
  const old = withEntries(before.items, now.items);
  if (before.isWhole && now.isWhole) return compared(old, now.items);
  return compared(withoutMembers(old), withoutMembers(now.items));
}

const SIGNS = { removed: '-', added: '+' };

/** @param {Change} it @returns {string} */
function changeText({ what, from, to }) {
  if (what === 'removed' || what === 'added') return `${from ?? to}`;
  return `${what}: ${from === '' ? 'inferred' : from}  ->  ${to === '' ? 'inferred' : to}`;
}

/** @param {Run} run @param {Change[]} changes @returns {string} how many there are of each sort */
export function printChanges({ print, paint }, changes) {
  const colors = { major: paint.red, minor: paint.green, patch: paint.dim };
  const rows = changes.map((it) => [it.advice, /** @type {Record<string, string>} */ (SIGNS)[it.what] ?? '~', `${it.entry}: ${it.name}`, changeText(it)]);
  columns(rows).forEach((line, i) => {
    print(colors[changes[i].advice].call(paint, line));
    print(paint.dim(`         ${changes[i].reason}`));
  });
  const [removed, added] = [changes.filter((it) => it.what === 'removed').length, changes.filter((it) => it.what === 'added').length];
  return `${removed} removed, ${added} added, ${changes.length - removed - added} changed`;
}

/**
 * Reports changes: as JSON, as text, or in another format.
 * @param {Run} run
 * @param {Change[]} all
 * @param {Item[]} items of the newer surface
 * @param {{ same: string, hint?: string }} texts where nothing changed, and behind what did
 * @returns {Promise<number>} the status
 */
export async function reportChanges(run, all, items, { same, hint = '' }) {
  const { report, options } = run;
  const changes = report.found.rest(all, changeFinding(items));
  const advice = adviceOf(changes);
  if (options.json) report.json({ advice, changes });
  else report.conclude(advice === null ? same : `${advice}: ${printChanges(run, changes)}${hint}`);
  if (report.format === 'markdown') {
    const { changesMarkdown } = await import('../report/changes-markdown.js');
    report.body = changesMarkdown(changes, advice === null ? same : report.summary, options.all ?? false, report.baselineLines());
  }
  return report.found.status;
}

/** @param {Run} run @param {How} how @returns {Promise<number>} the status: 1 where something changed */
export async function diff(run, how) {
  const [old, fresh, ...more] = run.words;
  if (fresh === undefined || more.length > 0) throw new Failure('diff takes OLD and NEW: directories, snapshots or git revisions, as in `symdir diff v1.0.0 .`', 2);
  const both = { ...how, trees: new Map() };
  const before = await surfaceFor(run, old, both);
  const now = await surfaceFor(run, fresh, both);
  const same = `the ${counted(withoutMembers(now.items).length, 'public name')} and their members are the same`;
  return reportChanges(run, await changesBetween(before, now), now.items, { same });
}
