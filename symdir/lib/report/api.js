// The public API as Markdown.
import { byName, counted } from '../output.js';
import { firstSentence } from '../surface/docs.js';
import { withName } from './described.js';
import { baselineMarkdown } from './findings-markdown.js';
import { code, document, placeCode, prose, table } from './markdown.js';

/** @typedef {import('../cli.js').Run} Run */
/** @typedef {import('./described.js').Described} Described */
/** @typedef {Omit<import('../commands/api.js').Answer, 'names'> & { entries: string[], names: Described[] }} Answer */
/** @typedef {import('./rules.js').Finding} Finding */

/** Markdown for all tables together, in characters. */
const ROOM = 56_000;

/** @param {Described} it @returns {string[]} cells */
function cells(it) {
  const [first] = it.defined;
  const end = it.unresolved[0];
  const where = first ? placeCode(first) : prose(end ? `${end.what}: ${end.name}` : '');
  return [code(withName(it.name, it.signature)), prose(it.kind), where, prose(firstSentence(it.doc))];
}

/** @param {Answer} answer @param {boolean} isWhole @returns {string[][]} blocks, those of an entry each */
function entryBlocks({ entries, names }, isWhole) {
  let room = ROOM;
  return entries.flatMap((entry) => {
    const mine = names.filter((it) => it.entry === entry).sort(byName);
    const head = [`### ${code(entry)}: ${counted(mine.length, 'public name')}`];
    const lines = mine.length > 0 ? table(['name', 'kind', 'defined in', 'description'], mine.map(cells), isWhole, room) : [];
    room = Math.max(0, room - lines.join('\n').length);
    return [head, lines];
  });
}

/** @param {Answer} answer @param {Finding[]} findings @param {boolean} isWhole @param {string[]} baseline @returns {string} */
function markdown(answer, findings, isWhole, baseline) {
  const list = findings.map((it) => `- ${placeCode(it)}: ${prose(it.message)}`);
  return document([...entryBlocks(answer, isWhole), list.length > 0 ? [`**${counted(list.length, 'finding')}**`, '', ...list] : [], baselineMarkdown(baseline)]);
}

/** @param {Run} run @param {Answer} answer @returns {string} */
export function apiMarkdown({ report, options }, answer) {
  return markdown(answer, report.found.all, options.all ?? false, report.baselineLines());
}
