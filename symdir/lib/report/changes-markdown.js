// Changes of the public API as Markdown for a comment on a pull request.
import { baselineMarkdown } from './findings-markdown.js';
import { code, document, prose, table } from './markdown.js';

/** @typedef {import('../surface/compare.js').Change} Change */

/** @param {Change} change @returns {string} in Markdown */
function cell({ what, from, to }) {
  if (what === 'removed' || what === 'added') return `${what}: ${code(from ?? to ?? '')}`;
  return `${what}: ${from === '' ? 'inferred' : code(from ?? '')} → ${to === '' ? 'inferred' : code(to ?? '')}`;
}

/**
 * @param {Change[]} changes
 * @param {string} summary
 * @param {boolean} isWhole whether no change is left out
 * @param {string[]} baseline lines about it
 * @returns {string}
 */
export function changesMarkdown(changes, summary, isWhole, baseline) {
  const order = ['major', 'minor', 'patch'];
  const sorted = [...changes].sort((a, b) => order.indexOf(a.advice) - order.indexOf(b.advice));
  const entries = new Set(changes.map((it) => it.entry));
  const rows = sorted.map((it) => [it.advice, code(entries.size > 1 ? `${it.entry}: ${it.name}` : it.name), cell(it), prose(it.reason)]);
  return document([[`**${prose(summary)}**`], rows.length > 0 ? table(['version', 'name', 'change', 'reason'], rows, isWhole) : [], baselineMarkdown(baseline)]);
}
