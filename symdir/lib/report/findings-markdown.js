// Findings as Markdown for a comment on a pull request.
import { code, document, placeCode, prose, table } from './markdown.js';
import { RULES } from './rules.js';

/** @param {import('./rules.js').Finding[]} findings @returns {string[][]} rows of a table */
function rowsOf(findings) {
  return findings.map((it) => [`${RULES[it.rule].level} ${code(it.rule)}`, placeCode(it), prose(it.message)]);
}

/** @param {string[]} lines about the baseline @returns {string[]} */
export function baselineMarkdown([first, ...more]) {
  return first === undefined ? [] : [prose(first), ...(more.length > 0 ? ['', ...more.map((it) => `- ${code(it)}`)] : [])];
}

/**
 * @param {import('./rules.js').Finding[]} findings
 * @param {string} summary
 * @param {boolean} isWhole whether no finding is left out
 * @param {string[]} baseline lines about it
 * @returns {string}
 */
export function findingsMarkdown(findings, summary, isWhole, baseline) {
  const rows = rowsOf(findings);
  return document([[`**${prose(summary)}**`], rows.length > 0 ? table(['rule', 'place', 'finding'], rows, isWhole) : [], baselineMarkdown(baseline)]);
}
