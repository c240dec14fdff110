// A baseline: findings that are accepted, in a file to keep beside the code. It has no line numbers, so that edits elsewhere don't change it.
import { existsSync, readFileSync } from 'node:fs';

import { Failure, fileFailure } from '../failure.js';
import { replaceFile } from '../write.js';
import { belongsTo, keyOf } from './found.js';
import { RULES } from './rules.js';

/** @typedef {{ rule: string, file: string, name: string, count: number }} Row as many findings as its count */

const ABOUT = 'accepted findings of symdir; `symdir COMMAND DIR --baseline FILE --save-baseline` writes those of a command';

/** @param {any} row @returns {string | null} what is wrong with it */
function faultOf(row) {
  if (row === null || typeof row !== 'object') return 'expected an object';
  const text = ['rule', 'file', 'name'].find((it) => typeof row[it] !== 'string');
  if (text) return `${text}: expected a string`;
  if (!Object.hasOwn(RULES, row.rule)) return `unknown rule ${row.rule}`;
  return row.count === undefined || (Number.isInteger(row.count) && row.count > 0) ? null : 'count: expected a positive integer';
}

/** @param {string} text @param {string} file @returns {Row[]} */
function parsed(text, file) {
  let value;
  try {
    value = JSON.parse(text);
  } catch (error) {
    throw new Failure(`${file}: not a baseline: ${/** @type {Error} */ (error).message}`);
  }
  if (!Array.isArray(value?.findings)) throw new Failure(`${file}: not a baseline: findings: expected a list`);
  value.findings.forEach((/** @type {any} */ row, /** @type {number} */ i) => {
    const fault = faultOf(row);
    if (fault) throw new Failure(`${file}: not a baseline: findings[${i}]: ${fault}`);
  });
  return value.findings.map((/** @type {any} */ { rule, file: of, name, count = 1 }) => ({ rule, file: of, name, count }));
}

/** @param {string} file @returns {Row[]} */
export function readBaseline(file) {
  if (!existsSync(file)) throw new Failure(`no such file: ${file}; \`--baseline ${file} --save-baseline\` writes it`);
  try {
    return parsed(readFileSync(file, 'utf8').replace(/^\ufeff/, ''), file);
  } catch (error) {
    throw error instanceof Failure ? error : fileFailure(file, 'read', error);
  }
}

/** @param {import('./rules.js').Finding[]} findings @returns {Row[]} each once, with its count */
function rowsOf(findings) {
  /** @type {Map<string, Row>} */
  const rows = new Map();
  for (const { rule, file, name } of findings) {
    const row = rows.get(keyOf({ rule, file, name }));
    if (row) row.count++;
    else rows.set(keyOf({ rule, file, name }), { rule, file, name, count: 1 });
  }
  return [...rows.values()];
}

/**
 * Writes the findings of a command in place of those that the file has of it.
 * @param {string} file
 * @param {string} command
 * @param {import('./rules.js').Finding[]} findings
 */
export function saveBaseline(file, command, findings) {
  const others = existsSync(file) ? readBaseline(file).filter(({ rule }) => !belongsTo(rule, command)) : [];
  const rows = [...others, ...rowsOf(findings)].sort((a, b) => (keyOf(a) < keyOf(b) ? -1 : 1));
  const lines = rows.map(({ count, ...it }) => `  ${JSON.stringify({ ...it, ...(count > 1 && { count }) })}`);
  const list = lines.length > 0 ? `[\n${lines.join(',\n')}\n ]` : '[]';
  replaceFile(file, [Buffer.from(`{\n ${JSON.stringify('about')}: ${JSON.stringify(ABOUT)},\n "findings": ${list}\n}\n`)]);
}
