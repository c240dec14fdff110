// Findings as a log of SARIF 2.1.0.
import { createHash } from 'node:crypto';
import { readFileSync } from 'node:fs';

import { keyOf } from './found.js';
import { uriOf } from './places.js';
import { RULES } from './rules.js';

/** @typedef {import('./rules.js').Finding} Finding */

const SCHEMA = 'https://docs.oasis-open.org/sarif/sarif/v2.1.0/errata01/os/schemas/sarif-schema-2.1.0.json';

/** @returns {{ name: string, version: string }} of this package */
function self() {
  return JSON.parse(readFileSync(new URL('../../package.json', import.meta.url), 'utf8'));
}

/** @param {string[]} ids @returns {object[]} */
function rulesOf(ids) {
  return ids.map((id) => ({ id, shortDescription: { text: RULES[id].text }, defaultConfiguration: { level: RULES[id].level } }));
}

/** @param {Finding[]} findings @returns {string[]} for each what stays the same when lines move; of several alike each has another */
function fingerprints(findings) {
  /** @type {Map<string, number>} */
  const met = new Map();
  return findings.map((it) => {
    const key = keyOf(it);
    const count = met.get(key) ?? 0;
    met.set(key, count + 1);
    return createHash('sha256').update(`${key} ${count}`).digest('hex');
  });
}

/**
 * @param {string} folder absolute
 * @param {Finding[]} findings
 * @param {number} status with which the run ends
 * @param {string[]} notes on the run
 * @returns {string}
 */
export function sarif(folder, findings, status, notes) {
  const { name, version } = self();
  const ids = [...new Set(findings.map((it) => it.rule))].sort();
  const prints = fingerprints(findings);
  const results = findings.map(({ rule, file, line, column, message }, i) => ({
    ruleId: rule, ruleIndex: ids.indexOf(rule), level: RULES[rule].level, message: { text: message },
    locations: [{ physicalLocation: { artifactLocation: { uri: uriOf(folder, file) }, region: { startLine: line, startColumn: column } } }],
    partialFingerprints: { 'symdir/v1': prints[i] },
  }));
  const log = {
    $schema: SCHEMA, version: '2.1.0',
    runs: [{
      tool: { driver: { name, version, rules: rulesOf(ids) } },
      columnKind: 'utf16CodeUnits',
      invocations: [{
        executionSuccessful: true, exitCode: status,
        toolExecutionNotifications: notes.length > 0 ? [{ level: 'note', message: { text: notes.join('\n') } }] : [],
      }],
      results,
    }],
  };
  return `${JSON.stringify(log, null, 1)}\n`;
}
