// The findings of a run, without those that a baseline accepts.

/** @typedef {import('./rules.js').Finding} Finding */
/** @typedef {import('./baseline.js').Row} Row */

/** @param {{ rule: string, file: string, name: string }} it @returns {string} */
export function keyOf({ rule, file, name }) {
  return JSON.stringify([rule, file, name]);
}

export class Found {
  /** @param {Row[]} [rows] accepted findings */
  constructor(rows = []) {
    /** @type {Finding[]} */
    this.all = [];
    /** @type {Map<string, Row>} with the number of each that isn't met yet */
    this.open = new Map(rows.map((it) => [keyOf(it), { ...it }]));
    this.accepted = 0;
  }

  /** @param {Finding} finding @returns {boolean} whether it isn't accepted */
  add(finding) {
    const row = this.open.get(keyOf(finding));
    if (row && row.count > 0) {
      row.count--;
      this.accepted++;
      return false;
    }
    this.all.push(finding);
    return true;
  }

  /**
   * Adds the findings of a list.
   * @template T
   * @param {T[]} items
   * @param {(it: T) => Finding} findingOf
   * @returns {T[]} those that aren't accepted
   */
  rest(items, findingOf) {
    return items.filter((it) => this.add(findingOf(it)));
  }

  /** @param {string} command @returns {Row[]} accepted findings of the command that no longer occur */
  gone(command) {
    return [...this.open.values()].filter(({ rule, count }) => count > 0 && belongsTo(rule, command));
  }

  /** @returns {number} */
  get status() {
    return this.all.length > 0 ? 1 : 0;
  }
}

/** @param {string} rule @param {string} command @returns {boolean} whether a run of the command reports it: faults of files are no changes */
export function belongsTo(rule, command) {
  const [of] = rule.split('/');
  return of === command || (of === 'files' && command !== 'diff');
}
