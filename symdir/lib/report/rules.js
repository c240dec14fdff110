// What findings there are, for reports that other programs read.

/** @typedef {'error' | 'warning' | 'note'} Level */

/** @type {Record<string, { level: Level, text: string }>} */
export const RULES = {
  'files/syntax': { level: 'error', text: 'A file has a syntax error and isn\'t analyzed' },
  'files/unreadable': { level: 'error', text: 'A file or a directory can\'t be read' },
  'api/unresolved': { level: 'error', text: 'A public name, or an `export *` of an entry, is unresolved' },
  'api/ambiguous': { level: 'warning', text: 'A name is re-exported via `export *` from several modules' },
  'leaks/not-exported': { level: 'warning', text: 'The public API references a type that no entry exports' },
  'missing/file': { level: 'error', text: 'An import or re-export resolves to no file' },
  'missing/package': { level: 'error', text: 'A package is neither installed nor listed in package.json' },
  'missing/name': { level: 'error', text: 'A module lacks an imported name' },
  'missing/ambiguous': { level: 'warning', text: 'A name is re-exported via `export *` from several modules' },
  'unused/file': { level: 'warning', text: 'No root reaches a file' },
  'unused/export': { level: 'warning', text: 'No entry and no other module uses an export' },
  'unused/dependency': { level: 'warning', text: 'No module imports a dependency of package.json' },
  'cycles/cycle': { level: 'warning', text: 'Modules import each other when they load' },
  'diff/major': { level: 'error', text: 'A change of the public API requires a major version' },
  'diff/minor': { level: 'note', text: 'A change of the public API requires a minor version' },
  'diff/patch': { level: 'note', text: 'A change of the public API requires a patch version' },
};

/**
 * Something that ends a run with the status 1.
 * @typedef {object} Finding
 * @property {string} rule
 * @property {string} file below the directory
 * @property {number} line
 * @property {number} column
 * @property {string} name what it is about; with the rule and the file it is known again after an edit
 * @property {string} message
 */

/** @param {import('../folder/sources.js').Sources} sources @returns {(Finding & { told: string })[]} files that can't be read or parsed, with a line for people */
export function faultsOf(sources) {
  const unread = sources.unreadable().map(({ file, error }) => ({
    rule: 'files/unreadable', file, line: 1, column: 1, name: error, message: `can't be read (${error})`, told: `${file}: can't be read (${error})` }));
  const faulty = sources.unparsed().map(({ file, line, column, text }) => ({
    rule: 'files/syntax', file, line, column, name: text, message: text, told: `${file}:${line}:${column}: ${text}` }));
  return [...unread, ...faulty];
}
