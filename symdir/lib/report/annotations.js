// Findings as workflow commands of GitHub, which shows them beside the lines of a pull request.
import { pathOf } from './places.js';
import { RULES } from './rules.js';

const COMMANDS = { error: 'error', warning: 'warning', note: 'notice' };

/** @param {string} text @returns {string} as data of a workflow command */
function data(text) {
  return text.replaceAll('%', '%25').replaceAll('\r', '%0D').replaceAll('\n', '%0A');
}

/** @param {string} text @returns {string} as a property of a workflow command */
function property(text) {
  return data(text).replaceAll(':', '%3A').replaceAll(',', '%2C');
}

/** @param {string} folder absolute @param {import('./rules.js').Finding} finding @returns {string} a line */
export function annotation(folder, { rule, file, line, column, message }) {
  const properties = { file: pathOf(folder, file), line, col: column, title: `symdir ${rule}` };
  const list = Object.entries(properties).map(([name, value]) => `${name}=${property(`${value}`)}`).join(',');
  return `::${COMMANDS[RULES[rule].level]} ${list}::${data(message)}`;
}

/** @param {string} text @returns {string} a line about no place */
export function notice(text) {
  return `::notice title=symdir::${data(text)}`;
}
