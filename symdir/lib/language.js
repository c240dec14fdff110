// What a file's name says of its text.

/** @typedef {'ts' | 'tsx' | 'js' | 'jsx'} Language */

const ENDING = /\.(?:d\.([mc]?ts)|([mc]?ts|tsx|[mc]?js|jsx))$/;

/** @param {string} name @returns {boolean} whether it is a module of TypeScript or JavaScript */
export function isCode(name) {
  return ENDING.test(name);
}

/** @param {string} name @returns {boolean} whether it is one of JavaScript */
export function isJavaScript(name) {
  return /\.([mc]?js|jsx)$/.test(name);
}

/** @param {string} name @returns {{ language: Language, declaration: boolean }} */
export function languageOf(name) {
  const found = ENDING.exec(name);
  if (!found || found[1]) return { language: 'ts', declaration: Boolean(found) };
  const ending = found[2].replace(/^[mc]/, '');
  return { language: /** @type {Language} */ (ending), declaration: false };
}
