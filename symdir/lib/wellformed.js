/** @param {string} text @returns {string} with U+FFFD in place of lone surrogates, which no JSON text for symq may have */
export function wellFormed(text) {
  return /[\ud800-\udfff]/.test(text) ? Buffer.from(text, 'utf8').toString('utf8') : text;
}
