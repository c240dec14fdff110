// Newer syntax than an old parser knows, written over at equal length, so that each place stays where it is.
// What stood there is marked by its place in UTF-16 units.

/**
 * @typedef {object} Marks
 * @property {Set<number>} using where `using` or `await using` stands
 * @property {Set<number>} accessor
 * @property {Set<number>} satisfies
 * @property {Map<number, string>} strings names of imports and exports that are strings, by where they stand
 */

/** @param {string} text @returns {string} as many spaces, with the line ends kept */
function blank(text) {
  return text.replace(/[^\n\r]/g, ' ');
}

/** @param {string} text @param {Marks} marks @returns {string} */
function overKeywords(text, marks) {
  return text
    .replace(/(^|[;{}\n]\s*)(await\s+)?using(?=\s+[A-Za-z_$][\w$]*\s*(?::[^=]*)?=(?!=))/g, (_, before, wait, at) => {
      marks.using.add(at + before.length + (wait?.length ?? 0));
      if (wait) marks.using.add(at + before.length);
      return `${before}${wait ? blank(wait) : ''}const`;
    })
    .replace(/(^|[;{}\s])accessor(?=\s+[#A-Za-z_$["'])/g, (_, before, at) => {
      marks.accessor.add(at + before.length);
      return `${before}readonly`;
    })
    .replace(/\bsatisfies(?=\s+[A-Za-z_${[("'])/g, (_, at) => {
      marks.satisfies.add(at);
      return 'as       ';
    })
    .replace(/\b(export\s+)type(?=\s*\*)/g, (_, before) => `${before}    `)
    .replace(/([<,]\s*)const(?=\s+[A-Za-z_$][\w$]*\s*[,>=e])/g, (_, before) => `${before}     `)
    .replace(/(from\s*(?:"[^"\n]*"|'[^'\n]*')\s*)(with\s*\{[^}]*\})/g, (_, before, what) => before + blank(what));
}

/** @param {string} text @param {Marks} marks @returns {string} with an identifier in place of each name that is a string */
function overStrings(text, marks) {
  let count = 0;
  return text.replace(/\b(import|export)\b([^;{}"'`()=]*)\{([^}]*)\}/g, (whole, word, between, names, at) => {
    if (!/["']/.test(names)) return whole;
    const start = at + word.length + between.length + 1;
    const over = names.replace(/"[^"\n]*"|'[^'\n]*'/g, (/** @type {string} */ string, /** @type {number} */ offset) => {
      const name = `$${(count++).toString(36)}`;
      if (name.length > string.length) return string;
      marks.strings.set(start + offset, string.slice(1, -1));
      return name.padEnd(string.length, '_');
    });
    return `${word}${between}{${over}}`;
  });
}

/** @param {string} text @returns {{ text: string, marks: Marks }} */
export function overNewer(text) {
  /** @type {Marks} */
  const marks = { using: new Set(), accessor: new Set(), satisfies: new Set(), strings: new Map() };
  return { text: overStrings(overKeywords(text, marks), marks), marks };
}
