// Text and tables in GitHub's Markdown. What comes from sources stands in code, or has each character escaped that means something there.

/** A comment of GitHub has at most 65,536 characters; the rest is for what stands around. */
const ROOM = 60_000;

/** @param {string} text @returns {string} each character as a reference by its number */
function references(text) {
  return text.replace(/[^\w\s.,'"/()-]/gu, (it) => `&#${it.codePointAt(0)};`);
}

/** @param {string} text @returns {string} in one line, without characters that turn the direction of others */
function oneLine(text) {
  return text.replace(/[\s\u0000-\u001f\u007f\u2028\u2029]+/g, ' ').replace(/[\u202a-\u202e\u2066-\u2069]/g, '\ufffd').trim();
}

/** @param {string} text @returns {string} as code, in one line; nothing for nothing */
export function code(text) {
  const line = oneLine(text);
  if (line === '') return '';
  return /[|`\\]/.test(line) ? `<code>${references(line).replaceAll('_', '&#95;')}</code>` : `\`${line}\``;
}

/** @param {string} text @returns {string} as text, in one line, that mentions nobody and links to nothing */
function plain(text) {
  return text.replace(/[\\`*_[\]<>#|~&]|:(?=\/\/)|(?<=www)\./gi, (it) => `&#${it.charCodeAt(0)};`).replaceAll('@', '@&#8203;').replace(/&#35;(?=\d)/g, '&#35;&#8203;');
}

/** @param {string} text @returns {string} as text, with code where it stands between single backticks */
export function prose(text) {
  return oneLine(text).split(/(?<!`)`([^`]+)`(?!`)/).map((it, i) => (i % 2 === 1 ? code(it) : plain(it))).join('');
}

/**
 * A table, as long as there is room.
 * @param {string[]} head
 * @param {string[][]} rows of cells in Markdown
 * @param {boolean} isWhole whether no row is left out
 * @param {number} [room] characters
 * @returns {string[]} lines; the last says how many rows were left out
 */
export function table(head, rows, isWhole, room = ROOM) {
  const line = (/** @type {string[]} */ cells) => `| ${cells.join(' | ')} |`;
  const lines = [line(head), line(head.map(() => '---'))];
  let used = lines.join('\n').length;
  let shown = 0;
  for (const it of rows) {
    const text = line(it);
    used += text.length + 1;
    if (!isWhole && used > room) break;
    lines.push(text);
    shown++;
  }
  return shown < rows.length ? [...lines, '', `and ${rows.length - shown} more (\`--all\` lists them)`] : lines;
}

/** @param {{ file: string, line: number, column: number }} place @returns {string} */
export function placeCode({ file, line, column }) {
  return code(`${file}:${line}:${column}`);
}

/** @param {string[][]} blocks of lines @returns {string} with an empty line between */
export function document(blocks) {
  return `${blocks.filter((it) => it.length > 0).map((it) => it.join('\n')).join('\n\n')}\n`;
}
