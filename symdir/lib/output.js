// How lines are laid out for people.

/** @param {number} count @param {string} word @returns {string} as `1 name`, `2 names` */
export function counted(count, word) {
  const many = /(s|x|ch)$/.test(word) ? `${word}es` : word.endsWith('y') ? `${word.slice(0, -1)}ies` : `${word}s`;
  return `${count} ${count === 1 ? word : many}`;
}

/** Colors on a terminal, and none elsewhere or where NO_COLOR is set. */
export class Paint {
  /** @param {boolean} [isOn] */
  constructor(isOn = process.stdout.isTTY === true && !process.env.NO_COLOR) {
    this.isOn = isOn;
  }

  /** @param {number} code @param {string} text */
  code(code, text) {
    return this.isOn && text !== '' ? `\x1b[${code}m${text}\x1b[0m` : text;
  }

  /** @param {string} text */ bold(text) { return this.code(1, text); }
  /** @param {string} text */ dim(text) { return this.code(2, text); }
  /** @param {string} text */ red(text) { return this.code(31, text); }
  /** @param {string} text */ green(text) { return this.code(32, text); }
  /** @param {string} text */ yellow(text) { return this.code(33, text); }
}

/** @param {{ file: string, line: number, column: number }} place @returns {string} */
export function placeText({ file, line, column }) {
  return `${file}:${line}:${column}`;
}

/** In these names each unit counts by itself, and no case differs. */
const PLAIN = /^[a-z0-9_$]*$/;
/** Before digits and letters, in this order. */
const FIRST_SIGNS = '_$';

/** @param {string} a @param {string} b plain ones @returns {number} as `localeCompare` orders them, for which Node would load tables of all languages */
function plainOrder(a, b) {
  for (let i = 0; i < a.length && i < b.length; i++) {
    if (a[i] === b[i]) continue;
    const [x, y] = [FIRST_SIGNS.indexOf(a[i]), FIRST_SIGNS.indexOf(b[i])];
    if (x >= 0 && y >= 0) return x - y;
    if (x >= 0 || y >= 0) return x >= 0 ? -1 : 1;
    return a[i] < b[i] ? -1 : 1;
  }
  return a.length - b.length;
}

/** @param {{ name: string }} a @param {{ name: string }} b @returns {number} their order for people: capitals count where all else is the same */
export function byName(a, b) {
  const [x, y] = [a.name.toLowerCase(), b.name.toLowerCase()];
  return (PLAIN.test(x) && PLAIN.test(y) ? plainOrder(x, y) : x.localeCompare(y, 'en')) || Number(a.name > b.name) - Number(a.name < b.name);
}

/** The widest that a column is made. */
const WIDEST = 44;

/**
 * Rows with their columns below one another.
 * @param {string[][]} rows
 * @param {(cells: string[]) => string[]} [painted] each cell, laid out already
 * @returns {string[]} lines
 */
export function columns(rows, painted = (it) => it) {
  const count = Math.max(0, ...rows.map((it) => it.length));
  const widths = Array.from({ length: count }, (_, i) => Math.min(WIDEST, Math.max(0, ...rows.filter((it) => it.slice(i + 1).some(Boolean)).map((it) => it[i].length))));
  return rows.map((row) => painted(row.map((it, i) => it.padEnd(i === row.length - 1 ? 0 : widths[i]))).join('  ').trimEnd());
}

/** @param {string} text @param {number} width @returns {string[]} lines of words, none longer than the width where a word isn't */
export function wrapped(text, width) {
  const lines = [''];
  for (const word of text.split(' ')) {
    const last = lines[lines.length - 1];
    if (last !== '' && last.length + 1 + word.length > width) lines.push(word);
    else lines[lines.length - 1] = last === '' ? word : `${last} ${word}`;
  }
  return lines;
}

/** How long work goes on before a terminal shows it, how often it is shown there, and how often elsewhere, in milliseconds. */
const FIRST = 1000;
const ON_TERMINAL = 100;
const ELSEWHERE = 5000;

/** Tells on standard error how far long work is: in one line of a terminal, and elsewhere in a line now and then, if it is to. */
export class Progress {
  /** @param {boolean} isVerbose whether it tells that where standard error is no terminal */
  constructor(isVerbose) {
    this.isTerminal = process.stderr.isTTY === true;
    this.isOn = this.isTerminal || isVerbose;
    this.text = '';
    this.began = Date.now();
    this.isShown = false;
    /** @type {NodeJS.Timeout | undefined} */
    this.timer = undefined;
  }

  /** @param {string} text what is under way, or nothing where that has ended */
  update(text) {
    this.text = text;
    if (text === '') this.end();
    else if (this.isOn) this.timer ??= setInterval(() => this.show(), this.isTerminal ? ON_TERMINAL : ELSEWHERE).unref();
  }

  show() {
    const took = Date.now() - this.began;
    const text = `${this.text}, ${Math.floor(took / 1000)} s`;
    if (!this.isTerminal) process.stderr.write(`symdir: ${text}\n`);
    else if (took >= FIRST) {
      this.isShown = true;
      process.stderr.write(`\r\x1b[K${text}`);
    }
  }

  end() {
    clearInterval(this.timer);
    this.timer = undefined;
    if (this.isShown) process.stderr.write('\r\x1b[K');
    this.isShown = false;
  }
}
