// Times a huge generated file, kind of text by kind: what symdir makes of it, beside TypeScript's parser alone.
//
//   node bench/huge.mjs [--megabytes 17] [--rounds 3] [--kinds interface,namespace] [--command]
//
// In each round two processes run one after the other: one parses the text with TypeScript, V8 as it is by itself; one converts it as
// symdir does, parsing included. Each times its work alone, once the text is read and TypeScript is loaded: on the clock, and of all
// processors, that of V8's threads included. With --command the second process is a whole run of `symdir graph` without a cache. It
// prints the least times of the rounds in seconds, and the ratio to the parser's.
import { mkdtempSync, readFileSync, rmSync, writeFileSync } from 'node:fs';
import os from 'node:os';
import path from 'node:path';
import { fileURLToPath } from 'node:url';

import { argumentsOf, least, plainEnvironment, timeText, timedRun, usageError } from './measuring.mjs';

/** @typedef {import('./measuring.mjs').Time} Time */

const SELF = fileURLToPath(import.meta.url);
const COMMAND = fileURLToPath(new URL('../symdir/bin/symdir.js', import.meta.url));
const USAGE = 'usage: node bench/huge.mjs [--megabytes N] [--rounds N] [--kinds KIND,..] [--command]';

/** A piece of each kind of text, by its number. */
/** @type {Record<string, (i: number) => string>} */
const PIECES = {
  docs: (i) => `/**\n * Returns what the service has for the name number ${i}, or the default value.\n * @param name of what is looked up, as it stands in the list\n`
    + ` * @param limit how many are returned at most\n * @returns the values in the order of their names\n * @deprecated use {@link find${i}} with a limit\n */\n`
    + `export declare function find${i}(name: string, limit?: number): string[];\n`,
  imports: (i) => `import { value${i}, type Type${i} } from "./module${i % 500}";\nexport const sum${i} = value${i} * ${i} + compute(value${i}, "text ${i}", [1, 2, ${i}]) - (value${i} || ${i});\n`,
  classes: (i) => `export class Shape${i}<T> extends Base<T> implements Drawn {\n  private readonly items: Map<string, T> = new Map();\n  static count = ${i};\n`
    + `  constructor(public name: string, protected size: number) { super(name); }\n  at(index: number): T | undefined { return this.list[index]; }\n`
    + `  get length(): number { return this.list.length; }\n}\nexport const row${i} = ["a${i}", ${i}, true, null, { id: ${i}, name: "row ${i}" }];\n`,
  object: (i) => `  "key${i}": { id: ${i}, name: "name of ${i}", tags: ["a", "b", "c${i % 10}"], at: [${i}.5, -${i}], isOn: ${i % 2 === 0}, inner: { deep: null } },\n`,
  interface: (i) => `export interface Options${i}<T = string> extends Base {\n  name: string;\n  readonly items?: ReadonlyArray<T>;\n  find(name: string, limit?: number): Promise<Options${i}<T> | null>;\n`
    + `  on(event: "open" | "close", listener: (value: T, index: number) => void): this;\n  [key: string]: unknown;\n}\n`,
  namespace: (i) => `export declare namespace Space${i} {\n  const version: string;\n  function make(name: string, options?: Options): Item;\n  interface Options { size: number; color?: Color }\n`
    + `  type Color = "red" | "green" | Custom<number>;\n  class Item { constructor(name: string); value: Options; static of(a: Item): Item }\n}\n`,
};
const KINDS = [...Object.keys(PIECES), 'mixed'];

/** @param {string} kind @param {number} i */
function pieceOf(kind, i) {
  const all = ['docs', 'imports', 'classes', 'interface', 'namespace'];
  return PIECES[kind === 'mixed' ? all[i % all.length] : kind](i);
}

/** @param {string} kind @param {number} bytes @returns {string} */
function textOf(kind, bytes) {
  const parts = kind === 'object' ? ['export const data = {\n'] : [];
  for (let i = 0, length = 0; length < bytes; i++) {
    const piece = pieceOf(kind, i);
    parts.push(piece);
    length += piece.length;
  }
  if (kind === 'object') parts.push('};\n');
  return parts.join('');
}

/** @template T @param {() => T} work @returns {{ time: Time, made: T }} */
function timed(work) {
  const [began, before] = [performance.now(), process.cpuUsage()];
  const made = work();
  const { user, system } = process.cpuUsage(before);
  return { time: { clock: (performance.now() - began) / 1e3, processors: (user + system) / 1e6 }, made };
}

/** @param {string} file @returns {Promise<Time>} that TypeScript's parser takes */
async function parse(file) {
  const [{ useTypeScript }, { findTypeScript }] = await Promise.all([import('../symdir/lib/tree/which.js'), import('../symdir/lib/typescript.js')]);
  useTypeScript({ typescript: findTypeScript(process.cwd()).file, isGuest: true });
  const { ts } = await import('../symdir/lib/tree/typescript.js');
  const text = readFileSync(file, 'utf8');
  const { time, made } = timed(() => ts.createSourceFile(file, text, ts.ScriptTarget.Latest, false, ts.ScriptKind.TS));
  if (/** @type {any} */ (made).parseDiagnostics.length > 0) throw new Error('the text has a fault');
  return time;
}

/** @param {string} file @returns {Promise<Time>} that symdir takes to parse and convert */
async function convert(file) {
  const { parseFile } = await import('../symdir/lib/folder/parse.js');
  const { time, made } = timed(() => parseFile({ file, specifier: 'file:///a.ts' }, { bodies: false, ambient: true }));
  if (made.fault) throw new Error('the text has a fault');
  return time;
}

/** @param {string[]} words of Node @returns {Time} that a run of this program prints */
function printed(words) {
  return JSON.parse(timedRun(words, process.env, 0).stdout);
}

/** @param {string} folder @param {string} file @returns {Time} that a run of the command takes */
function commanded(folder, file) {
  return timedRun([COMMAND, 'graph', '--no-cache', folder, '-o', path.join(path.dirname(folder), 'graph.json')], plainEnvironment(), 0).time;
}

/** @param {string} kind @param {{ megabytes: number, rounds: number, command: boolean }} how */
function compare(kind, { megabytes, rounds, command }) {
  const made = mkdtempSync(path.join(os.tmpdir(), 'huge-'));
  try {
    const file = path.join(made, 'a.ts');
    writeFileSync(file, textOf(kind, megabytes * 1e6));
    const flags = ['--max-semi-space-size=64', '--max-old-space-size=8192', SELF];
    const times = Array.from({ length: rounds }, () => [printed([...flags, '--time', 'parse', file]), command ? commanded(made, file) : printed([...flags, '--time', 'convert', file])]);
    const [parser, ours] = [0, 1].map((k) => least(times.map((it) => it[k])));
    console.log(`${kind.padEnd(10)} parser ${timeText(parser)}; ${command ? 'symdir graph' : 'converted'} ${timeText(ours, parser)}; load ${os.loadavg()[0].toFixed(1)}`);
  } finally {
    rmSync(made, { recursive: true });
  }
}

const { values, positionals: [file] } = argumentsOf(USAGE, {
  megabytes: { type: 'string', default: '17' }, rounds: { type: 'string', default: '3' }, kinds: { type: 'string', default: KINDS.join(',') },
  command: { type: 'boolean', default: false }, time: { type: 'string' } });
if (values.time) console.log(JSON.stringify(await (values.time === 'parse' ? parse(file) : convert(file))));
else {
  const kinds = String(values.kinds).split(',');
  const odd = kinds.find((it) => !KINDS.includes(it));
  if (odd !== undefined) usageError(USAGE, `no kind ${odd}: there are ${KINDS.join(', ')}`);
  const [megabytes, rounds] = [Number(values.megabytes), Number(values.rounds)];
  if (!(megabytes > 0) || !(rounds >= 1)) usageError(USAGE, '--megabytes and --rounds are numbers from 1');
  for (const it of kinds) compare(it, { megabytes, rounds, command: Boolean(values.command) });
}
