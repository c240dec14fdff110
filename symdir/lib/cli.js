// The words of the command, and what each of them does.
import { readFileSync } from 'node:fs';
import path from 'node:path';
import { parseArgs } from 'node:util';

import { configured } from './config.js';
import { Failure, failureOf } from './failure.js';
import { begin } from './folder/begin.js';
import { checkFolder, isFolder, withSlashes } from './folder/files.js';
import { Paint, Progress } from './output.js';
import { findSymq, unprovedSymq } from './program.js';
import { help } from './help.js';
import { REPORT, REPORT_APART, Reporting } from './report/reporting.js';
import { faultsOf } from './report/rules.js';
import { output } from './write.js';

/**
 * @typedef {object} Run
 * @property {string[]} words behind the command's name
 * @property {Record<string, any>} options
 * @property {Paint} paint
 * @property {(line: string) => void} print a line on standard output
 * @property {(line: string) => void} warn a line on standard error
 * @property {Reporting} report
 */

/** @type {import('node:util').ParseArgsConfig['options']} */
const COMMON = {
  help: { type: 'boolean', short: 'h' },
  skip: { type: 'string', multiple: true },
  js: { type: 'boolean' },
  packages: { type: 'boolean' },
  'ambient-exports': { type: 'boolean' },
  'no-ambient-exports': { type: 'boolean' },
  'no-cache': { type: 'boolean' },
  'no-config': { type: 'boolean' },
  verbose: { type: 'boolean' },
};
/** @type {import('node:util').ParseArgsConfig['options']} */
const ASKING = {
  ...COMMON,
  entry: { type: 'string', multiple: true },
  json: { type: 'boolean' },
  all: { type: 'boolean' },
  symq: { type: 'string' },
  unproved: { type: 'boolean' },
  strict: { type: 'boolean' },
};
/** Of commands that report findings. */
const FINDING = { ...ASKING, ...REPORT };
const OUT = /** @type {const} */ ({ type: 'string', short: 'o' });

/**
 * @typedef {object} Command
 * @property {NonNullable<import('node:util').ParseArgsConfig['options']>} options
 * @property {number} words how many it takes at most
 * @property {string[][]} [apart] options that don't go together
 * @property {boolean} [bodies] whether what stands in the bodies of functions is read in any case
 * @property {(run: Run) => Promise<void>} [check] what its words have to be, told before files are read
 * @property {(options: Record<string, any>) => string | undefined} [result] what of its answer is kept, in a word
 * @property {(options: Record<string, any>) => Promise<unknown>[]} [load] what its answer on new files needs, loaded while threads start that parse them
 * @property {boolean} [reportsFaults] whether what can't be parsed is told with its answer
 * @property {boolean} [isLookUp] whether its status is by its answer alone, and no other file's fault is a finding
 * @property {(run: Run, folder: import('./folder/folder.js').Folder) => Promise<number>} [ask]
 * @property {(run: Run) => Promise<number>} [act]
 */

const AMBIENT = ['ambient-exports', 'no-ambient-exports'];
const APART = [['symq', 'unproved'], AMBIENT];
const FINDING_APART = [...APART, ...REPORT_APART];
/** Of commands that stay and answer again. */
const WATCHED = { ...FINDING, watch: /** @type {const} */ ({ type: 'boolean' }) };
const WATCHED_APART = [...FINDING_APART, ...['markdown', 'html', 'sarif', 'annotations', 'out', 'save-baseline', 'save', 'check'].map((it) => ['watch', it])];
/** What can't be combined with a report of names. */
const SAVED = ['json', 'markdown', 'html', 'sarif', 'annotations', 'out', 'baseline'].map((it) => ['save', it]);

// What a command alone needs is loaded where it is called: that is most of what a run on trees that are kept waits for.
/** @type {Record<string, Command>} */
const COMMANDS = {
  graph: { options: { ...COMMON, out: OUT, bodies: { type: 'boolean' }, check: { type: 'string' }, symq: { type: 'string' } }, words: 1,
    apart: [['check', 'out'], AMBIENT],
    act: async (run) => (run.options.check ? (await import('./commands/check.js')).checkGraph(run)
      : (await import('./commands/graph.js')).graph(run, reading(run))) },
  api: { options: { ...WATCHED, html: { type: 'boolean' }, docs: { type: 'boolean' }, save: { type: 'string' }, check: { type: 'string' } }, words: 1,
    apart: [...WATCHED_APART, ['save', 'check'], ['check', 'html'], ...SAVED],
    check: async (run) => (await import('./commands/api.js')).checkSave(run),
    result: ({ html, save, check, baseline }) => (save || check ? 'surface' : html && !baseline ? 'page' : undefined),
    load: ({ html }) => (html ? [import('./report/described.js'), import('./report/html.js'), import('./report/picture.js')] : []),
    ask: async (run, folder) => (await import('./commands/api.js')).api(run, folder) },
  leaks: { options: WATCHED, words: 1, apart: WATCHED_APART,
    ask: async (run, folder) => (await import('./commands/leaks.js')).leaks(run, folder) },
  missing: { options: WATCHED, words: 1, apart: WATCHED_APART, reportsFaults: true,
    ask: async (run, folder) => (await import('./commands/missing.js')).missing(run, folder) },
  where: { options: ASKING, words: 3, apart: APART, isLookUp: true,
    check: async (run) => void (await import('./commands/where.js')).spotOf(run.words[1]),
    ask: async (run, folder) => (await import('./commands/where.js')).where(run, folder) },
  web: { options: { ...ASKING, out: OUT }, words: 1, apart: APART,
    check: async (run) => void (run.options.out && (await import('./commands/web.js')).formOf(run.options.out)),
    ask: async (run, folder) => (await import('./commands/web.js')).web(run, folder) },
  unused: { options: { ...FINDING, production: { type: 'boolean' } }, words: 1, apart: FINDING_APART, bodies: true,
    ask: async (run, folder) => (await import('./commands/unused.js')).unused(run, folder) },
  uses: { options: { ...ASKING, bodies: { type: 'boolean' } }, words: 3, apart: APART, isLookUp: true,
    check: async (run) => void (await import('./commands/where.js')).spotOf(run.words[1], 'uses'),
    ask: async (run, folder) => (await import('./commands/uses.js')).uses(run, folder) },
  diff: { options: FINDING, words: 2, apart: FINDING_APART,
    act: async (run) => (await import('./commands/diff.js')).diff(run, { read: (folder) => reading({ ...run, words: [folder] }), asked: { ...await engineOf(run), result: 'surface' } }) },
  cycles: { options: FINDING, words: 1, apart: FINDING_APART, bodies: true,
    ask: async (run, folder) => (await import('./commands/cycles.js')).cycles(run, folder) },
  affected: { options: { ...ASKING, since: { type: 'string' }, check: { type: 'string' } }, words: Infinity, apart: APART,
    check: async (run) => (await import('./commands/affected.js')).checkChanged(run),
    ask: async (run, folder) => (await import('./commands/affected.js')).affected(run, folder, (other) => reading({ ...run, words: [other] })) },
};

/** @param {string} text @returns {RegExp} */
function pattern(text) {
  try {
    return new RegExp(text);
  } catch (error) {
    throw new Failure(`--skip ${text}: ${/** @type {Error} */ (error).message}`, 2);
  }
}

/** @param {Run} run @returns {import('./folder/begin.js').Reading} */
function reading({ words, options, report }) {
  const progress = new Progress(options.verbose ?? false);
  if (!words[0]) throw new Failure('a directory is required; see `symdir --help`', 2);
  const command = report?.command === 'uses' ? 'uses' : 'where';
  if (/:\d+$/.test(words[0])) throw new Failure(`the directory comes first, as in \`symdir ${command} . ${words[0]}\``, 2);
  const folder = withSlashes(path.resolve(words[0]));
  checkFolder(folder);
  return {
    folder,
    skip: (options.skip ?? []).map(pattern),
    bodies: options.bodies ?? false,
    ambient: !options['no-ambient-exports'],
    javascript: options.js ?? false,
    packages: options.packages ?? false,
    cache: !options['no-cache'],
    progress: (text) => progress.update(text),
  };
}

/** @param {Run} run @returns {Promise<import('./folder/begin.js').Asked>} what answers */
async function engineOf({ options }) {
  const symq = options.unproved ? await unprovedSymq() : findSymq(options.symq);
  return { symq, strict: options.strict };
}

/** @param {Run} run @param {Command} command @returns {Promise<number>} */
async function asked(run, command) {
  const how = { ...reading(run), ...(command.bodies && { bodies: true }) };
  await command.check?.(run);
  // what answers has to be there before time is spent on files
  const begun = await begin(how, { ...await engineOf(run), result: command.result?.(run.options) });
  // what can't be loaded is told where it is used
  if (begun.last === null) command.load?.(run.options).forEach((it) => it.catch(() => {}));
  try {
    return await answered(run, command, begun);
  } finally {
    await begun.last?.close();
  }
}

/** @param {Run} run @param {Command} command @param {import('./folder/folder.js').Folder} folder @param {() => void} open has it asked from then on @returns {Promise<number>} the status */
async function told(run, command, folder, open) {
  const faults = command.reportsFaults ? [] : run.report.found.rest(faultsOf(folder.sources), (it) => it);
  faults.forEach((it) => run.warn(it.told));
  open();
  const status = await /** @type {NonNullable<Command['ask']>} */ (command.ask)(run, folder);
  return status === 0 && faults.length > 0 && !command.isLookUp ? 1 : status;
}

/** @param {Run} run @param {Command} command @param {import('./folder/begin.js').Begun} begun @returns {Promise<number>} */
async function answered(run, command, begun) {
  const { Folder } = await import('./folder/folder.js');
  const folder = await Folder.read(begun, { entry: run.options.entry ?? [] });
  try {
    return await told(run, command, folder, () => folder.open(/** @type {import('./folder/begin.js').Asked} */ (begun.asked)));
  } finally {
    await folder.close();
  }
}

/** @param {Command} command @returns {Command['options']} `--no-json` and the like, which take back what a configuration file says */
function negations({ options }) {
  return Object.fromEntries(Object.keys(options).filter((it) => options[it].type === 'boolean' && it !== 'help' && !it.startsWith('no-')).map((it) => [`no-${it}`, options[it]]));
}

/** @param {Record<string, any>} values @param {Command} command @returns {Record<string, any>} with `json` as false for `--no-json` */
function negated(values, { options }) {
  return Object.fromEntries(Object.entries(values).map(([name, value]) => (Object.hasOwn(options, name) ? [name, value] : [name.slice('no-'.length), false])));
}

/** @param {string} name @param {Command} command @param {string[]} args @returns {{ words: string[], options: Record<string, any> }} */
function parsed(name, command, args) {
  try {
    const { values, positionals } = parseArgs({ args, options: { ...negations(command), ...command.options }, allowPositionals: true });
    if (positionals.length > command.words) {
      const taken = ['', 'one directory', 'OLD and NEW', 'a directory, FILE:LINE and a name'][command.words];
      throw new Failure(`${name} takes ${taken}, not ${positionals.join(' ')}`, 2);
    }
    const pair = command.apart?.find((it) => it.every((option) => values[option] !== undefined));
    if (pair) throw new Failure(`${pair.map((it) => `--${it}`).join(' and ')} can't be combined`, 2);
    return { words: positionals, options: negated(values, command) };
  } catch (error) {
    if (error instanceof Failure) throw error;
    const text = /** @type {Error} */ (error).message.split('. To specify')[0].replace(/\.$/, '');
    throw new Failure(`${text}; see \`symdir ${name} --help\``, 2);
  }
}

/** @param {string} name @returns {boolean} that there is such a command */
function known(name) {
  if (!Object.hasOwn(COMMANDS, name)) throw new Failure(`unknown command ${name}; the commands are ${Object.keys(COMMANDS).join(', ')}`, 2);
  return true;
}

/** @returns {string} */
function version() {
  return JSON.parse(readFileSync(new URL('../package.json', import.meta.url), 'utf8')).version;
}

/** @param {string} name @param {string[]} rest @returns {string | null} what is told without a folder: help, and the version */
function helpOrVersion(name, rest) {
  if (['--help', '-h', 'help'].includes(name)) return help(rest.find(known));
  return ['--version', 'version'].includes(name) ? `symdir ${version()}` : null;
}

/**
 * @param {string} name @param {Command} command @param {string[]} words @param {Record<string, any>} options
 * @param {(line: string) => void} print @param {(line: string) => void} warn
 * @returns {Promise<number>} the status
 */
async function reported(name, command, words, options, print, warn) {
  const isFinding = 'sarif' in command.options;
  const report = new Reporting(name, words, isFinding ? options : {}, print);
  const run = { words, options, paint: new Paint(options.out ? false : undefined), print: (/** @type {string} */ line) => report.print(line), warn, report };
  if (isFinding) await report.begin();
  const status = await (command.act ? command.act(run) : asked(run, command));
  return isFinding ? report.end(status) : status;
}

/**
 * Stays, and answers again when sources change.
 * @param {string} name @param {Command} command @param {string[]} words @param {() => Record<string, any>} options as they are whenever it is called
 * @param {(line: string) => void} print @param {(line: string) => void} warn
 * @returns {Promise<never>}
 */
async function watched(name, command, words, options, print, warn) {
  const { Watch } = await import('./watch/watch.js');
  const readingBy = (/** @type {Record<string, any>} */ all) => reading(/** @type {Run} */ ({ words, options: all }));
  const { folder } = readingBy(options());
  return new Watch({
    name, folder, options, print, warn, reading: readingBy, engine: (all) => engineOf(/** @type {Run} */ ({ options: all })),
    run: (all, report, line, fault) => ({ words, options: all, paint: new Paint(), print: line, warn: fault, report }),
    answer: (run, open, begin) => told(run, command, open, begin),
  }).run();
}

/**
 * Runs the command.
 * @param {string[]} args behind its name
 * @returns {Promise<number>} the status: 0 no findings, 1 findings, 2 usage error, 3 failure
 */
export async function main(args) {
  const print = (/** @type {string} */ line) => output(`${line}\n`);
  const warn = (/** @type {string} */ line) => void process.stderr.write(`symdir: ${line}\n`);
  try {
    const [name, ...rest] = args;
    if (name === undefined) {
      process.stderr.write(`${help()}\n`);
      return 2;
    }
    const told = helpOrVersion(name, rest);
    if (told !== null) {
      print(told);
      return 0;
    }
    known(name);
    const command = COMMANDS[name];
    const { words, options } = parsed(name, command, rest);
    if (options.help) {
      print(help(name));
      return 0;
    }
    const folder = words[name === 'diff' ? 1 : 0];
    const isConfigured = !options['no-config'] && folder !== undefined && isFolder(folder);
    const all = () => (isConfigured ? configured(name, COMMANDS, path.resolve(folder), options) : options);
    if (options.watch) return await watched(name, command, words, all, print, warn);
    return await reported(name, command, words, all(), print, warn);
  } catch (error) {
    const failure = failureOf(error);
    if (failure === null) throw error;
    warn(failure.message);
    return failure.status;
  }
}
