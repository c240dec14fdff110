// Times the way from sources to answers, beside TypeScript's own checker: the exports of each module of a directory, where each
// exported name is defined, and where each imported one.
//
//   node bench/sources.mjs [--rounds N] [--symq FILE] [--environment as-is] FOLDER..
//
// In each round four processes run one after the other: the checker; symdir with an empty cache; symdir without cached trees, but
// with TypeScript's compiled form, which any earlier run on any directory caches; and symdir with the trees and the graph of the
// run before. None of them reads further certificates, as Node does before it starts if NODE_EXTRA_CA_CERTS names some, unless the
// environment is left as it is.
// It prints the least times of the rounds on the clock and of the processors, in seconds, and their ratios to the checker's. The
// latter include child processes and are measured on Linux only. Both read the same files, the modules of TypeScript below the
// directory, and both print how many names they found.
import { mkdtempSync, rmSync } from 'node:fs';
import { createRequire } from 'node:module';
import os from 'node:os';
import path from 'node:path';
import { fileURLToPath } from 'node:url';

import { begin } from '../symdir/lib/folder/begin.js';
import { Files, isFolder } from '../symdir/lib/folder/files.js';
import { isJavaScript } from '../symdir/lib/language.js';
import { findTypeScript } from '../symdir/lib/typescript.js';
import { SYMQ, argumentsOf, forgetTrees, least, needSymq, plainEnvironment, timeText, timedRun, usageError } from './measuring.mjs';

/** @typedef {import('./measuring.mjs').Time} Time */

const SELF = fileURLToPath(import.meta.url);
const USAGE = 'usage: node bench/sources.mjs [--rounds N] [--symq FILE] [--environment as-is] FOLDER..';

/** @param {string} folder @returns {string[]} its modules of TypeScript */
function modules(folder) {
  return new Files(folder, []).code().filter((it) => !isJavaScript(it));
}

/** @param {string} folder @returns {{ exports: number, imports: number }} how many names the checker finds */
function askChecker(folder) {
  /** @type {typeof import('typescript')} */
  const ts = createRequire(import.meta.url)(findTypeScript(folder).file);
  const program = ts.createProgram(modules(folder), {
    noEmit: true, skipLibCheck: true, noLib: true, types: [], moduleResolution: ts.ModuleResolutionKind.NodeJs,
    target: ts.ScriptTarget.ESNext, module: ts.ModuleKind.ESNext, noResolve: false, maxNodeModuleJsDepth: 0,
  });
  const checker = program.getTypeChecker();
  const wanted = new Set(modules(folder));
  const count = { exports: 0, imports: 0 };
  const define = (/** @type {import('typescript').Symbol} */ symbol) => (symbol.flags & ts.SymbolFlags.Alias ? checker.getAliasedSymbol(symbol) : symbol).declarations?.map((it) => it.getStart());
  for (const file of program.getSourceFiles().filter((it) => wanted.has(it.fileName))) {
    const module = checker.getSymbolAtLocation(file);
    for (const it of module ? checker.getExportsOfModule(module) : []) {
      define(it);
      count.exports++;
    }
    for (const statement of file.statements) {
      const clause = ts.isImportDeclaration(statement) ? statement.importClause : undefined;
      const bindings = clause?.namedBindings;
      const names = [...(clause?.name ? [clause.name] : []), ...(bindings && ts.isNamedImports(bindings) ? bindings.elements.map((it) => it.name) : [])];
      for (const name of names) {
        const symbol = checker.getSymbolAtLocation(name);
        if (symbol) define(symbol);
        count.imports++;
      }
    }
  }
  return count;
}

/** @param {string} folder @param {string} symq the result of symdir */
async function askSymdir(folder, symq) {
  const begun = await begin({
    folder, skip: [/\.[mc]?jsx?$/], bodies: false, ambient: true, javascript: true, packages: false, cache: true, progress: () => {},
  }, { symq });
  // loaded then, as the command does
  const { isDefinition, Folder } = await import('../symdir/lib/folder/folder.js');
  const opened = await Folder.read(begun, { entry: [] });
  opened.open({ symq });
  const specifiers = [...opened.sources.modules.keys()];
  const exports = (await opened.exports(specifiers)).flatMap((it) => it.exports);
  const imports = specifiers.flatMap((specifier) => (opened.sources.modules.get(specifier)?.parsed.references ?? [])
    .filter((it) => it.how === 'import').flatMap(({ text, names }) => names.filter(([name]) => name !== '*').map(([name]) => ['resolve', specifier, ['import', text, [name]]])));
  const [leaves] = await Promise.all([opened.leaves(exports.map((it) => [it.module, it.symbol])), opened.ask(imports)]);
  for (const it of leaves.flat()) if (isDefinition(it)) opened.declaration(it);
  await opened.close();
  return { exports: exports.length, imports: imports.length };
}

/** @param {string[]} words @param {string} cache @returns {{ time: Time, count: string }} */
function timed(words, cache) {
  const environment = values.environment === 'as-is' ? process.env : plainEnvironment();
  const { time, stdout } = timedRun([SELF, ...words], { ...environment, XDG_CACHE_HOME: cache }, 0);
  return { time, count: stdout.trim() };
}

/** @param {string} folder @param {number} rounds @param {string} symq */
function compare(folder, rounds, symq) {
  /** @type {Record<'checker' | 'empty' | 'cold' | 'kept', Time[]>} */
  const runs = { checker: [], empty: [], cold: [], kept: [] };
  const counts = new Set();
  for (let i = 0; i < rounds; i++) {
    const cache = mkdtempSync(path.join(os.tmpdir(), 'sources-'));
    const once = (/** @type {keyof typeof runs} */ name, /** @type {string[]} */ words) => {
      const { time, count } = timed(words, cache);
      runs[name].push(time);
      counts.add(`${name === 'checker' ? 'checker' : 'symdir'} ${count}`);
    };
    once('checker', ['--ask', 'checker', folder]);
    once('empty', ['--ask', 'symdir', '--symq', symq, folder]);
    forgetTrees(path.join(cache, 'symdir'));
    once('cold', ['--ask', 'symdir', '--symq', symq, folder]);
    once('kept', ['--ask', 'symdir', '--symq', symq, folder]);
    rmSync(cache, { recursive: true });
  }
  const checker = least(runs.checker);
  console.log(`${folder}: ${modules(folder).length} modules; load ${os.loadavg()[0].toFixed(1)}`);
  console.log(`  checker        ${timeText(checker)}`);
  for (const [name, times] of Object.entries({ 'empty cache': runs.empty, 'no trees kept': runs.cold, 'trees kept': runs.kept })) {
    console.log(`  ${name.padEnd(15)}${timeText(least(times), checker)}`);
  }
  for (const it of counts) console.log(`  ${it}`);
}

const { values, positionals } = argumentsOf(USAGE, {
  rounds: { type: 'string', default: '5' }, symq: SYMQ, ask: { type: 'string' }, environment: { type: 'string', default: 'plain' } });
const folders = positionals.map((it) => path.resolve(it));
if (!['plain', 'as-is'].includes(String(values.environment))) usageError(USAGE, '--environment is plain or as-is');
if (!(Number(values.rounds) >= 1)) usageError(USAGE, '--rounds is a number from 1');
if (folders.length === 0) usageError(USAGE, 'which directories?');
for (const it of folders) if (!isFolder(it)) usageError(USAGE, `no directory ${it}`);
needSymq(USAGE, String(values.symq));
if (values.ask === 'checker') console.log(JSON.stringify(askChecker(folders[0])));
else if (values.ask) console.log(JSON.stringify(await askSymdir(folders[0], String(values.symq))));
else for (const it of folders) compare(it, Number(values.rounds), String(values.symq));
