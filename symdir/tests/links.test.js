// Links to directories, and modules that are declared, as TypeScript itself takes them.
import assert from 'node:assert/strict';
import { realpathSync, symlinkSync } from 'node:fs';
import { createRequire } from 'node:module';
import path from 'node:path';
import test from 'node:test';

import { Files } from '../lib/folder/files.js';
import { findTypeScript } from '../lib/typescript.js';
import { answer, folderOf, symdir } from './helper.js';

/** @type {typeof import('typescript')} */
const ts = createRequire(import.meta.url)(findTypeScript(process.cwd()).file);

/** @returns {string} a folder with links to directories: outside, in it, above it, to nothing, in a ring */
function linkedFolder() {
  const base = folderOf({
    'top.ts': 'export const top = 1;\n', 'ext/x.ts': 'export const x = 1;\n', 'ext/deep/y.ts': '', 'ext/node_modules/z.ts': '', 'ext/.hidden/h.ts': '',
    'pkg/index.ts': 'export * from "./again/a";\nexport * from "./out/x";\n', 'pkg/real/a.ts': 'export const a = 1;\n', 'pkg/node_modules/n/index.ts': '',
  });
  const links = { out: '../ext', again: 'real', self: '.', up: '..', ring: 'ring', none: 'missing', '.dot': '../ext', inner: 'node_modules/n' };
  for (const [name, to] of Object.entries(links)) symlinkSync(to, path.join(base, 'pkg', name));
  return path.join(base, 'pkg');
}

test('links to directories are followed, and each directory is listed once, as TypeScript lists them', () => {
  const folder = linkedFolder();
  const own = new Files(folder, []).code();
  const wanted = ts.sys.readDirectory(folder, ['.ts'], undefined, ['**/*']);
  const real = (/** @type {readonly string[]} */ files) => files.map((it) => realpathSync(it)).sort();
  assert.deepEqual(real(own), real(wanted));
  assert.deepEqual(own.map((it) => path.relative(folder, it)), ['index.ts', 'inner/index.ts', 'out/deep/y.ts', 'out/x.ts', 'real/a.ts', 'up/top.ts']);
});

test('an import through a link to a directory leads there, as in TypeScript', () => {
  const folder = linkedFolder();
  const found = answer(['api', folder, '--entry', 'index.ts']).names;
  const program = ts.createProgram([path.join(folder, 'index.ts')], { noLib: true, types: [] });
  const checker = program.getTypeChecker();
  const wanted = checker.getExportsOfModule(/** @type {any} */ (checker.getSymbolAtLocation(/** @type {any} */ (program.getSourceFile(path.join(folder, 'index.ts'))))));
  const places = wanted.map((it) => [it.name, path.relative(folder, /** @type {any} */ (it.declarations)[0].getSourceFile().fileName)]);
  assert.deepEqual(found.map((/** @type {any} */ it) => [it.name, it.defined[0].file]).sort(), places.sort());
  assert.equal(symdir(['missing', folder]).status, 0);
});

const DECLARED = {
  'tsconfig.json': JSON.stringify({ compilerOptions: { noLib: true, types: [], paths: { file: ['./file.ts'] } } }),
  'globals.d.ts': 'declare module "declared" { export const a: number; }\ndeclare module "short";\ndeclare module "file" { export const f: 1; }\n'
    + 'declare module "*.css" { const it: string; export default it; }\ndeclare module "x/*" { export const b: number; }\n',
  'augment.d.ts': 'export {};\ndeclare module "augmented" { export const c: number; }\n',
  'file.ts': 'export const g = 1;\n',
  'main.ts': 'import { a } from "declared";\nimport s from "short";\nimport css from "./style.css";\nimport other from "pkg/style.css";\nimport { b } from "x/y/z";\n'
    + 'import { c } from "augmented";\nimport { d } from "none";\nimport { e } from "./none";\nimport { f } from "file";\nimport { h } from "declared/sub";\nimport { k } from "x";\n',
};

test('what `declare module` declares in a file that is no module isn\'t missing, as in TypeScript', () => {
  const folder = folderOf(DECLARED);
  const config = ts.parseJsonConfigFileContent(JSON.parse(DECLARED['tsconfig.json']), ts.sys, folder);
  const program = ts.createProgram(config.fileNames, config.options);
  const main = /** @type {import('typescript').SourceFile} */ (program.getSourceFile(path.join(folder, 'main.ts')));
  const lost = program.getSemanticDiagnostics(main).filter((it) => it.code === 2307);
  const wanted = lost.map(({ start }) => main.getLineAndCharacterOfPosition(start ?? 0).line + 1);
  assert.deepEqual(wanted, [6, 7, 8, 10, 11]);
  const found = answer(['missing', folder]);
  assert.deepEqual(found.missing.map((/** @type {any} */ it) => [it.file, it.line]), wanted.map((it) => ['main.ts', it]));
  assert.deepEqual(found.external, ['ambient:*.css', 'ambient:declared', 'ambient:file', 'ambient:short', 'ambient:x/*']);
});

test('a name of a declared module is told as one of it', () => {
  const folder = folderOf(DECLARED);
  assert.match(symdir(['where', folder, 'main.ts:9', 'f']).stdout, /in declare module "file", an external module/);
});
