// The examples that `--help` shows are run.
import assert from 'node:assert/strict';
import { appendFileSync, cpSync, readFileSync } from 'node:fs';
import path from 'node:path';
import test from 'node:test';
import { fileURLToPath } from 'node:url';

import { folderOf, symdir } from './helper.js';
import { watched } from './watching.js';

const TOP = fileURLToPath(new URL('../../', import.meta.url));

/** @param {string} command @param {number} status @param {string} stdout what its example prints */
function shows(command, status, stdout) {
  assert.deepEqual(symdir(exampleOf(command), { cwd: TOP }), { status, stdout, stderr: '' });
}

/** @param {string} command @returns {string[]} the words of the example that its help shows */
function exampleOf(command) {
  const [, words] = /^ {2}symdir (.*examples\/.*)$/m.exec(symdir([command, '--help']).stdout) ?? [];
  assert.ok(words?.startsWith(command));
  return words.split(' ');
}

test('each command has one', () => {
  const commands = [...symdir(['--help']).stdout.matchAll(/^ {2}symdir (\w+) /gm)].map((it) => it[1]);
  assert.deepEqual(commands, ['api', 'leaks', 'missing', 'where', 'web', 'unused', 'uses', 'diff', 'cycles', 'affected', 'graph']);
  commands.forEach(exampleOf);
});

test('api', () => shows('api', 1, `index.ts: 5 public names, defined in 2 files
  Form    class      shapes.ts:2:14
  origin  const      index.ts:4:14
  Point   interface  shapes.ts:1:18  export * from "./shapes.ts"
  Shape   class      shapes.ts:2:14  export * from "./shapes.ts"
  sizes   namespace  shapes.ts:3:11  export * from "./shapes.ts"
  index.ts:5:1: export * from "./gone.ts": unresolved
`));

test('leaks', () => shows('leaks', 1, `Item  interface  item.ts:4:18  (exported by its file, re-exported by no entry)
    referenced by total
Price  class  price.ts:1:14  (exported by its file, re-exported by no entry)
    referenced by total
2 public names of cart.ts: 2 declarations that they reference can't be imported
`));

test('missing', () => shows('missing', 1, `unresolved imports: 1
  export * "./gone.ts"  index.ts:5:1
4 imports in 2 modules: 1 missing
`));

test('where', () => shows('where', 0, `Point  at index.ts:4:22
  interface  shapes.ts:1:18  via index.ts
`));

test('web', () => {
  const file = path.join(folderOf({}), 'web.svg');
  const words = exampleOf('web').map((it) => (it === 'web.svg' ? file : it));
  assert.deepEqual(symdir(words, { cwd: TOP }), { status: 1, stdout: `${file}: 2 modules in 2 boxes, 1 edge; 1 unresolved\n`, stderr: '' });
  assert.match(readFileSync(file, 'utf8'), /<svg/);
});

test('graph', () => shows('graph', 0, 'examples/first/graph.json: accepted by symq\n'));

/**
 * What each example of a report prints or writes, by its option.
 * @type {Record<string, (text: string) => void>}
 */
const REPORTS = {
  '--markdown': (text) => assert.match(text, /^(\*\*.+\*\*|### `.+`: .+)\n\n\| .+ \|\n/),
  '--sarif': (text) => assert.equal(JSON.parse(text).version, '2.1.0'),
  '--annotations': (text) => assert.match(text, /^(::(error|warning|notice) .+::.+\n)*$/),
  '--save-baseline': (text) => assert.ok(Array.isArray(JSON.parse(text).findings)),
  '--html': (text) => assert.match(text, /^<!doctype html>/),
  '--docs': (text) => assert.match(text, /\n {6}total\(items: Item\[\], round = true\): Price\n {6}Adds up the prices of the items\.\n/),
};

for (const command of ['api', 'leaks', 'missing', 'unused', 'diff', 'cycles']) {
  test(`${command}: the examples of reports`, () => {
    const folder = folderOf({});
    cpSync(path.join(TOP, 'examples'), path.join(folder, 'examples'), { recursive: true });
    const first = exampleOf(command).join(' ');
    const found = [...symdir([command, '--help']).stdout.matchAll(/^ {2}symdir (.* --.*)$/gm)].map(([, words]) => words);
    const all = found.filter((words) => words !== first && !words.endsWith(' --watch')).map((words) => words.split(' '));
    const options = all.map((words) => /** @type {string} */ (Object.keys(REPORTS).find((it) => words.includes(it))));
    const wanted = ['--markdown', '--sarif', '--annotations', '--save-baseline'];
    assert.deepEqual(options, command === 'api' ? ['--docs', '--html', ...wanted] : wanted);
    all.forEach((words, i) => {
      const { status, stdout, stderr } = symdir(words, { cwd: folder });
      assert.ok(status === 0 || status === 1, words.join(' '));
      assert.equal(stderr, '');
      const file = words[words.findIndex((it) => it === '-o' || it === '--baseline') + 1];
      REPORTS[options[i]](file === words[0] ? stdout : readFileSync(path.join(folder, file), 'utf8'));
    });
  });
}

test('unused', () => shows('unused', 1, `unreachable files: 1
  legacy.ts
unused exports: 1
  shout  function  item.ts:14:17
unused dependencies: 1
  left-pad  package.json:4:21
5 modules, 1 entry: 1 file, 1 export, 1 dependency unused
`));

test('uses', () => shows('uses', 0, `Item  interface  item.ts:4:18: 5 uses in 3 files
  cart.ts:1:20   import            import { describe, Item } from "./item";
  cart.ts:6:30   reference (type)  export function total(items: Item[], round = true): Price {
  index.ts:3:15  re-export (type)  export type { Item } from "./item";
  item.ts:10:32  reference (type)  export function describe(item: Item): string {
  item.ts:14:29  reference (type)  export function shout(item: Item): string {
  function bodies aren't searched: --bodies searches them
`));

test('diff', () => shows('diff', 1, `minor  +  index.ts: Item#tags          property,type-only item.ts
         existing uses still work
major  ~  index.ts: Price              type-only: class cart.ts  ->  class,type-only price.ts
         it can't be used as a value any more
patch  ~  index.ts: Price              moved: class cart.ts  ->  class,type-only price.ts
         imports don't name its file
minor  ~  index.ts: Price constructor  signature: (readonly cents: number)  ->  (readonly cents: number, readonly isRound = false)
         the added parameters are optional
minor  +  index.ts: Price#isRound      parameter,type-only price.ts
         existing uses still work
major  -  index.ts: currency           const cart.ts
         existing uses break
minor  ~  index.ts: total              signature: (items: Item[]): Price  ->  (items: Item[], round = true): Price
         the added parameters are optional
major: 1 removed, 2 added, 4 changed
`));

test('cycles', () => shows('cycles', 1, `import cycles: 1
  2 modules
    cart.ts:1:1  import "./item"  item.ts
    item.ts:1:1  import "./cart"  cart.ts
    cut cart.ts:1:1 import "./item": breaks all of it
5 modules, 8 imports between them: 1 import cycle
`));

test('affected', () => shows('affected', 1, `1 file changed: item.ts
index.ts: 1 public name can change
  Item  interface  item.ts:4:18
answers on 4 modules can change:
  cart.ts    definitions
  index.ts   definitions
  item.ts    exports, definitions
  legacy.ts  definitions
`));

for (const command of ['api', 'leaks', 'missing']) {
  test(`${command}: the example of --watch`, async () => {
    const [, words] = /^ {2}symdir (.* --watch)$/m.exec(symdir([command, '--help']).stdout) ?? [];
    const folder = folderOf({});
    cpSync(path.join(TOP, 'examples'), path.join(folder, 'examples'), { recursive: true });
    const plain = words.split(' ').slice(0, -1);
    const { stdout } = symdir(plain, { cwd: folder });
    await watched(plain, async (watching) => {
      for (const line of stdout.trimEnd().split('\n')) assert.equal(await watching.line(), line);
      appendFileSync(path.join(folder, plain[1], 'index.ts'), 'export * from "./none";\n');
      assert.match(await watching.line() ?? '', /^index\.ts changed: the answer (differs|is the same)$/);
    }, { cwd: folder, json: false });
  });
}
