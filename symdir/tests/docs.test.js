// What the docs show is what happens.
import assert from 'node:assert/strict';
import { spawnSync } from 'node:child_process';
import { readFileSync } from 'node:fs';
import path from 'node:path';
import test from 'node:test';
import { fileURLToPath } from 'node:url';

import { findSymq } from '../lib/program.js';
import { folderOf, symdir } from './helper.js';

const TOP = fileURLToPath(new URL('../../', import.meta.url));
const read = (/** @type {string} */ name) => readFileSync(path.join(TOP, name), 'utf8');

/** @param {string} text @param {string} language @returns {string[]} its blocks */
function blocks(text, language) {
  return text.split(`\`\`\`${language}\n`).slice(1).map((it) => it.split('\n```')[0]);
}

/** @param {string} folder @param {string[]} queries @returns {string[]} the answers to them on the graph of the folder */
function answers(folder, queries) {
  const graph = path.join(folderOf({}), 'graph.json');
  symdir(['graph', path.join(TOP, folder), '-o', graph]);
  const { stdout } = spawnSync(findSymq(undefined), [graph], { input: `${queries.join('\n')}\n`, encoding: 'utf8' });
  return stdout.trim().split('\n');
}

test('docs/QUERIES.md: the example is examples/shapes', () => {
  const [example] = blocks(read('docs/QUERIES.md'), 'ts');
  const files = example.split(/^\/\/ (\S+)\n/m).slice(1);
  for (let i = 0; i < files.length; i += 2) assert.equal(files[i + 1].trim(), read(`examples/shapes/${files[i]}`).trim());
  assert.equal(files.length, 4);
});

test('docs/QUERIES.md: each query has the answer that is shown', () => {
  const lines = blocks(read('docs/QUERIES.md'), 'console').flatMap((it) => it.split('\n'));
  const queries = lines.filter((_, i) => i % 2 === 0);
  assert.ok(queries.length > 15);
  assert.deepEqual(answers('examples/shapes', queries), lines.filter((_, i) => i % 2 === 1));
});

test('examples/first: its lines are the answers to its queries', () => {
  assert.deepEqual(answers('examples/first', read('examples/first/queries').trim().split('\n')), read('examples/first/lines').trim().split('\n'));
});

test('README.md: what symdir prints', () => {
  for (const block of blocks(read('README.md'), 'console')) {
    for (const part of block.split(/^\$ /m).slice(1)) {
      const [command, ...output] = part.trimEnd().split('\n');
      const made = /^make run FOLDER=(\S+)$/.exec(command);
      // what `make run` would do: the program that answers is another one here
      if (made) assert.match(spawnSync('make', ['-n', 'run', `FOLDER=${made[1]}`], { cwd: TOP, encoding: 'utf8' }).stdout, new RegExp(`^node symdir/bin/symdir\\.js api --unproved ${made[1]} `, 'm'));
      const words = made ? ['api', made[1]] : /^symdir (.*)$/.exec(command)?.[1].split(' ');
      if (words) assert.equal(symdir(words, { cwd: TOP }).stdout.trimEnd(), output.join('\n'));
    }
  }
});
