// The build without proofs is made once for each state of its sources. A command in place of the kit's runs a program that is there.
import assert from 'node:assert/strict';
import { spawnSync } from 'node:child_process';
import { appendFileSync, cpSync, existsSync, mkdirSync, readFileSync, readdirSync, statSync, symlinkSync, utimesSync, writeFileSync } from 'node:fs';
import path from 'node:path';
import test from 'node:test';
import { fileURLToPath } from 'node:url';

import { findSymq } from '../lib/program.js';
import { folderOf, program, symdir } from './helper.js';

const TOP = fileURLToPath(new URL('../../', import.meta.url));
const BUILDING = 'making an unverified build of symq: once for these sources, in a minute or two\n';
const WITH_CHECKS = 'symq is not optimised and has memory checks, so it is far slower: ';
const UNSEEN = `${BUILDING}${WITH_CHECKS}no clang was seen\n`;

/** @param {string} body of `rt try`, in the shell @returns {Record<string, string>} an environment with it, and an empty cache */
function environment(body) {
  const rt = program({}, 'rt', `#!/bin/sh\n[ "$1" != version ] || { echo kit; exit 0; }\necho try >> "$XDG_CACHE_HOME/calls"\nfor last; do :; done\n${body}\n`);
  return { PATH: `${path.dirname(rt)}:${process.env.PATH}`, XDG_CACHE_HOME: folderOf({}) };
}

const SYMQ = path.resolve(findSymq(undefined));
const RUNS = `cp '${SYMQ}' "$TMPDIR/program"\n"$TMPDIR/program" "$last"`;
const FILES = { 'index.ts': 'export * from "./b.ts";\nexport * from "./c.ts";\n', 'b.ts': 'export const n = 1;\n', 'c.ts': 'export const n = 2;\n' };

test('the first run builds, and later ones take what is kept, by strict rules too', () => {
  const env = environment(RUNS);
  const folder = folderOf(FILES);
  const proved = symdir(['api', folder]);
  const first = symdir(['api', folder, '--unproved'], { env });
  assert.deepEqual(first, { ...proved, stderr: UNSEEN });
  const strict = symdir(['api', folder, '--unproved', '--strict'], { env });
  assert.deepEqual(strict, symdir(['api', folder, '--strict']));
  assert.match(strict.stdout, /n is re-exported via export \* from 2 modules/);
  assert.equal(readFileSync(path.join(env.XDG_CACHE_HOME, 'calls'), 'utf8'), 'try\n');
  const [kept] = readdirSync(path.join(env.XDG_CACHE_HOME, 'symdir')).filter((it) => it.startsWith('symq-'));
  assert.deepEqual(readFileSync(path.join(env.XDG_CACHE_HOME, 'symdir', kept)), readFileSync(SYMQ));
});

/**
 * @param {string} optimises of clang, in the shell
 * @param {string} linked the program that its linker makes
 * @returns {{ kit: string, env: Record<string, string> }} a kit whose clang is at work on a module in the first `rt try` alone
 */
function withClang(optimises, linked) {
  const kit = folderOf({});
  const words = '--target=here -x ir module.bc -o module.o -O0 -fsanitize=address';
  const env = environment(`mkdir "$TMPDIR/at"\ncd "$TMPDIR/at"\ntouch module.bc\n'${kit}/toolchain/bin/clang' ${words}\n${RUNS}`);
  const checks = '[ $(wc -l < "$XDG_CACHE_HOME/calls") -gt 1 ] || sleep 100';
  const texts = {
    'toolchain/bin/clang': `case "$*" in *=address) ${checks} ;; *) echo "$*" >> '${kit}/words'; ${optimises} ;; esac`,
    'bin/rattle-link': `echo "$*" >> '${kit}/words'\ncp '${linked}' program`,
  };
  for (const [name, text] of Object.entries(texts)) {
    mkdirSync(path.dirname(path.join(kit, name)), { recursive: true });
    writeFileSync(path.join(kit, name), `#!/bin/sh\n${text}\n`, { mode: 0o755 });
  }
  return { kit, env };
}

test('the module that clang compiles with checks is compiled optimised and without them', () => {
  const { kit, env } = withClang('touch module.o', SYMQ);
  const folder = folderOf(FILES);
  assert.deepEqual(symdir(['api', folder, '--unproved'], { env }), { ...symdir(['api', folder]), stderr: BUILDING });
  assert.equal(readFileSync(path.join(kit, 'words'), 'utf8'), '--target=here -x ir module.bc -o module.o -O1\n'
    + `--target here --toolchain ${kit}/toolchain -o program module.o ${kit}/c/libos_c.a ${kit}/c/liblibc_c.a\n`);
  assert.equal(readFileSync(path.join(env.XDG_CACHE_HOME, 'calls'), 'utf8'), 'try\n');
});

test('if that fails the program with checks is taken, and it is told', () => {
  const folder = folderOf(FILES);
  const proved = symdir(['api', folder]);
  for (const [optimises, linked, why] of [
    ['echo no such module >&2; exit 1', SYMQ, 'no such module'], ['touch module.o', '/bin/false', 'it ends with the status 1']]) {
    const { env } = withClang(optimises, linked);
    assert.deepEqual(symdir(['api', folder, '--unproved'], { env }), { ...proved, stderr: `${BUILDING}${WITH_CHECKS}${why}\n` });
    assert.equal(readFileSync(path.join(env.XDG_CACHE_HOME, 'calls'), 'utf8'), 'try\ntry\n');
  }
});

/** @param {Record<string, string | undefined>} env @returns {Record<string, string | undefined>} it without what `make test` adds, below which `make` prints directories too */
function withoutMake(env) {
  return Object.fromEntries(Object.entries(env).filter(([name]) => !/^(GNU)?MAKE|^MFLAGS$/.test(name)));
}

test('the first block of README.md can be run as it stands', () => {
  const [, command, wanted] = /** @type {RegExpExecArray} */ (/```console\n\$ (make run .*)\n([^]*?)```/.exec(readFileSync(path.join(TOP, 'README.md'), 'utf8')));
  const [name, ...words] = command.split(' ');
  // these tests may run below another make
  const env = withoutMake({ ...process.env, MAKELEVEL: '1', MAKEFLAGS: ' -j2 --jobserver-auth=3,4', MFLAGS: '-j2', ...environment(RUNS) });
  const { status, stdout, stderr } = spawnSync(name, words, { cwd: TOP, encoding: 'utf8', env });
  assert.deepEqual([status, stdout], [0, wanted], stderr);
  assert.ok(stderr.startsWith(UNSEEN), stderr);
});

test('other sources are built anew, and what is taken counts as new', () => {
  const env = environment(RUNS);
  const copy = folderOf({});
  for (const it of ['tools/unproved_symq.py', 'crates.txt', 'crates/symq/src', 'crates/symq_core/src', 'crates/symq_core/specs']) cpSync(path.join(TOP, it), path.join(copy, it), { recursive: true });
  const run = () => {
    const { status, stdout, stderr } = spawnSync('python3', [path.join(copy, 'tools/unproved_symq.py')], { encoding: 'utf8', env: { ...process.env, ...env } });
    assert.equal(status, 0, stderr);
    return { file: stdout.trim(), isBuilt: stderr === UNSEEN };
  };
  const first = run();
  assert.ok(first.isBuilt);
  utimesSync(first.file, 1, 1);
  assert.deepEqual(run(), { file: first.file, isBuilt: false });
  assert.ok(statSync(first.file).mtimeMs > statSync(copy).mtimeMs);
  appendFileSync(path.join(copy, 'crates/symq_core/specs/Lib.antt'), '\n');
  const second = run();
  assert.ok(second.isBuilt && second.file !== first.file);
});

test('a build that fails is told, and nothing is kept', () => {
  const env = environment('echo "error: no such thing" >&2\nexit 2');
  const { status, stdout, stderr } = symdir(['api', folderOf(FILES), '--unproved'], { env });
  assert.deepEqual([status, stdout], [3, '']);
  assert.equal(stderr, `${BUILDING}error: no such thing\nsymq could not be built: rt try ended with the status 2\nsymdir: the unverified build of symq failed\n`);
  assert.deepEqual(readdirSync(path.join(env.XDG_CACHE_HOME, 'symdir')), []);
  const unwritable = symdir(['api', folderOf(FILES), '--unproved'], { env: { ...env, XDG_CACHE_HOME: '/dev/null/none' } });
  assert.deepEqual([unwritable.status, unwritable.stderr], [
    3, `${BUILDING}symq could not be stored in /dev/null/none/symdir: Not a directory\nsymdir: the unverified build of symq failed\n`]);
});

test('what the build needs and isn\'t there is told', () => {
  const bin = folderOf({});
  const said = () => {
    const { status, stdout, stderr } = symdir(['api', folderOf(FILES), '--unproved'], { env: { PATH: bin, XDG_CACHE_HOME: folderOf({}) } });
    assert.deepEqual([status, stdout], [3, '']);
    return stderr;
  };
  assert.match(said(), /^symdir: --unproved needs python3: [^\n]*ENOENT\n$/);
  symlinkSync(String(spawnSync('python3', ['-c', 'import sys; print(sys.executable)'], { encoding: 'utf8' }).stdout).trim(), path.join(bin, 'python3'));
  assert.equal(said(), 'the Rattle kit is needed: its command rt was not found\nsymdir: the unverified build of symq failed\n');
});

test('tools/unproved_symq.sh answers queries by it', () => {
  const env = environment(RUNS);
  const run = (/** @type {string[]} */ ...words) => spawnSync(path.join(TOP, 'tools/unproved_symq.sh'), words, {
    encoding: 'utf8', env: { ...process.env, ...env }, input: readFileSync(path.join(TOP, 'examples/first/queries')) });
  const graph = path.join(TOP, 'examples/first/graph.json');
  const { status, stdout, stderr } = run(graph);
  assert.deepEqual([status, stdout, stderr], [0, readFileSync(path.join(TOP, 'examples/first/lines'), 'utf8'), UNSEEN]);
  assert.deepEqual([run('--strict', graph).status, run().status, run('/none').status], [0, 2, 3]);
  assert.ok(existsSync(path.join(env.XDG_CACHE_HOME, 'symdir')));
});
