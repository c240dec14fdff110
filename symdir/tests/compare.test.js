// What a change means for a version, each rule by itself.
import assert from 'node:assert/strict';
import test from 'node:test';

import { adviceOf, compared } from '../lib/surface/compare.js';
import { overloadsOf, parametersOf } from '../lib/surface/parameters.js';
import { oneLine } from '../lib/surface/signature.js';
import { readSurface, surfaceText, withoutMembers } from '../lib/surface/text.js';

/** @typedef {import('../lib/surface/surface.js').Item} Item */

/** @param {string} name @param {string} kind @param {Partial<Item>} [more] @returns {Item} */
function item(name, kind, more = {}) {
  return { entry: 'index.ts', name, kind, isType: false, files: ['index.ts'], signature: '', ...more };
}

/** @param {Item[]} before @param {Item[]} now @returns {Promise<string[]>} */
async function told(before, now) {
  return (await compared(before, now)).map((it) => `${it.advice} ${it.what} ${it.name}: ${it.reason}`);
}

/** @param {string} from @param {string} to kinds @returns {Promise<string>} the advice */
async function byKind(from, to) {
  return (await compared([item('a', from)], [item('a', to)])).map((it) => `${it.advice} ${it.what}`).join();
}

test('a change of the kind: what can\'t be done any more, and what can be done too', async () => {
  const rows = {
    major: ['class interface', 'class const', 'class type', 'class enum', 'enum type', 'namespace class', 'namespace const', 'class+namespace class', 'interface const', 'const type', 'interface type', 'class ?', 'const ?', 'function ?', 'type ?', 'function+namespace function',
      'property getter', 'getter+setter getter', 'setter getter', 'function class', 'function enum', 'class function'],
    minor: ['interface class', 'type enum', 'const class', 'class class+namespace', 'function function+namespace', 'interface interface+const', '? class', '? const', 'type interface', 'enum class', 'getter property', 'getter getter+setter', 'const namespace', 'method getter+setter', 'method property'],
    patch: ['const let', 'let var', 'var function', 'function using', 'using const', 'property parameter', 'parameter accessor', 'accessor getter+setter', 'getter+setter setter+getter', 'setter+getter property'],
  };
  for (const [advice, pairs] of Object.entries(rows)) for (const it of pairs) assert.equal(await byKind(...(/** @type {[string, string]} */ (it.split(' ')))), `${advice} kind`, it);
});

test('the reasons of a change of the kind', async () => {
  const reason = async (/** @type {string} */ from, /** @type {string} */ to) => (await compared([item('a', from)], [item('a', to)]))[0].reason;
  assert.equal(await reason('class', 'interface'), 'it can\'t be used as a value any more');
  assert.equal(await reason('class', 'const'), 'it can\'t be used as a type any more');
  assert.equal(await reason('class', 'enum'), 'it can\'t be constructed any more');
  assert.equal(await reason('class+namespace', 'class'), 'it can\'t be used as a namespace any more');
  assert.equal(await reason('type', 'enum'), 'it can be used as a value too');
  assert.equal(await reason('const', 'let'), 'reads of it still work');
  assert.equal(await reason('property', 'getter'), 'it can\'t be set any more');
  assert.equal(await reason('interface', 'type'), 'a type alias can\'t be merged with, and not each can be implemented');
  assert.equal(await reason('type', 'interface'), 'existing uses still work, as far as kinds say');
});

test('a name that becomes a type alone, or is one no more', async () => {
  const [value, type] = [false, true].map((isType) => item('A', 'class', { isType }));
  assert.deepEqual(await told([value], [type]), ['major type-only A: it can\'t be used as a value any more']);
  assert.deepEqual(await told([type], [value]), ['minor type-only A: it can be used as a value too']);
  // of a kind that is another too, the first of them alone is told
  assert.deepEqual((await compared([value], [{ ...type, kind: 'interface' }])).map((it) => it.what), ['type-only']);
  assert.deepEqual(await told([item('I', 'interface')], [item('I', 'interface', { isType: true })]), ['minor type-only I: existing uses still work, as far as kinds say']);
});

test('what is added: a name, a member that others have to have, and one that they needn\'t', async () => {
  const added = async (/** @type {string} */ owner, /** @type {string} */ kind, /** @type {string} */ signature, name = 'A#m') => (
    (await told([item('A', owner)], [item('A', owner), item(name, kind, { signature })])).join());
  for (const owner of ['interface', 'type']) {
    for (const it of [': number', 'readonly : 1', '(): void']) assert.equal(await added(owner, 'property', it), 'major added A#m: other implementations lack the member', it);
    for (const it of ['?: number', 'readonly ?: 1', '?(): void']) assert.equal(await added(owner, 'property', it), 'minor added A#m: existing uses still work', it);
    for (const it of ['call', 'construct', 'index']) assert.equal(await added(owner, it, '(): 1', `A ${it}`), `minor added A ${it}: existing uses still work`);
  }
  assert.equal(await added('class', 'property', ': number'), 'minor added A#m: existing uses still work');
  assert.equal(await added('interface+class', 'property', ': number'), 'minor added A#m: existing uses still work');
  assert.equal(await added('class', 'method', 'abstract (): void'), 'major added A#m: subclasses lack the member');
  assert.equal(await added('class', 'property', 'abstractly'), 'minor added A#m: existing uses still work');
  assert.equal(await added('namespace', 'const', '', 'A.b'), 'minor added A.b: existing uses still work');
});

test('a changed signature, by each of its rules', async () => {
  const changed = async (/** @type {string} */ from, /** @type {string} */ to, kind = 'function') => (await told([item('f', kind, { signature: from })], [item('f', kind, { signature: to })])).map((it) => it.replace(' signature f', '')).join();
  assert.equal(await changed('= 1', '= 2', 'member'), 'major: its value changed');
  assert.equal(await changed('', ': 1', 'const'), 'patch: its type is written out, and was inferred, which isn\'t compared');
  assert.equal(await changed(': 1', '', 'const'), 'patch: its type is no more written out, but inferred, which isn\'t compared');
  assert.equal(await changed('(a: 1): 1', '(a: 1): 1 & (a: 2): 2'), 'minor: an overload was added');
  assert.equal(await changed('(a: 1): 1', '(a: 1): 1 & (a: A & B): 2'), 'minor: an overload was added');
  assert.equal(await changed('(a: { b: A & B }): 1', '(a: { b: A & B }): 1 & (a: C<A & B>): 2'), 'minor: an overload was added');
  assert.equal(await changed('(a: 1): 1 & (a: 2): 2', '(a: 2): 2'), 'major: its types changed');
  assert.equal(await changed('(a: 1): 1', '(b: 1): 1'), 'patch: parameters were renamed');
  assert.equal(await changed('(a: 1): 1', '(): 1'), 'major: its types changed');
  assert.equal(await changed('(a: 1): 1', '(a?: 1): 1'), 'major: its types changed');
  assert.equal(await changed('<T>(a: 1): 1', '(a: 1): 1'), 'major: its types changed');
  assert.equal(await changed('(a: 1): 1', '(a: 1): 2'), 'major: its types changed');
  for (const it of ['b?: 2', 'b = 2', '...b: 2[]', '{ b } = {}', '[b]: [1] = [1]', 'b: () => void = c', 'b?']) assert.equal(await changed('(a: 1): 1', `(a: 1, ${it}): 1`), 'minor: the added parameters are optional', it);
  for (const it of ['b: 2', 'b', '{ b }: { b: 2 }', 'b: () => void', 'b: { c?: 1 }', '{ b = 1 }: X']) assert.equal(await changed('(a: 1): 1', `(a: 1, ${it}): 1`), 'major: a required parameter was added', it);
  assert.equal(await changed('(): 1', '(a?: 1, b: 2): 1'), 'major: a required parameter was added');
  // of a name of another kind, and of one whose signature isn't known, signatures aren't compared
  assert.deepEqual((await compared([item('f', 'const', { signature: ': 1' })], [item('f', 'let', { signature: ': 2' })])).map((it) => it.what), ['kind']);
  assert.deepEqual(await compared([item('f', 'const', { signature: null })], [item('f', 'const', { signature: ': 2' })]), []);
});

test('members of what went or came, and moves of members, aren\'t told', async () => {
  const files = ['b.ts'];
  assert.deepEqual(await told([item('A', 'class'), item('A#b', 'method'), item('A#b.c', 'property')], []), ['major removed A: existing uses break']);
  assert.deepEqual(await told([], [item('A', 'interface'), item('A#b', 'method')]), ['minor added A: existing uses still work']);
  assert.deepEqual(await told([item('A', 'class'), item('A#b', 'method')], [item('A', 'class', { files }), item('A#b', 'method', { files })]), ['patch moved A: imports don\'t name its file']);
  assert.deepEqual(await told([item('A', 'class'), item('A#b', 'method')], [item('A', 'class')]), ['major removed A#b: existing uses break']);
  // names of two entries are two
  assert.deepEqual((await compared([item('A', 'class')], [item('A', 'class', { entry: 'other.ts' })])).map((it) => `${it.what} ${it.entry} ${it.from} ${it.to}`), ['removed index.ts class index.ts null', 'added other.ts null class index.ts']);
});

test('the highest advice', async () => {
  const of = (/** @type {string[]} */ ...all) => adviceOf(/** @type {any} */ (all.map((advice) => ({ advice }))));
  assert.deepEqual([of(), of('patch'), of('patch', 'minor'), of('minor', 'patch'), of('minor', 'major', 'patch'), of('major', 'minor')], [null, 'patch', 'minor', 'minor', 'major', 'major']);
});

test('snapshots: lines of any end, quotes, and what is no line', async () => {
  const items = [item('a', 'const', { signature: ': 1' }), item('A', 'class', { isType: true, files: ['a.ts', 'b.ts'] }), item('x y', 'const', { entry: 'my file.ts' }), item('A call', 'call', { signature: '(): 2' })];
  const text = surfaceText(items);
  const read = (/** @type {string} */ it) => readSurface(it, 's.txt');
  const sorted = [...items].sort((a, b) => (`${a.entry}${a.name}` < `${b.entry}${b.name}` ? -1 : 1));
  const back = [...read(text).items].sort((a, b) => (`${a.entry}${a.name}` < `${b.entry}${b.name}` ? -1 : 1));
  assert.deepEqual([back, read(text).isWhole], [sorted, true]);
  assert.deepEqual(read(text.replaceAll('\n', '\r\n')), read(text));
  assert.throws(() => read('# a\n\nindex.ts: a\n'), /^Error: s\.txt:3:1: not a line of a snapshot/);
  assert.deepEqual(withoutMembers(read(text).items).map((it) => it.name).sort(), ['A', 'a', 'x y']);
  // a name that only begins as another one is no member of it, and neither is one of another entry
  const alike = [item('a', 'namespace'), item('ab', 'const'), item('a.b', 'const'), item('a#c', 'method'), item('a[d]', 'property'), item('a call', 'call'), item('b', 'const'), item('a.e', 'const', { entry: 'other.ts' })];
  assert.deepEqual(withoutMembers(alike).map((it) => it.name), ['a', 'ab', 'b', 'a.e']);
});

test('a member comes and goes with what it is a member of, be that a member itself', async () => {
  const [n, A, m] = [item('n', 'namespace'), item('n.A', 'class'), item('n.A#m', 'method')];
  assert.deepEqual(await told([n, A, m], [n]), ['major removed n.A: existing uses break']);
  assert.deepEqual(await told([n], [n, A, m]), ['minor added n.A: existing uses still work']);
  assert.deepEqual(await told([n, A, m], [n, A]), ['major removed n.A#m: existing uses break']);
});

test('snapshots of names alone have no signatures, and each line says what is read of it', () => {
  const text = '# public names: entry, name, kind, files\nindex.ts: a const index.ts\nindex.ts: b class,type-only a.ts, b.ts\n"my file.ts": "x \\"y" ? \nindex.ts: f function f.ts  (a: 1):  2\n';
  assert.throws(() => readSurface(text, 's.txt'), /^Error: s\.txt:4:1: not a line of a snapshot, `ENTRY: NAME KIND FILES`; `--save s\.txt` rewrites it$/);
  for (const it of ['index.ts a', 'index.ts: a  a.ts', 'index.ts: a ,type-only a.ts', 'index.ts: a const ', ': a const a.ts']) {
    assert.throws(() => readSurface(`${it}\n`, 's.txt'), /^Error: s\.txt:1:1: not a line of a snapshot, `ENTRY: NAME KIND FILES`$/, it);
  }
  const { items, isWhole } = readSurface(text.replace('? \n', '? x.ts\n'), 's.txt');
  assert.deepEqual([isWhole, items], [false, [
    item('a', 'const', { signature: null }), item('b', 'class', { isType: true, files: ['a.ts', 'b.ts'], signature: null }),
    item('x "y', '?', { entry: 'my file.ts', files: ['x.ts'], signature: null }), item('f', 'function', { files: ['f.ts'], signature: null })]]);
  const whole = readSurface('# public names, and more\nindex.ts: f function f.ts  (a: 1):  2\nindex.ts: g function f.ts\n', 's.txt');
  assert.deepEqual([whole.isWhole, whole.items.map((it) => it.signature)], [true, ['(a: 1):  2', '']]);
});

test('texts in one line, and parameters between all sorts of brackets', async () => {
  assert.equal(oneLine('a /* b */ c // d\n e'), 'a c e');
  assert.equal(oneLine("'/* a */' + \"//b\" + `\\`  c`;"), "'/* a */' + \"//b\" + `\\`  c`");
  assert.equal(oneLine('f( a , b , ) ;, '), 'f(a, b)');
  assert.equal(oneLine('{ a: 1, b?: [ 1 , 2 , ] }'), '{ a: 1, b?: [1, 2] }');
  assert.deepEqual(parametersOf('<A = ">">(a: "(", b: Map<1, 2>, c = \'),\'): x'), {
    before: '<A = ">">', behind: ': x', params: [{ text: 'a: "("', type: ': "("', isOptional: false }, { text: 'b: Map<1, 2>', type: ': Map<1, 2>', isOptional: false }, { text: 'c = \'),\'', type: ' = \'),\'', isOptional: true }] });
  assert.deepEqual([parametersOf('(a'), parametersOf('<T'), parametersOf(''), parametersOf(': number')], [null, null, null, null]);
});

/** @param {string} text @returns {string[] | null} its parameters */
function parameters(text) {
  return parametersOf(text)?.params.map((it) => it.text) ?? null;
}

test('parameters that compare, divide, or have templates in their values', () => {
  assert.deepEqual(parameters('(a = 1 < 2, b = 3 > 2): void'), ['a = 1 < 2', 'b = 3 > 2']);
  assert.deepEqual(parameters('(a = c < d, b: X<1> = e > f)'), ['a = c < d', 'b: X<1> = e > f']);
  assert.deepEqual(parameters('(a = c<d, e>(f), b = 1)'), ['a = c<d, e>(f)', 'b = 1']);
  assert.deepEqual(parameters('(a = 1 << 2, b = 4 >> 1, c = 4 >>> 1, d = 1 >= 2)'), ['a = 1 << 2', 'b = 4 >> 1', 'c = 4 >>> 1', 'd = 1 >= 2']);
  assert.deepEqual(parameters('(a = /[,(<]/, b = 4 / 2 / 1)'), ['a = /[,(<]/', 'b = 4 / 2 / 1']);
  assert.deepEqual(parameters('(a = `${f(1, `,${2})`)}, (`, b: `${A},`)'), ['a = `${f(1, `,${2})`)}, (`', 'b: `${A},`']);
  assert.deepEqual(parameters('(a: "it\'s, (", { b, c }: { b: 1, c: 2 }, [d, e]: [1, 2], ...f: 1[])'), ['a: "it\'s, ("', '{ b, c }: { b: 1, c: 2 }', '[d, e]: [1, 2]', '...f: 1[]']);
});

test('a slash behind a value divides, whatever ends the value, and elsewhere it begins a regular expression', () => {
  for (const it of ['c', '"s"', '1', '1n', '/r/', '`t`', '`${1}`', 'this', 'true', 'false', 'null', 'c++', 'c--', '(1)', '[1]', '{}', 'c as D<E>']) {
    assert.deepEqual(parameters(`(a = ${it} / (2 / 1), b = 3)`), [`a = ${it} / (2 / 1)`, 'b = 3'], it);
  }
  for (const it of ['', '!', 'typeof ', '(1) + ', 'c ? 1 : ', '[], d = ']) assert.deepEqual(parameters(`(a = ${it}/[(]/)`)?.join(), `a = ${it}/[(]/`.replace(', d', ',d'), it);
});

test('parentheses around a type are no parameters', () => {
  for (const it of ['= (A)[]', '= (A | B)[]', ': ("a")[]', '= T extends U ? (A) : B']) assert.equal(parameters(it), null, it);
  for (const [text, wanted] of Object.entries({ ': (a) => 1': ['a'], '= new (a: 1) => 2': ['a: 1'], '= { b(a: 1): 2 }': ['a: 1'], 'static <T extends (b: 1) => 2>(a: T): 1': ['a: T'],
    '<T extends A<B>, U extends (b: 1) => 2>(a: T): 1': ['a: T'], '?(a): 1': ['a'], 'get (): 1': [] })) assert.deepEqual(parameters(text), wanted, text);
});

test('a signature that is nested too deep to be parsed counts as another one, and the next one is read as ever', async () => {
  const deep = `a: ${'['.repeat(100_000)}1${']'.repeat(100_000)}`;
  const signatures = (/** @type {string[]} */ ...all) => all.map((signature, i) => item(`f${i}`, 'function', { signature }));
  assert.deepEqual(await told(signatures(`(${deep})`, '(a: 1)'), signatures(`(${deep}, b?: 2)`, '(a: 1, b?: 2)')), ['major signature f0: its types changed', 'minor signature f1: the added parameters are optional']);
});

test('overloads, and intersections within them', () => {
  for (const all of [['(a: A): B & C'], ['(a: A): B & (C)', '(b: B)'], ['<T>(a: A & B): Map<A & B>', '(a: { b: A & B }, c: `${A & B}`): 1 & (2 | 3)', 'static (a?: 1)'], ['(a: A): B & ((c: C) => D)', '()'], ['= A & (B)'], [': A & B']]) {
    assert.deepEqual(overloadsOf(all.join(' & ')), all);
  }
});

test('what became of overloads, by the reason', async () => {
  const reason = async (/** @type {string} */ from, /** @type {string} */ to) => (await told([item('f', 'function', { signature: from })], [item('f', 'function', { signature: to })])).join();
  assert.equal(await reason('(a: 1): 1 & (a: 2): 2', '(a: 2): 2 & (a: 1): 1'), 'major signature f: its overloads are in another order, and the first that fits counts');
  assert.equal(await reason('(a: 1): 1', '(a: 1): 1 & (a: 2): 2'), 'minor signature f: an overload was added');
  assert.equal(await reason('(a: 1): 1 & (a: 2): 2', '(a: 1): 1'), 'major signature f: its types changed');
});

test('a class, an enum or a member that has a word more or less, or another heritage', async () => {
  const changed = async (/** @type {string} */ kind, /** @type {string} */ from, /** @type {string} */ to, name = 'A') => (await told([item(name, kind, { signature: from })], [item(name, kind, { signature: to })])).map((it) => it.replace(` signature ${name}`, '')).join();
  for (const more of ['', ' <T> extends B<T> implements C']) {
    const [is, isNot] = [`abstract${more}`, more.trim()];
    assert.equal(await changed('class', isNot, is), 'major: it can\'t be constructed any more');
    assert.equal(await changed('class', is, isNot), 'minor: it can be constructed too');
  }
  assert.equal(await changed('class+interface', '<T> & <T>', '<T> & abstract <T>'), 'major: it can\'t be constructed any more');
  assert.equal(await changed('class', 'abstract extends B', 'extends C'), 'major: its types changed');
  // the word is the type's there, and not the member's
  assert.equal(await changed('property', ': abstract new () => B', ': new () => B', 'A#a'), 'major: its types changed');
  for (const [from, to] of [['', 'extends B'], ['extends B', ''], ['', '<T>'], ['<T>', '<T extends B>'], ['<T>', '<T = B>'], ['extends B', 'extends B<C>']]) assert.equal(await changed('class', from, to), 'major: its types changed', `${from}; ${to}`);
  for (const [from, to] of [['', 'extends B'], ['extends B', ''], ['', '<T>'], ['<T>', '']]) assert.equal(await changed('interface', from, to), 'major: its types changed', `${from}; ${to}`);
  for (const [from, to] of [['', 'implements B'], ['extends B implements C', 'extends B'], ['<T extends { implements: 1 }> implements B', '<T extends { implements: 1 }> implements C, D']]) assert.equal(await changed('class', from, to), 'patch: what it implements gives it no members', `${from}; ${to}`);
  assert.equal(await changed('enum', '', 'const'), 'major: no object stands for it at run time');
  assert.equal(await changed('enum', 'const', ''), 'minor: an object stands for it at run time too');
  assert.equal(await changed('method', '(): 1', 'abstract (): 1', 'A#m'), 'major: subclasses lack the member');
  assert.equal(await changed('property', 'protected abstract readonly : 1', 'protected readonly : 1', 'A#m'), 'minor: subclasses needn\'t have the member any more');
  assert.equal(await changed('property', ': new () => 1', ': abstract new () => 1', 'A#m'), 'major: its types changed');
});

test('a constructor that a class is given: who constructs it without values may go on, or not', async () => {
  const added = async (/** @type {string} */ signature, heritage = '') => (await told([item('A', 'class', { signature: heritage })], [item('A', 'class', { signature: heritage }), item('A constructor', 'constructor', { signature })])).map((it) => it.replace(' added A constructor', '')).join();
  for (const it of ['()', '(a?: 1, b = 2, ...c: 3[])', '(a: 1) & ()', '(a: 1) & (a?: 1)']) assert.equal(await added(it), 'minor: existing uses still work', it);
  for (const it of ['(a: 1)', '(a: 1) & (a: 2)']) assert.equal(await added(it), 'major: a required parameter was added', it);
  assert.equal(await added('(a: 1)', 'extends B'), 'major: the one that was inherited may have had other parameters');
  for (const it of ['private ()', 'protected (a?: 1)']) assert.equal(await added(it), 'major: it can\'t be constructed any more', it);
});
