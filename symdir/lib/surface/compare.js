// What changed between two public surfaces, and what that means for a version.

/** @typedef {import('./surface.js').Item} Item */
/** @typedef {'major' | 'minor' | 'patch'} Advice */
/** @typedef {import('./changed.js')} Changed */

/**
 * A change, as `--json` writes it.
 * @typedef {object} Change
 * @property {'removed' | 'added' | 'kind' | 'type-only' | 'moved' | 'signature'} what
 * @property {string} entry
 * @property {string} name
 * @property {string | null} from what it was: kind and files, or the signature; null of what was added
 * @property {string | null} to
 * @property {Advice} advice
 * @property {string} reason
 */

const RANK = { patch: 0, minor: 1, major: 2 };

/** @param {Change[]} changes @returns {Advice | null} the highest; null where there are none */
export function adviceOf(changes) {
  return changes.reduce((/** @type {Advice | null} */ best, { advice }) => (best !== null && RANK[best] >= RANK[advice] ? best : advice), null);
}

/** @param {Item} it @returns {string} what it is, and where */
export function itemText({ kind, isType, files }) {
  return `${kind}${isType ? ',type-only' : ''} ${files.join(', ')}`;
}

/** @param {{ entry: string, name: string }} it @returns {string} */
function keyOf({ entry, name }) {
  return `${entry}\n${name}`;
}

/** @param {Item} it @returns {boolean} */
function isConstructor({ name }) {
  return name.endsWith(' constructor');
}

/** @param {string} name @returns {string[]} the names of what it is a member of, the nearest first */
function above(name) {
  const found = [];
  for (let at = name.length - 1; at > 0; at--) if (/[.#[ ]/.test(name[at])) found.push(name.slice(0, at));
  return found;
}

/** @param {{ entry: string, name: string }} it @param {Map<string, Item>} items @returns {Item | undefined} what it is a member of */
function ownerOf({ entry, name }, items) {
  return above(name).map((it) => items.get(keyOf({ entry, name: it }))).find((it) => it !== undefined);
}

/**
 * @param {Item} it
 * @param {Map<string, Item>} own all of its side
 * @param {Map<string, Item>} others
 * @returns {boolean} whether what it is a member of isn't among the others, either
 */
function isWithin(it, own, others) {
  const owner = ownerOf(it, own);
  return owner !== undefined && !others.has(keyOf(owner));
}

/** What a kind can be used as: a value, a type, a namespace. */
const MEANINGS = new Map([['class', 'vt'], ['enum', 'vt'], ['interface', 't'], ['type', 't'], ['namespace', 'vn'], ['?', '']]);

/** @param {Item} it @returns {Set<string>} */
function meanings({ kind, isType }) {
  const all = new Set(kind.split('+').flatMap((one) => [...(MEANINGS.get(one) ?? 'v')]));
  if (isType) all.delete('v');
  return all;
}

const MEANING = /** @type {Record<string, string>} */ ({ v: 'value', t: 'type', n: 'namespace' });
/** What only values of some kinds are good for, and those that may hold such a value. */
const ACTS = [{ of: 'function', lost: 'called' }, { of: 'class', lost: 'constructed' }];
const HOLDING = /^(const|let|var|using|default|export =)$/;

/** @param {Item} from @param {Item} to @returns {string | null} what it can't be any more, though it is a value still */
function lostAct(from, to) {
  const [before, now] = [from, to].map((it) => it.kind.split('+'));
  return ACTS.find(({ of }) => before.includes(of) && !now.some((it) => it === of || HOLDING.test(it)))?.lost ?? null;
}

/** A change among these is none for who imports them, or reads them. */
const ALIKE = [/^(const|let|var|using|function)$/, /^(property|parameter|accessor|getter\+setter|setter\+getter)$/];

/** @param {Item} from @param {Item} to @returns {[Advice, string]} */
function kindAdvice(from, to) {
  const [before, now] = [meanings(from), meanings(to)];
  const lost = [...before].find((it) => !now.has(it));
  if (lost) return ['major', `it can't be used as a ${MEANING[lost]} any more`];
  const act = lostAct(from, to);
  if (act) return ['major', `it can't be ${act} any more`];
  const came = [...now].find((it) => !before.has(it));
  if (came) return ['minor', `it can be used as a ${MEANING[came]} too`];
  if (ALIKE.some((it) => it.test(from.kind) && it.test(to.kind))) return ['patch', 'reads of it still work'];
  if (/^getter$/.test(to.kind) && !/^getter$/.test(from.kind)) return ['major', 'it can\'t be set any more'];
  if (from.kind === 'interface' && to.kind === 'type') return ['major', 'a type alias can\'t be merged with, and not each can be implemented'];
  return ['minor', 'existing uses still work, as far as kinds say'];
}

/** @param {Item} it that was added @param {Map<string, Item>} items @param {Changed | null} changed @returns {[Advice, string]} */
function additionAdvice(it, items, changed) {
  const owner = ownerOf(it, items);
  if (!owner) return ['minor', 'existing uses still work'];
  if (changed && isConstructor(it)) return changed.constructorAdvice(it, owner);
  if (/^(?:[a-z]+ )*abstract\b/.test(it.signature ?? '')) return ['major', 'subclasses lack the member'];
  const isOpen = /^(interface|type)$/.test(owner.kind) && !/^(readonly )?\?/.test(it.signature ?? '') && !/^(call|construct|index)$/.test(it.kind);
  return isOpen ? ['major', 'other implementations lack the member'] : ['minor', 'existing uses still work'];
}

/** @param {Item} from @param {Item} to @returns {boolean} whether both have a signature, and another */
function hasOtherSignature(from, to) {
  return from.signature !== null && to.signature !== null && from.signature !== to.signature && from.kind === to.kind;
}

/** @param {Item} from @param {Item} to @param {Changed | null} changed null where no signature changed @returns {Omit<Change, 'entry' | 'name'>[]} what is another of what stayed */
function changesOf(from, to, changed) {
  const texts = { from: itemText(from), to: itemText(to) };
  /** @type {Omit<Change, 'entry' | 'name'>[]} */
  const found = [];
  if (from.isType !== to.isType) {
    const [advice, reason] = kindAdvice(from, to);
    found.push({ what: 'type-only', ...texts, advice, reason });
  } else if (from.kind !== to.kind) {
    const [advice, reason] = kindAdvice(from, to);
    found.push({ what: 'kind', ...texts, advice, reason });
  }
  if (from.files.join() !== to.files.join()) found.push({ what: 'moved', ...texts, advice: 'patch', reason: 'imports don\'t name its file' });
  if (changed && hasOtherSignature(from, to)) {
    const [advice, reason] = changed.signatureAdvice(/** @type {string} */ (from.signature), /** @type {string} */ (to.signature), from.kind);
    found.push({ what: 'signature', from: from.signature, to: to.signature, advice, reason });
  }
  return found;
}

/** @param {Map<string, Item>} old @param {Map<string, Item>} fresh @returns {boolean} whether a signature is to be looked into, for which TypeScript is loaded */
function needsParser(old, fresh) {
  return [...fresh].some(([key, to]) => {
    const from = old.get(key);
    return from ? hasOtherSignature(from, to) : isConstructor(to);
  });
}

/**
 * Compares two surfaces. Members of what was added or removed aren't listed, and nor are moves of members.
 * @param {Item[]} before
 * @param {Item[]} now
 * @returns {Promise<Change[]>} in the order of entries and names
 */
export async function compared(before, now) {
  const [old, fresh] = [before, now].map((it) => new Map(it.map((item) => [keyOf(item), item])));
  const changed = needsParser(old, fresh) ? await import('./changed.js') : null;
  const gone = [...old.values()].filter((it) => !fresh.has(keyOf(it)) && !isWithin(it, old, fresh));
  const removed = gone.map((it) => /** @type {Change} */ ({
    what: 'removed', entry: it.entry, name: it.name, from: itemText(it), to: null, advice: 'major', reason: 'existing uses break' }));
  const added = [...fresh.values()].filter((it) => !old.has(keyOf(it)) && !isWithin(it, fresh, old)).map((it) => {
    const [advice, reason] = additionAdvice(it, fresh, changed);
    return { what: /** @type {const} */ ('added'), entry: it.entry, name: it.name, from: null, to: itemText(it), advice, reason };
  });
  const others = [...old.values()].flatMap((from) => {
    const to = fresh.get(keyOf(from));
    const all = to ? changesOf(from, to, changed) : [];
    const some = above(from.name).length > 0 ? all.filter((it) => it.what === 'kind' || it.what === 'signature') : all;
    return some.map(({ what, ...rest }) => ({ what, entry: from.entry, name: from.name, ...rest }));
  });
  const order = (/** @type {Change} */ it) => keyOf(it);
  return [...removed, ...added, ...others].sort((a, b) => (order(a) < order(b) ? -1 : order(a) > order(b) ? 1 : 0));
}
