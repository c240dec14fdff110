// What another signature means for a version.
import { overloadsOf, parametersOf, withoutImplements } from './parameters.js';

/** @typedef {import('./compare.js').Advice} Advice */
/** @typedef {import('./surface.js').Item} Item */

/** @param {string} from @param {string} to signatures @returns {[Advice, string] | null} null where they aren't the same overloads, and more */
function overloadAdvice(from, to) {
  const [before, now] = [overloadsOf(from), overloadsOf(to)];
  if (now.length === 1 || !before.every((it) => now.includes(it))) return null;
  const stayed = now.filter((it) => before.includes(it));
  if (stayed.some((it, i) => it !== before[i])) return ['major', 'its overloads are in another order, and the first that fits counts'];
  return ['minor', 'an overload was added'];
}

/** @param {string} from @param {string} to signatures @returns {[Advice, string]} */
function typesAdvice(from, to) {
  const overloads = overloadAdvice(from, to);
  if (overloads) return overloads;
  const [a, b] = [parametersOf(from), parametersOf(to)];
  const isSame = a && b && a.before === b.before && a.behind === b.behind && a.params.length <= b.params.length
    && a.params.every((it, i) => it.type === b.params[i].type);
  if (!isSame) return ['major', 'its types changed'];
  const added = b.params.slice(a.params.length);
  if (added.length === 0) return ['patch', 'parameters were renamed'];
  if (added.every((it) => it.isOptional)) return ['minor', 'the added parameters are optional'];
  return ['major', 'a required parameter was added'];
}

/** A word before a signature, with what it means that it came or went. */
const WORDS = [
  { of: /\bclass\b/, word: /(^|& )abstract\b ?/, came: 'it can\'t be constructed any more', went: 'it can be constructed too' },
  { of: /^enum$/, word: /^()const\b/, came: 'no object stands for it at run time', went: 'an object stands for it at run time too' },
  { of: /^(?:method|property|accessor|getter|setter|getter\+setter|setter\+getter)$/, word: /^((?:[a-z]+ )*)abstract /, came: 'subclasses lack the member', went: 'subclasses needn\'t have the member any more' },
];
/** Nothing of these is inferred: what isn't written isn't there. */
const WHOLE = /^(?:(?:class|interface|enum|namespace)(?:\+|$))+$/;

/** @param {string} kind @param {string} from @param {string} to signatures @returns {[Advice, string] | null} of a word that came, or that alone went */
function wordAdvice(kind, from, to) {
  for (const { of, word, came, went } of WORDS) {
    if (!of.test(kind)) continue;
    const [before, now] = [from, to].map((it) => it.replace(word, '$1'));
    const [had, has] = [before !== from, now !== to];
    if (has && !had) return ['major', came];
    if (had && !has && before === now) return ['minor', went];
  }
  return null;
}

/** @param {string} from @param {string} to signatures @param {string} kind @returns {[Advice, string]} */
export function signatureAdvice(from, to, kind) {
  if (kind === 'member') return ['major', 'its value changed'];
  const word = wordAdvice(kind, from, to);
  if (word) return word;
  if (kind === 'class' && withoutImplements(from) === withoutImplements(to)) return ['patch', 'what it implements gives it no members'];
  if (!WHOLE.test(kind) && (from === '' || to === '')) return ['patch', `its type is ${from === '' ? 'written out, and was' : 'no more written out, but'} inferred, which isn't compared`];
  return typesAdvice(from, to);
}

/** @param {Item} it a constructor @returns {boolean} whether others than the class and its subclasses may call it */
function isPublic({ signature }) {
  return !/^(?:private|protected)\b/.test(signature ?? '');
}

/** @param {Item} it a constructor that was added @param {Item} owner its class, which had none @returns {[Advice, string]} */
export function constructorAdvice(it, owner) {
  if (!isPublic(it)) return ['major', 'it can\'t be constructed any more'];
  const isFree = overloadsOf(it.signature ?? '').some((one) => parametersOf(one)?.params.every((param) => param.isOptional));
  if (isFree) return ['minor', 'existing uses still work'];
  const isInherited = /\bextends\b/.test(owner.signature ?? '');
  return ['major', isInherited ? 'the one that was inherited may have had other parameters' : 'a required parameter was added'];
}
