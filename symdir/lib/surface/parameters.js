// The parameters and the overloads of signatures, read by TypeScript's scanner and its parser.
import { K, ts } from '../tree/typescript.js';

/**
 * A parameter as it is written.
 * @typedef {object} Parameter
 * @property {string} text
 * @property {string} type all but its name; all of it where it is a pattern
 * @property {boolean} isOptional whether it can be left out
 */
/** @typedef {{ before: string, params: Parameter[], behind: string }} Parts of a signature */

const FUNCTION = 'function f';
/** What may stand before the type parameters and parameters of a member. */
const WORDS = /^(?:[a-z]+ )*\??$/;

/** @param {string} text @returns {import('typescript').SourceFile} */
function parsed(text) {
  return ts.createSourceFile('signature.ts', text, ts.ScriptTarget.Latest, false, ts.ScriptKind.TS);
}

/** @param {string} text @returns {import('typescript').Statement | null} the one statement that it is; null where it is none, has a fault, or is nested too deep for this thread */
function statementOf(text) {
  try {
    const file = parsed(text);
    const { parseDiagnostics: faults } = /** @type {any} */ (file);
    return faults.length === 0 && file.statements.length === 1 ? file.statements[0] : null;
  } catch (error) {
    if (!(error instanceof RangeError)) throw error;
    // what the parser noted of a text that it left halfway would stand for the next one
    parsed('');
    return null;
  }
}

/** @param {string} text of a signature without a name @returns {readonly import('typescript').ParameterDeclaration[] | null} those of a function with it; null where none has it */
function parsedParameters(text) {
  const found = statementOf(`${FUNCTION}${text};`);
  return found && ts.isFunctionDeclaration(found) && !found.body ? found.parameters : null;
}

/** @param {string} text @param {(kind: import('typescript').SyntaxKind, start: number, end: number) => boolean | void} each is told the tokens, until it returns true */
function scan(text, each) {
  const scanner = ts.createScanner(ts.ScriptTarget.Latest, true, ts.LanguageVariant.Standard, text);
  // from TypeScript 5 on, and before
  const { getTokenPos, getTextPos, getTokenStart = getTokenPos, getTokenEnd = getTextPos } = /** @type {any} */ (scanner);
  /** @type {boolean[]} for each brace that is open whether it is one of a template */
  const braces = [];
  for (let kind = scanner.scan(), last = kind; kind !== K.EndOfFileToken; last = kind, kind = scanner.scan()) {
    if ((kind === K.SlashToken || kind === K.SlashEqualsToken) && !OPERAND.has(last)) kind = scanner.reScanSlashToken();
    if (kind === K.TemplateHead || kind === K.OpenBraceToken) braces.push(kind === K.TemplateHead);
    else if (kind === K.CloseBraceToken && braces.pop()) {
      kind = scanner.reScanTemplateToken(false);
      if (kind === K.TemplateMiddle) braces.push(true);
    }
    if (each(kind, getTokenStart(), getTokenEnd())) return;
  }
}

/** Behind these a slash divides. */
const OPERAND = new Set([
  K.Identifier, K.StringLiteral, K.NumericLiteral, K.BigIntLiteral, K.RegularExpressionLiteral, K.NoSubstitutionTemplateLiteral, K.TemplateTail, K.ThisKeyword, K.SuperKeyword,
  K.TrueKeyword, K.FalseKeyword, K.NullKeyword, K.PlusPlusToken, K.MinusMinusToken, K.CloseParenToken, K.CloseBracketToken, K.CloseBraceToken, K.GreaterThanToken,
]);
const OPENING = new Set([K.OpenParenToken, K.OpenBracketToken, K.OpenBraceToken]);
const CLOSING = new Set([K.CloseParenToken, K.CloseBracketToken, K.CloseBraceToken]);

/** @param {string} text @returns {[number, number] | null} where its first parentheses begin and end that no type parameters hold */
function parentheses(text) {
  let [depth, angles, from] = [0, 0, -1];
  /** @type {[number, number] | null} */
  let found = null;
  scan(text, (kind, start, end) => {
    const isAtStart = depth === 0 && from < 0;
    if (isAtStart && kind === K.LessThanToken && (angles > 0 || WORDS.test(text.slice(0, start)))) angles++;
    else if (isAtStart && kind === K.GreaterThanToken && angles > 0) angles--;
    else if (from < 0 && angles === 0 && kind === K.OpenParenToken) [from, depth] = [start, 0];
    if (OPENING.has(kind)) depth++;
    else if (CLOSING.has(kind)) depth--;
    if (from >= 0 && depth === 0) found = [from, end];
    return found !== null;
  });
  return found;
}

/** @param {string} text of a function, in which a parameter stands @param {import('typescript').ParameterDeclaration} it @returns {Parameter} */
function parameter(text, { pos, end, name, dotDotDotToken, questionToken, initializer }) {
  const whole = text.slice(pos, end).trim();
  const type = ts.isIdentifier(name) && !dotDotDotToken ? text.slice(name.end, end) : whole;
  return { text: whole, type, isOptional: Boolean(dotDotDotToken ?? questionToken ?? initializer) };
}

/** @param {string} before what stands before parentheses @param {readonly import('typescript').ParameterDeclaration[]} list @param {string} behind @returns {boolean} whether they can't be those around a type or an expression */
function isList(before, [first, ...more], behind) {
  if (/^(?:[a-z]+ )*\??(?:<[^]*>)?$/.test(before) || /^ ?=>/.test(behind)) return true;
  return first === undefined || more.length > 0 || Boolean(first.type ?? first.initializer ?? first.dotDotDotToken ?? first.questionToken);
}

/** @param {string} text @returns {Parts | null} of a signature its first parameters; null where it has none */
export function parametersOf(text) {
  const range = parentheses(text);
  if (!range) return null;
  const [start, end] = range;
  const list = text.slice(start, end);
  const found = parsedParameters(list);
  const [before, behind] = [text.slice(0, start), text.slice(end)];
  if (!found || !isList(before, found, behind)) return null;
  return { before, params: found.map((it) => parameter(FUNCTION + list, it)), behind };
}

/** @param {string} text @returns {boolean} whether it is a signature of a function, and can't be a type in parentheses */
function isCalled(text) {
  const bare = text.replace(/^(?:[a-z]+ )*\??/, '');
  return /^[(<]/.test(bare) && parsedParameters(bare) !== null && statementOf(`type T = ${bare};`) === null;
}

/** @param {string} text @returns {string[]} what stands between each ` & ` of it that no brackets hold */
function intersected(text) {
  let [depth, angles, from] = [0, 0, 0];
  /** @type {string[]} */
  const found = [];
  scan(text, (kind, start, end) => {
    if (OPENING.has(kind)) depth++;
    else if (CLOSING.has(kind)) depth--;
    else if (depth === 0 && kind === K.LessThanToken) angles++;
    else if (depth === 0 && kind === K.GreaterThanToken) angles--;
    else if (depth === 0 && angles === 0 && kind === K.AmpersandToken) {
      found.push(text.slice(from, start).trim());
      from = end;
    }
  });
  return [...found, text.slice(from).trim()];
}

/** @param {string} text a signature @returns {string[]} those of overloads one by one; the ` & ` of an intersection stays within its signature */
export function overloadsOf(text) {
  const pieces = intersected(text);
  if (pieces.length === 1 || !isCalled(pieces[0])) return [text];
  /** @type {string[][]} */
  const found = [];
  for (const it of pieces) {
    if (found.length === 0 || isCalled(it)) found.push([it]);
    else found[found.length - 1].push(it);
  }
  return found.map((it) => it.join(' & '));
}

/** @param {string} text a signature of a class @returns {string} without what it implements, which gives it no types */
export function withoutImplements(text) {
  let [depth, at] = [0, -1];
  scan(text, (kind, start) => {
    if (OPENING.has(kind)) depth++;
    else if (CLOSING.has(kind)) depth--;
    else if (depth === 0 && kind === K.ImplementsKeyword) at = start;
    return at >= 0;
  });
  return at < 0 ? text : text.slice(0, at).trim();
}
