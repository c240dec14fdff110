// Options from a configuration file of the directory: symdir.json, or else "symdir" in package.json. The command line goes before them.
import { readFileSync } from 'node:fs';
import { createRequire } from 'node:module';
import path from 'node:path';

import { Failure, fileFailure } from './failure.js';
import { parsed } from './folder/configs.js';
import { isFile } from './folder/files.js';
import { pathOf } from './report/places.js';
import { findTypeScript } from './typescript.js';

/** @typedef {import('node:util').ParseArgsConfig['options']} Options */
/** @typedef {Record<string, { options: NonNullable<Options>, apart?: string[][] }>} Commands */

/** @typedef {{ folder: string, file: string, text: string, below: string[] }} Source the file, below the folder, and the key of its options */

/** What runs programs or writes files is told on the command line alone: a directory may be anybody's. */
const COMMAND_LINE = new Set(['help', 'config', 'no-config', 'symq', 'unproved', 'out', 'save', 'save-baseline', 'watch', 'since']);
/** These name files below the directory. */
const FILES = new Set(['baseline', 'check']);

/** A fault, with the keys that lead to it and whether it is about the last key itself. */
class Fault {
  /** @param {string[]} keys @param {string} text @param {boolean} [isKey] */
  constructor(keys, text, isKey = false) {
    this.keys = keys;
    this.text = text;
    this.isKey = isKey;
  }
}

/** @param {Source} source @returns {{ ts: typeof import('typescript'), tree: import('typescript').JsonSourceFile }} */
function treeOf({ folder, file, text }) {
  const whole = path.join(folder, file);
  /** @type {typeof import('typescript')} */
  const ts = createRequire(import.meta.url)(findTypeScript(folder).file);
  return { ts, tree: ts.parseJsonText(whole, text) };
}

/** @param {Source} source @param {Fault} fault @returns {number} where it is in the text */
function offsetOf(source, { keys, isKey }) {
  const { ts, tree } = treeOf(source);
  /** @type {import('typescript').Node | undefined} */
  let at = tree.statements[0]?.expression;
  let name = at;
  for (const key of [...source.below, ...keys]) {
    if (!at || !ts.isObjectLiteralExpression(at)) break;
    /** @type {import('typescript').ObjectLiteralElementLike | undefined} */
    const property = [...at.properties].reverse().find((it) => it.name && ts.isStringLiteral(it.name) && it.name.text === key);
    if (!property || !ts.isPropertyAssignment(property)) break;
    [name, at] = [property.name, property.initializer];
  }
  return (isKey ? name : at)?.getStart(tree) ?? 0;
}

/** @param {Source} source @param {number} offset @param {string} text @returns {Failure} */
function failureAt({ file, text: all }, offset, text) {
  const before = all.slice(0, offset).split('\n');
  return new Failure(`${file}:${before.length}:${before[before.length - 1].length + 1}: ${text}`, 2);
}

/** @param {string} folder @param {string} name @returns {string | null} null where it isn't there, or can't be read */
function textIn(folder, name) {
  const file = path.join(folder, name);
  try {
    return isFile(file) ? readFileSync(file, 'utf8').replace(/^\ufeff/, '') : null;
  } catch (error) {
    // of a package.json the run reports that
    if (name === 'symdir.json') throw fileFailure(file, 'read', error);
    return null;
  }
}

/** @param {string} folder @returns {{ source: Source, value: any } | null} */
function found(folder) {
  const own = textIn(folder, 'symdir.json');
  if (own !== null) {
    const { value, fault } = parsed(own, path.join(folder, 'symdir.json'));
    if (fault) throw new Failure(`symdir.json:${fault.line}:${fault.column}: ${fault.text}`, 2);
    return { source: { folder, file: 'symdir.json', text: own, below: [] }, value };
  }
  const text = textIn(folder, 'package.json');
  if (!text?.includes('"symdir"')) return null;
  // a fault is a finding of the run; the text may stand elsewhere, as the name of a package
  const value = parsed(text, path.join(folder, 'package.json')).value?.symdir;
  return value === undefined ? null : { source: { folder, file: 'package.json', text, below: ['symdir'] }, value };
}

/** @param {any} value @returns {value is Record<string, unknown>} */
function isObject(value) {
  return typeof value === 'object' && value !== null && !Array.isArray(value);
}

/** @param {string} text @returns {string | null} why it is no pattern */
function patternFault(text) {
  try {
    return void new RegExp(text) ?? null;
  } catch (error) {
    return /** @type {Error} */ (error).message;
  }
}

/** @param {NonNullable<Options>[string]} option @param {unknown} value @returns {string | null} what it has to be */
function typeFault({ type, multiple }, value) {
  if (type === 'boolean') return typeof value === 'boolean' ? null : 'expected true or false';
  if (!multiple) return typeof value === 'string' ? null : 'expected a string';
  return typeof value === 'string' || (Array.isArray(value) && value.every((it) => typeof it === 'string')) ? null : 'expected a string or a list of strings';
}

/** @param {string[]} keys @param {NonNullable<Options>} options of all commands, or of the one that the keys begin with @param {unknown} value */
function checkOption(keys, options, value) {
  const name = keys[keys.length - 1];
  if (COMMAND_LINE.has(name)) throw new Fault(keys, `${name} can be set on the command line only`, true);
  if (name === 'check' && keys[0] !== 'api') throw new Fault(keys, 'check can be set in "api" only', true);
  if (!Object.hasOwn(options, name)) throw new Fault(keys, `unknown option ${keys.length > 1 ? `${name} of ${keys[0]}` : name}`, true);
  const fault = typeFault(options[name], value);
  if (fault) throw new Fault(keys, `${name}: ${fault}`);
  const patterns = name === 'skip' ? /** @type {string[]} */ ([value].flat()) : [];
  const wrong = patterns.map(patternFault).find((it) => it !== null);
  if (wrong) throw new Fault(keys, `skip: ${wrong}`);
}

/** @param {string[]} above @param {any} value @param {NonNullable<Options>} options @param {string[][]} apart */
function checkOptions(above, value, options, apart) {
  for (const [name, one] of Object.entries(value)) checkOption([...above, name], options, one);
  const pair = apart.find((it) => it.every((name) => value[name] !== undefined && value[name] !== false));
  if (pair) throw new Fault([...above, pair[1]], `${pair.join(' and ')} can't be combined`, true);
}

/** @param {any} value @param {Commands} commands @throws {Fault} */
function check(value, commands) {
  if (!isObject(value)) throw new Fault([], 'expected an object with options');
  const all = Object.assign({}, ...Object.values(commands).map((it) => it.options));
  const own = Object.entries(value).filter(([name]) => !Object.hasOwn(commands, name));
  checkOptions([], Object.fromEntries(own), all, Object.values(commands).flatMap((it) => it.apart ?? []));
  for (const [name, { options, apart = [] }] of Object.entries(commands)) {
    if (!Object.hasOwn(value, name)) continue;
    if (!isObject(value[name])) throw new Fault([name], `${name}: expected an object with options of the command`);
    checkOptions([name], value[name], options, apart);
  }
}

/** @param {string} folder @param {Record<string, unknown>} own @returns {Record<string, any>} as the command line gives them */
function asGiven(folder, own) {
  return Object.fromEntries(Object.entries(own).map(([name, value]) => {
    if (name === 'skip' || name === 'entry') return [name, [value].flat()];
    return [name, FILES.has(name) ? pathOf(folder, /** @type {string} */ (value)) : value];
  }));
}

/** @param {Record<string, any>} low @param {Record<string, any>} high @param {string[][]} apart @returns {Record<string, any>} both; of two that can't be combined the high one */
function over(low, high, apart) {
  const isBeaten = (/** @type {string} */ key) => apart.some((pair) => pair.includes(key) && pair.some((other) => other !== key && high[other]));
  return { ...Object.fromEntries(Object.entries(low).filter(([key]) => !isBeaten(key))), ...high };
}

/**
 * Adds the options of the directory's configuration file.
 * @param {string} name of the command
 * @param {Commands} commands
 * @param {string} folder
 * @param {Record<string, any>} options of the command line
 * @returns {Record<string, any>}
 * @throws {Failure} with the place of what is wrong in the file
 */
export function configured(name, commands, folder, options) {
  const config = found(folder);
  if (!config) return options;
  try {
    check(config.value, commands);
  } catch (error) {
    if (!(error instanceof Fault)) throw error;
    throw failureAt(config.source, offsetOf(config.source, error), error.text);
  }
  const { options: known, apart = [] } = commands[name];
  const shared = Object.fromEntries(Object.entries(config.value).filter(([key]) => Object.hasOwn(known, key)));
  return over(over(asGiven(folder, shared), asGiven(folder, config.value[name] ?? {}), apart), options, apart);
}
