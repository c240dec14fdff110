// Which specifiers a change of files touches: those under which a graph has something else afterwards.
import path from 'node:path';

import { Failure } from '../failure.js';
import { isFile, isFolder } from '../folder/files.js';
import { isCode } from '../language.js';
import { changedBetween, statesOf } from '../inputs/states.js';
import { sourcesBefore } from './before.js';

/** @typedef {import('../folder/sources.js').Sources} Sources */

/** Files that say what imports stand for. */
const CONFIG = /(^|\/)(package|deno|import_?map|[tj]sconfig[^/]*)\.jsonc?$/;

/** @param {string} file @returns {boolean} whether imports may stand for something else where it changes */
export function isConfig(file) {
  return CONFIG.test(file);
}

/** @param {Sources} sources @param {string} word as it is given, relative to the directory or to where the command runs @returns {string} absolute */
function fileOf(sources, word) {
  const places = [sources.folder, process.cwd()].map((it) => path.resolve(it, word));
  return places.find((it) => isFile(it)) ?? places[0];
}

/** @param {Sources} sources @param {string[]} files absolute, which aren't there any more @param {string} temporary @returns {Promise<Set<string>>} where a graph with them differs */
async function changedByLack(sources, files, temporary) {
  if (files.length === 0) return new Set();
  const before = await sourcesBefore(sources, new Map(files.map((it) => [it, Buffer.from('')])), temporary);
  return changedBetween(statesOf(before), statesOf(sources));
}

/**
 * @param {Sources} sources
 * @param {string[]} words files: one that is there counts as edited, another one as deleted
 * @param {string} temporary a folder
 * @param {(line: string) => void} warn is told of what no module rests on
 * @returns {Promise<{ files: string[], specifiers: Set<string> }>} the files as people read them, and what a change of them touches
 */
export async function changedByFiles(sources, words, temporary, warn) {
  const files = [...new Set(words.map((it) => fileOf(sources, it)))];
  const directory = files.find((it) => isFolder(it));
  if (directory !== undefined) throw new Failure(`${sources.files.below(directory) || '.'} is a directory: name the files in it that changed, or --since REV`, 2);
  const gone = files.filter((it) => !isFile(it));
  const specifiers = await changedByLack(sources, gone.filter((it) => isCode(it) || it.endsWith('.json')), temporary);
  for (const file of files) {
    const specifier = sources.specifierOf(file);
    if (sources.modules.has(specifier) || sources.external.has(specifier)) specifiers.add(specifier);
    // what each import stands for may change
    if (isConfig(file)) for (const it of sources.modules.keys()) specifiers.add(it);
  }
  for (const file of gone) {
    const leads = [...specifiers].some((it) => sources.modules.has(it));
    if (!leads) warn(`no such file, and no import would lead to it: ${sources.files.below(file)}`);
  }
  return { files: files.map((it) => sources.files.below(it)), specifiers };
}
