// Where findings stand for whoever reads a report: below the current directory, which in CI is that of the repository.
import path from 'node:path';
import { pathToFileURL } from 'node:url';

import { withSlashes } from '../folder/files.js';

/** @param {string} folder absolute @param {string} file below it @returns {string} below the current directory; absolute where it is elsewhere */
export function pathOf(folder, file) {
  const whole = path.resolve(folder, file);
  const below = path.relative(process.cwd(), whole);
  return withSlashes(below.startsWith('..') || path.isAbsolute(below) ? whole : below);
}

/** @param {string} folder @param {string} file @returns {string} the same as a URI, or a reference relative to the current directory */
export function uriOf(folder, file) {
  const found = pathOf(folder, file);
  return path.isAbsolute(found) ? pathToFileURL(found).href : found.split('/').map(encodeURIComponent).join('/');
}
