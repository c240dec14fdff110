// A folder among the system's temporary ones, which goes with the process however that ends.
import { mkdtempSync, rmSync } from 'node:fs';
import os from 'node:os';
import path from 'node:path';

import { fileFailure } from '../failure.js';

/** @type {NodeJS.Signals[]} */
const SIGNALS = ['SIGINT', 'SIGTERM', 'SIGHUP'];
/** @type {Set<Temporary>} those that are there */
const all = new Set();

/** @returns {string} */
function made() {
  try {
    return mkdtempSync(path.join(os.tmpdir(), 'symdir-'));
  } catch (error) {
    throw fileFailure(os.tmpdir(), 'written', error);
  }
}

function removeAll() {
  for (const it of all) it.close();
}

/** @param {NodeJS.Signals} signal which ends the process as it would without this; where others listen, they decide */
function leave(signal) {
  if (process.listenerCount(signal) > 1) return;
  removeAll();
  process.kill(process.pid, signal);
}

export class Temporary {
  constructor() {
    // a signal waits from here on until this is done
    if (all.size === 0) for (const it of SIGNALS) process.on(it, leave);
    if (all.size === 0) process.on('exit', removeAll);
    all.add(this);
    this.path = '';
    try {
      this.path = made();
    } catch (error) {
      this.close();
      throw error;
    }
  }

  close() {
    all.delete(this);
    if (all.size === 0) for (const it of SIGNALS) process.off(it, leave);
    if (all.size === 0) process.off('exit', removeAll);
    if (this.path !== '') rmSync(this.path, { recursive: true, force: true });
  }
}
