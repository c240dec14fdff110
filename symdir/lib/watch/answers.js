// Answers of symq that stay while sources change: those whose inputs are what they were. Others are asked again, on a graph of the modules
// that they may rest on alone, and symq's `inputs` say whether these are all.
import { rmSync } from 'node:fs';
import path from 'node:path';

import { piecesOf } from '../folder/graph.js';
import { askInputs, keyOf, moduleOf } from '../inputs/inputs.js';
import { partOf, reachedFrom } from '../inputs/part.js';
import { changedBetween, statesOf } from '../inputs/states.js';
import { Symq } from '../symq.js';
import { replaceFile } from '../write.js';

/** @typedef {import('../folder/sources.js').Sources} Sources */
/** @typedef {import('../inputs/inputs.js').Input} Input */

/**
 * Answers of one key: they have the same inputs.
 * @typedef {object} Group
 * @property {unknown[]} query one of them
 * @property {Map<string, any>} answers by the lines that ask for them
 * @property {string[] | null} inputs specifiers; null where they aren't known
 */

export class Answers {
  /** @param {string} program symq @param {string} folder where graphs are written */
  constructor(program, folder) {
    this.program = program;
    this.graph = path.join(folder, 'graph.json');
    /** @type {Map<string, Group>} */
    this.groups = new Map();
    /** @type {Map<string, string>} what the graph that the answers are of has under each specifier */
    this.states = new Map();
    /** @type {Set<string>} the keys that are asked since the graph changed */
    this.fresh = new Set();
    /** @type {Set<string>} modules whose answers are asked again, it may be */
    this.wanted = new Set();
    /** @type {Sources | null} */
    this.sources = null;
    /** @type {Symq | null} on a part of the graph */
    this.symq = null;
    /** @type {Set<string>} the specifiers of that part */
    this.part = new Set();
  }

  /**
   * Takes over what was answered on the graph of the sources.
   * @param {Sources} sources
   * @param {Symq} symq which was asked
   */
  async adopt(sources, symq) {
    this.states = statesOf(sources);
    for (const [line, answer] of symq.known) this.add(JSON.parse(line), line, answer);
    await this.learn(symq);
  }

  /** @param {any[]} query @param {string} line @param {any} answer */
  add(query, line, answer) {
    const key = keyOf(query);
    let group = this.groups.get(key);
    if (!group) {
      this.groups.set(key, (group = { query, answers: new Map(), inputs: null }));
      this.fresh.add(key);
    }
    group.answers.set(line, answer);
  }

  /** @param {Symq} symq which has answered @returns {Promise<boolean>} whether the graph that it has is the whole one as far as its answers rest on it */
  async learn(symq) {
    const queries = new Map([...this.fresh].map((it) => [it, /** @type {Group} */ (this.groups.get(it)).query]));
    const found = await askInputs(symq, queries);
    for (const [key, inputs] of found) /** @type {Group} */ (this.groups.get(key)).inputs = inputs?.map((it) => it.specifier) ?? null;
    this.fresh.clear();
    return [...found.values()].every((inputs) => inputs?.every((it) => (it.found === 'absent') === !this.states.has(it.specifier)) ?? false);
  }

  /** @param {Sources} sources that are there now @returns {Set<string>} the specifiers under which something changed */
  turnTo(sources) {
    const states = statesOf(sources);
    const changed = changedBetween(this.states, states);
    // what was asked and not checked has no inputs, and goes
    this.fresh.clear();
    this.wanted = new Set([...changed]);
    for (const [key, { inputs }] of this.groups) {
      if (inputs !== null && !inputs.some((it) => changed.has(it))) continue;
      this.wanted.add(moduleOf(key));
      this.groups.delete(key);
    }
    this.states = states;
    this.sources = sources;
    return changed;
  }

  /** Asks all again, on the whole graph. */
  forget() {
    this.groups.clear();
    this.fresh.clear();
    this.wanted = new Set(this.states.keys());
  }

  /** @param {unknown[][]} queries @returns {Promise<any[]>} */
  async ask(queries) {
    const asked = queries.map((query) => ({ query, line: JSON.stringify(query) }));
    const open = asked.filter(({ query, line }) => !this.groups.get(keyOf(query))?.answers.has(line));
    if (open.length > 0) {
      const symq = this.symqFor(open.map(({ query }) => /** @type {string} */ (query[1])));
      const answers = await symq.ask(open.map(({ query }) => query));
      open.forEach(({ query, line }, i) => this.add(query, line, answers[i]));
    }
    return asked.map(({ query, line }) => this.groups.get(keyOf(query))?.answers.get(line));
  }

  /** @param {string[]} modules that are asked @returns {Symq} on a graph of all that they lead to */
  symqFor(modules) {
    const isWithin = (/** @type {string} */ it) => this.part.has(it) || !this.states.has(it);
    if (this.symq && modules.every(isWithin)) return this.symq;
    void this.symq?.close();
    modules.forEach((it) => this.wanted.add(it));
    const sources = /** @type {Sources} */ (this.sources);
    this.part = reachedFrom(sources, this.wanted);
    // a file that takes the place of one is written to the disk at once
    rmSync(this.graph, { force: true });
    replaceFile(this.graph, piecesOf(partOf(sources, this.part)));
    this.symq = new Symq(this.program, this.graph);
    return this.symq;
  }

  /** @returns {Promise<boolean>} whether what was answered since the graph changed holds for the whole graph */
  async check() {
    return this.symq === null || this.learn(this.symq);
  }

  /** @returns {Promise<void>} when symq has ended */
  async end() {
    const { symq } = this;
    this.symq = null;
    this.part = new Set();
    await symq?.close();
  }

  /** @returns {Promise<void>} nothing: what is told as a folder's symq ends with `end` */
  async close() {}
}
