// The web of exports as a text for Graphviz.
import path from 'node:path';
import { pathToFileURL } from 'node:url';

import { counted } from '../output.js';

/** @typedef {import('./gather.js').Web} Web */
/** @typedef {import('./gather.js').Edge} Edge */
/** @typedef {import('../folder/folder.js').Folder} Folder */

/** A box of the picture: a module, or modules of one folder that end the web and have the same way in. */
/** @typedef {{ id: string, folder: string, modules: string[] }} Box */

/** Modules that end the web and have the same way in become one box where there are so many. */
const GROUPED = 3;
/** So many modules of a group have a row. */
const ROWS = 14;
/** With more boxes than this, a box has fewer lines. */
const BIG = 40;
const COLORS = { entry: '#ffe9a8', own: '#e8eef8', other: '#e6e6e6' };
/** What the lines and boxes mean, without their colors. */
export const LEGEND = [
  'An arrow leads from a module to the one whose names it re-exports, with their number. Thick, with a filled head: export *. '
    + 'Thin, with an open head: one by one.',
  'Modules of one directory that are re-exported alike share a box and an arrow. Dashed boxes: unresolved.',
];
/** How long a tooltip gets. */
const TIP = 900;

/** @param {string} text @returns {string} */
function escaped(text) {
  return text.replace(/[&<>"]/g, (it) => `&#${it.charCodeAt(0)};`).replace(/\n/g, ' ');
}

/** @param {string[]} names @returns {string} */
function tip(names) {
  return escaped(names.join(', ').slice(0, TIP)) || ' ';
}

/** @param {string[]} names @param {number} width @returns {string} as many as fit, and how many more */
function shortened(names, width) {
  const all = names.join(', ');
  if (all.length <= width) return all;
  let shown = 0;
  for (let length = 0; shown < names.length && length + names[shown].length <= width - 8; shown++) length += names[shown].length + 2;
  return shown === 0 ? `${names.length} names` : `${names.slice(0, shown).join(', ')} + ${names.length - shown}`;
}

export class Drawing {
  /** @param {Folder} folder @param {Web} web @param {((below: string) => string) | null} [linkTo] of a file, or of a directory with a slash behind it; without it boxes lead to files */
  constructor(folder, web, linkTo = null) {
    this.folder = folder;
    this.linkTo = linkTo;
    this.web = web;
    this.modules = [...new Set([...web.entries, ...web.edges.flatMap((it) => [it.from, it.to]), ...web.owned.keys()])];
    /** @type {Map<string, number>} how many modules have each name of a file */
    this.bases = new Map();
    for (const it of this.modules) this.bases.set(this.base(it), (this.bases.get(this.base(it)) ?? 0) + 1);
    this.boxes = this.group();
    this.isBig = this.boxes.length > BIG;
    /** @type {Map<string, Box>} */
    this.boxOf = new Map(this.boxes.flatMap((it) => it.modules.map((module) => [module, it])));
  }

  /** @param {string} module @returns {string} the name of its file */
  base(module) {
    return path.posix.basename(this.folder.short(module));
  }

  /** @param {string} module @returns {string} the folder of its file */
  dir(module) {
    const dir = path.posix.dirname(this.folder.short(module));
    return dir === '.' ? '' : dir;
  }

  /** @param {string} module @returns {string[]} */
  names(module) {
    return [...(this.web.owned.get(module)?.keys() ?? [])].filter((it) => it !== '');
  }

  /** @returns {Box[]} in the order of the modules */
  group() {
    const { edges, entries, lost } = this.web;
    const busy = new Set([...edges.map((it) => it.from), ...entries, ...lost.map((it) => it.module)]);
    /** @type {Map<string, string[]>} */
    const into = new Map();
    for (const it of edges) into.set(it.to, [...(into.get(it.to) ?? []), `${it.from} ${it.isStar}`]);
    /** @type {Map<string, string[]>} */
    const groups = new Map();
    for (const it of this.modules) {
      const key = busy.has(it) ? it : JSON.stringify([this.dir(it), (into.get(it) ?? []).sort()]);
      groups.set(key, [...(groups.get(key) ?? []), it]);
    }
    const lists = [...groups.values()].flatMap((it) => (it.length >= GROUPED ? [it] : it.map((module) => [module])));
    return lists.map((modules, i) => ({ id: `n${i}`, folder: this.dir(modules[0]), modules }));
  }

  /** @param {string} module @returns {string} */
  link(module) {
    if (this.linkTo) return this.linkTo(this.folder.short(module));
    const file = this.folder.sources.modules.get(module)?.file;
    return file ? pathToFileURL(file).href : module;
  }

  /** @param {string} module @returns {string} a name that no other module of the picture has */
  title(module) {
    const base = this.base(module);
    return this.bases.get(base) === 1 ? base : this.folder.short(module);
  }

  /** @param {string} module */
  color(module) {
    if (this.web.entries.includes(module)) return COLORS.entry;
    return this.folder.sources.modules.has(module) ? COLORS.own : COLORS.other;
  }

  /** @param {string} module @returns {string} a table of its name and the names that it defines */
  one(module) {
    const names = this.names(module);
    const lines = [];
    const limit = this.isBig ? 2 : 5;
    for (let rest = names; rest.length > 0 && lines.length <= limit;) {
      let count = 1;
      while (count < rest.length && rest.slice(0, count + 1).join(', ').length <= 34) count++;
      lines.push(lines.length === limit && rest.length > count ? `+ ${rest.length} more` : rest.slice(0, count).join(', '));
      rest = rest.slice(count);
    }
    const body = lines.length > 0 ? `<TR><TD ALIGN="LEFT" BALIGN="LEFT"><FONT POINT-SIZE="9">${lines.map(escaped).join('<BR/>')}</FONT></TD></TR>` : '';
    const title = `<B>${escaped(this.title(module))}</B>${this.web.entries.includes(module) ? ' (entry)' : ''}`;
    const head = `<TR><TD ALIGN="LEFT" BGCOLOR="${this.color(module)}">${title}</TD></TR>`;
    return `<TABLE BORDER="0" CELLBORDER="1" CELLSPACING="0" CELLPADDING="3">${head}${body}</TABLE>`;
  }

  /** @param {Box} box @returns {string} a table with a row for each module */
  many({ folder, modules }) {
    const rows = modules.slice(0, ROWS).map((it) => {
      const names = this.names(it);
      return `<TR><TD ALIGN="LEFT" HREF="${escaped(this.link(it))}" TITLE="${tip(names)}"><FONT POINT-SIZE="9">${escaped(this.base(it))}</FONT></TD>`
        + `<TD ALIGN="LEFT"><FONT POINT-SIZE="9" COLOR="#444444">${escaped(shortened(names, 40)) || ' '}</FONT></TD></TR>`;
    });
    const rest = modules.slice(ROWS);
    const count = rest.reduce((sum, it) => sum + this.names(it).length, 0);
    if (rest.length > 0) rows.push(`<TR><TD ALIGN="LEFT" COLSPAN="2"><FONT POINT-SIZE="9">+ ${rest.length} modules with ${count} names</FONT></TD></TR>`);
    const title = `<B>${escaped(folder || '.')}/  ${modules.length} modules</B>`;
    const head = `<TR><TD ALIGN="LEFT" COLSPAN="2" BGCOLOR="${this.color(modules[0])}">${title}</TD></TR>`;
    return `<TABLE BORDER="0" CELLBORDER="1" CELLSPACING="0" CELLPADDING="2">${head}${rows.join('')}</TABLE>`;
  }

  /** @param {Box} box @returns {string} */
  boxLine(box) {
    const [first] = box.modules;
    const label = box.modules.length > 1 ? this.many(box) : this.one(first);
    const link = box.modules.length > 1 ? this.linkTo?.(`${box.folder}/`) ?? path.posix.dirname(this.link(first)) : this.link(first);
    return `${box.id} [label=<${label}>, href="${escaped(link)}", tooltip="${tip(box.modules.flatMap((it) => this.names(it)))}"];`;
  }

  /** @returns {string[]} boxes of one folder with a frame around them */
  boxLines() {
    /** @type {Map<string, Box[]>} */
    const folders = new Map();
    for (const it of this.boxes) folders.set(it.folder, [...(folders.get(it.folder) ?? []), it]);
    return [...folders].flatMap(([folder, boxes], i) => {
      const lines = boxes.map((it) => this.boxLine(it));
      if (folder === '' || boxes.length < 2 || folders.size < 2) return lines;
      const look = 'style="rounded"; color="#bbbbbb"; fontcolor="#666666"; fontsize=10;';
      return [`subgraph cluster_${i} { label="${escaped(folder)}/"; ${look}`, ...lines, '}'];
    });
  }

  /** @returns {string[]} an edge for all between the same two boxes */
  edgeLines() {
    /** @type {Map<string, { isStar: boolean, names: Set<string>, count: number }>} */
    const drawn = new Map();
    for (const { from, to, isStar, names } of this.web.edges) {
      const key = `${this.boxOf.get(from)?.id} -> ${this.boxOf.get(to)?.id}`;
      const found = drawn.get(key) ?? { isStar: false, names: new Set(), count: 0 };
      drawn.set(key, found);
      found.isStar ||= isStar;
      found.count++;
      names.forEach((it) => found.names.add(it));
    }
    return [...drawn].filter(([key]) => key.split(' -> ')[0] !== key.split(' -> ')[1]).map(([key, { isStar, names, count }]) => {
      const width = Math.min(1.6 + names.size / 40, 5).toFixed(1);
      const style = isStar ? `penwidth=${width}` : 'penwidth=0.7, color="#999999", arrowhead=empty';
      const label = names.has('*') ? '' : counted(names.size, 'name') + (count > 1 ? ` from ${count} modules` : '');
      return `${key} [${style}, label="${label}", edgetooltip="${tip([...names])}", labeltooltip="${tip([...names])}"];`;
    });
  }

  /** @returns {string[]} a red box for each unresolved name or module */
  lostLines() {
    return this.web.lost.flatMap(({ module, text, isStar }, i) => [
      `x${i} [shape=box, height=0.3, margin="0.08,0.04", style=dashed, color=red, fontcolor=red, label="${escaped(text)}", tooltip="unresolved"];`,
      `${this.boxOf.get(module)?.id ?? `y${i}`} -> x${i} [color=red, style=${isStar ? 'solid' : 'dashed'}, penwidth=${isStar ? 1.6 : 0.8}];`,
    ]);
  }

  /** @returns {string} */
  text() {
    const name = path.posix.basename(this.folder.sources.folder);
    const title = `${name}: ${counted(this.modules.length, 'module')} that entries reach`;
    // what a page shows as text isn't in its picture
    const label = this.linkTo ? '' : [title, ...LEGEND].map(escaped).join('\\n');
    return `${['digraph exports {',
      `graph [rankdir=LR, fontname="Helvetica", fontsize=12, label="${label}", labelloc=t, tooltip=" "];`,
      `graph [nodesep=${this.isBig ? 0.12 : 0.25}, ranksep=${this.isBig ? 0.9 : 0.7}];`,
      'node [shape=plain, fontname="Helvetica", fontsize=10];',
      'edge [color="#4466aa", arrowsize=0.6, fontname="Helvetica", fontsize=8];',
      ...this.boxLines(), ...this.edgeLines(), ...this.lostLines(), '}'].join('\n')}\n`;
  }
}
