// The public API as a page: one file that needs no network. Its names can be read without its script, which searches them.
import { createHash } from 'node:crypto';
import { readFileSync } from 'node:fs';

import { endText } from '../folder/ends.js';
import { byName, counted, placeText } from '../output.js';
import { aroundName, withName } from './described.js';
import { docHtml } from './doc-html.js';
import { escaped } from './escape.js';
import { titleOf } from './title.js';

/** @typedef {import('../cli.js').Run} Run */
/** @typedef {import('../folder/folder.js').Folder} Folder */
/** @typedef {import('./described.js').Described} Described */
/** @typedef {import('./described.js').Member} Member */
/** @typedef {import('./api.js').Answer} Answer */
/** @typedef {import('./rules.js').Finding} Finding */

/** @param {string} name @returns {string} a file of the page */
function part(name) {
  return readFileSync(new URL(`./page/${name}`, import.meta.url), 'utf8');
}

/** Lines of comments, for who reads the modules. */
const COMMENTS = /^[ \t]*(\/\*\*((?!\*\/)[^])*\*\/|\/\/.*)\n/gm;

/** @returns {string} the script: its modules one after the other */
function script() {
  return [part('search.js').replace(/^export /gm, ''), part('page.js').replace(/^import .*\n/gm, '')].join('\n').replace(COMMENTS, '');
}

/** @param {{ kind: string, isType?: boolean, doc: string }} it @returns {string} */
function kindHtml({ kind, isType = false, doc }) {
  const words = [kind || 'external', ...(isType ? ['type-only'] : []), ...(doc.includes('@deprecated') && /^\s*@deprecated\b/m.test(doc) ? ['deprecated'] : [])];
  return words.map((it) => `<span class="kind">${escaped(it)}</span>`).join(' ');
}

/** @param {string} name @param {string} signature @returns {string} */
function headHtml(name, signature) {
  const { before, after } = aroundName(signature);
  const words = before && `<code class="signature">${escaped(before.trim())}</code> `;
  return `${words}<code class="name">${escaped(name)}</code><code class="signature${after.startsWith(' ') ? ' apart' : ''}">${escaped(after.trim())}</code>`;
}

/** @param {Member} it @returns {string} */
function memberHtml(it) {
  const doc = docHtml(it.doc);
  const head = `${headHtml(it.name, it.signature)} ${kindHtml(it)} <span class="place">${escaped(placeText(it))}</span>`;
  return `<li data-name="${escaped(it.name)}">${head}${doc}</li>`;
}

/** @param {Described} it @returns {string} where it is defined, and how it gets to the entry */
function factsHtml(it) {
  const rows = [
    ...it.defined.map((place) => ['defined in', placeText(place) + (place.by ? `, by ${place.by.text} in ${placeText(place.by)}` : '')]),
    ...it.unresolved.map((end) => ['leads to', endText(end)]),
    ...it.through.map(({ file, text }) => ['via', `export * from "${text}" in ${file}`]),
    ['exported by', it.entry],
  ];
  return `<dl class="facts">${rows.map(([head, text]) => `<dt>${head}</dt><dd>${escaped(text)}</dd>`).join('')}</dl>`;
}

/** @param {Described} it @param {boolean} isOne whether there is one entry alone @returns {string} */
function nameHtml(it, isOne) {
  const [first] = it.defined;
  const more = it.defined.length > 1 ? ` +${it.defined.length - 1}` : '';
  const where = first ? placeText(first) + more : it.unresolved[0] ? endText(it.unresolved[0]) : '';
  const entry = isOne ? '' : `<span class="entry">${escaped(it.entry)}</span>`;
  const signature = it.signature ? `<pre class="whole"><code>${escaped(withName(it.name, it.signature))}</code></pre>` : '';
  const members = it.members.length > 0 ? `<h3>${counted(it.members.length, 'member')}</h3><ul class="members">${it.members.map(memberHtml).join('\n')}</ul>` : '';
  const data = { name: it.name, kind: it.kind || 'external', entry: it.entry, files: [...new Set(it.defined.map(({ file }) => file))].join('\n') };
  const attributes = Object.entries(data).map(([key, value]) => ` data-${key}="${escaped(value)}"`).join('');
  return `<li class="row"${attributes}><details><summary>${headHtml(it.name, it.signature)}<span class="hits"></span>`
    + `<span class="end">${kindHtml(it)} <span class="place">${escaped(where)}</span>${entry}</span></summary>`
    + `<div class="body">${signature}${docHtml(it.doc)}${factsHtml(it)}${members}</div></details></li>`;
}

/** @param {string} id @param {string} label @param {string[]} values @returns {string} */
function choice(id, label, values) {
  const options = values.map((it) => `<option value="${escaped(it)}">${escaped(it)}</option>`).join('');
  return `<label>${label} <select id="${id}"><option value="">all</option>${options}</select></label>`;
}

/** @param {Finding[]} findings @returns {string} */
function findingsHtml(findings) {
  if (findings.length === 0) return '';
  const rows = findings.map((it) => `<li><span class="place">${escaped(placeText(it))}</span> ${escaped(it.message)}</li>`);
  return `<section><h2>${counted(findings.length, 'finding')}</h2><ul class="findings">${rows.join('\n')}</ul></section>`;
}

/** @param {Answer} answer @returns {string} what the entries export and isn't listed by name */
function restHtml({ open, declared, unlisted, shared }) {
  const rows = [
    ...open.filter((it) => it.external !== null).map((it) => (
      `${placeText(it)}: export * from "${it.text}" ${it.isLost ? 'isn\'t analyzed' : 'is external'}, and its names are public too`)),
    ...declared.map((it) => `declare module "${it.module}" in ${it.entry}: its names aren't listed`),
    ...unlisted.map((it) => `${it.entry} ${it.why}: its names aren't known`),
    ...shared.map((it) => `${it.name} of ${it.module} is re-exported via export * from ${it.owners.map(({ file }) => file).join(', ')}`),
  ];
  return rows.length > 0 ? `<section><h2>Also exported</h2><ul class="findings">${rows.map((it) => `<li>${escaped(it)}</li>`).join('\n')}</ul></section>` : '';
}

/** @param {Answer} answer @returns {string} */
function controls({ names, entries }) {
  const kinds = [...new Set(names.flatMap((it) => (it.kind || 'external').split('+')))].sort();
  return `<form id="controls" role="search">
<label class="search">Search <input id="search" type="search" autocomplete="off" spellcheck="false" autofocus aria-controls="names" aria-describedby="keys"></label>
<div class="filters">${choice('kind', 'Kind', kinds)}${entries.length > 1 ? choice('entry', 'Entry', entries) : ''}<button id="file" type="button" hidden></button>
<output id="count" for="search kind" aria-live="polite">${counted(names.length, 'name')}</output></div>
<p id="keys"><kbd>/</kbd> search, <kbd>↑</kbd> <kbd>↓</kbd> move, <kbd>Enter</kbd> open, <kbd>Esc</kbd> clear</p>
</form>`;
}

/** @param {string} title @param {Answer} answer @param {string} style @param {string} code of the script @returns {string} all before what the page is about */
function headOf(title, { entries, names }, style, code) {
  const hash = (/** @type {string} */ text) => `'sha256-${createHash('sha256').update(text).digest('base64')}'`;
  return `<!doctype html>
<html lang="en">
<head>
<meta charset="utf-8">
<meta name="viewport" content="width=device-width, initial-scale=1">
<meta name="color-scheme" content="light dark">
<meta http-equiv="Content-Security-Policy" content="default-src 'none'; base-uri 'none'; form-action 'none'; style-src ${hash(style)}; script-src ${hash(code)}">
<title>${title}: public API</title>
<style>${style}</style>
</head>
<body>
<header>
<h1>${title}</h1>
<p class="about">${counted(names.length, 'public name')} of ${entries.length > 3 ? counted(entries.length, 'entry point') : entries.map((it) => `<code>${escaped(it)}</code>`).join(', ')}</p>
</header>
`;
}

/** @param {Run} run @param {Folder} folder @param {Answer} answer @param {Promise<string>} drawn the section with the picture @returns {Promise<Buffer>} */
export async function page(run, folder, answer, drawn) {
  const { entries, names } = answer;
  const { all } = run.report.found;
  const sorted = [...names].sort((a, b) => byName(a, b) || (a.entry < b.entry ? -1 : 1));
  const rows = sorted.map((it) => `${nameHtml(it, entries.length === 1)}\n`);
  const code = script();
  const start = `${headOf(escaped(titleOf(folder)), answer, part('page.css'), code)}${controls(answer)}
<main>
${findingsHtml(all)}
<section aria-label="Public names">${all.length > 0 ? '<h2>Public names</h2>' : ''}<ul id="names">
`;
  const end = `</ul><p id="none" hidden>No name matches.</p></section>
${restHtml(answer)}
${await drawn}
</main>
<script type="module">${code}</script>
</body>
</html>
`;
  // each row on its own: most have characters of ASCII alone, and are encoded faster
  return Buffer.concat([start, ...(rows.length > 0 ? rows : ['\n']), end].map((it) => Buffer.from(it)));
}
