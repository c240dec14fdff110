// The picture of re-exports for the page, by Graphviz. Its boxes lead to the names that their files define.
import { Failure } from '../failure.js';
import { pictureOf } from '../commands/web.js';
import { Drawing, LEGEND } from '../web/draw.js';
import { gather } from '../web/gather.js';
import { escaped } from './escape.js';

/** @typedef {import('../cli.js').Run} Run */
/** @typedef {import('../folder/folder.js').Folder} Folder */

/** Elements and attributes that Graphviz writes. Whatever else stands there is left out. */
const ELEMENTS = new Set(['svg', 'g', 'polygon', 'path', 'polyline', 'ellipse', 'text', 'title', 'a']);
const ATTRIBUTES = new Set([
  'id', 'class', 'transform', 'fill', 'stroke', 'stroke-width', 'stroke-dasharray', 'points', 'd', 'cx', 'cy', 'rx', 'ry', 'x', 'y', 'width', 'height', 'viewBox',
  'text-anchor', 'font-family', 'font-size', 'font-weight', 'xlink:href', 'xlink:title',
]);

/** Attributes that stay as they are, as most do. */
const PLAIN = new RegExp(`^(?: (?:${[...ATTRIBUTES].filter((it) => !it.startsWith('xlink:')).join('|')})="[^"<]*")*$`);

/** @param {string} text attributes as Graphviz writes them @returns {string} */
function attributesOf(text) {
  if (PLAIN.test(text)) return text;
  return text.replace(/\s+([\w:-]+)="([^"]*)"/g, (_, /** @type {string} */ name, /** @type {string} */ value) => {
    if (!ATTRIBUTES.has(name) || (name === 'xlink:href' && !value.startsWith('#'))) return '';
    return ` ${name.replace('xlink:href', 'href').replace('xlink:title', 'data-tip')}="${value.replaceAll('<', '&#60;')}"`;
  });
}

/** @param {string} svg as Graphviz writes it @returns {string} for HTML: elements and attributes that are known, and text */
export function inlined(svg) {
  const text = svg.slice(svg.indexOf('<svg')).replace(/<!--[^]*?-->/g, '');
  return text.replace(/<(\/?)([\w:-]+)((?:\s+[\w:-]+="[^"]*")*)\s*(\/?)>|</g, (whole, close, name, attributes = '', isEmpty = '') => {
    if (name === undefined) return '&#60;';
    if (!ELEMENTS.has(name)) return '';
    return close ? `</${name}>` : `<${name}${attributesOf(attributes)}${isEmpty ? '/' : ''}>`;
  });
}

/** @param {Run} run @param {Folder} folder @returns {Promise<string>} a section of the page; without Graphviz it says that it lacks */
export async function pictureHtml({ warn }, folder) {
  const drawing = new Drawing(folder, await gather(folder), (below) => `#${new URLSearchParams({ file: below })}`);
  const head = '<section class="picture"><h2>Re-exports</h2>';
  try {
    const svg = inlined((await pictureOf(drawing.text(), 'svg')).toString());
    const [arrows, boxes] = LEGEND.map(escaped);
    return `${head}<p>${arrows} ${boxes} A click on a box lists the names that it defines.</p><p><button id="fit" type="button" aria-pressed="false">Fit to width</button></p>
<div class="frame" id="picture" tabindex="0" role="region" aria-label="Picture of re-exports">${svg}</div></section>`;
  } catch (error) {
    if (!(error instanceof Failure)) throw error;
    warn(`the page has no picture: ${error.message.replace(', or use -o web.dot', '')}`);
    return `${head}<p>Graphviz wasn't there when this page was made, and so it has no picture.</p></section>`;
  }
}
