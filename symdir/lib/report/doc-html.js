// Doc comments in HTML: paragraphs, lists, code and tags. All text is escaped, and nothing of it becomes HTML.
import { unlinked } from '../surface/docs.js';
import { escaped } from './escape.js';

/** @param {string} text @returns {string} a line with code between backticks */
function inline(text) {
  if (!/[`{]/.test(text)) return escaped(text);
  return unlinked(text, (it) => `\`${it}\``).split(/`([^`]+)`/).map((it, i) => (i % 2 === 1 ? `<code>${escaped(it)}</code>` : escaped(it))).join('');
}

/** @param {string} text without fences @returns {string} */
function paragraph(text) {
  const [, heading, below = ''] = /^#{1,6}\s+(.*?)\s*#*(?:\n([^]*))?$/.exec(text) ?? [];
  if (heading) return `<p><strong>${inline(heading)}</strong></p>${below ? paragraph(below) : ''}`;
  const lines = text.split('\n');
  const first = lines.findIndex((it) => /^\s*[-*] /.test(it));
  if (first < 0) return `<p>${inline(lines.join(' '))}</p>`;
  const items = lines.slice(first).join('\n').split(/^\s*[-*] /m).slice(1);
  const before = first > 0 ? `<p>${inline(lines.slice(0, first).join(' '))}</p>` : '';
  return `${before}<ul>${items.map((it) => `<li>${inline(it.trim().replace(/\s*\n\s*/g, ' '))}</li>`).join('')}</ul>`;
}

/** @param {string} text without fences @returns {string} */
function paragraphs(text) {
  return text.trim().split(/\n\s*\n/).filter((it) => it !== '').map(paragraph).join('');
}

/** @param {string} text @returns {string} paragraphs, and code between fences */
function blocks(text) {
  if (!text.includes('```')) return paragraphs(text);
  return text.split(/^\s*```.*\n([^]*?)(?:^\s*```.*$|(?![^]))/m).map((it, i) => {
    if (i % 2 === 1) return `<pre><code>${escaped(it.replace(/\n$/, ''))}</code></pre>`;
    return paragraphs(it);
  }).join('');
}

/** @param {string} text @returns {string} without empty lines before and spaces after it */
function trimmed(text) {
  return text.replace(/^\n+/, '').trimEnd();
}

/** @param {string} doc @returns {{ tag: string, text: string }[]} what stands before the first tag, and each tag, fences kept whole */
function sections(doc) {
  if (!doc.includes('@')) return [{ tag: '', text: trimmed(doc) }];
  const found = [{ tag: '', text: '' }];
  let isFenced = false;
  for (const line of doc.split('\n')) {
    if (/^\s*```/.test(line)) isFenced = !isFenced;
    const [, tag, rest] = (!isFenced && /^\s*(@[\w-]+)\s*(.*)$/.exec(line)) || [];
    if (tag) found.push({ tag, text: rest });
    else found[found.length - 1].text += `\n${line}`;
  }
  return found.map(({ tag, text }) => ({ tag, text: trimmed(text) }));
}

/** @param {{ tag: string, text: string }} section @returns {string} */
function tagHtml({ tag, text }) {
  const [, name, rest] = /^@(param|typeParam|template|property)$/.test(tag) ? /^(?:\{.*?\}\s*)?(\[?[\w$.]+\]?)\s*(?:-\s+)?([^]*)$/.exec(text) ?? [] : [];
  const isCode = tag === '@example' && !text.includes('```') && text !== '';
  const body = isCode ? `<pre><code>${escaped(text)}</code></pre>` : blocks(rest ?? text);
  return `<dt>${escaped(tag)}${name ? ` <code>${escaped(name)}</code>` : ''}</dt><dd>${body}</dd>`;
}

/** @param {string} doc @returns {string} */
export function docHtml(doc) {
  if (doc === '') return '';
  const [{ text }, ...tags] = sections(doc);
  return `<div class="doc">${blocks(text)}${tags.length > 0 ? `<dl>${tags.map(tagHtml).join('')}</dl>` : ''}</div>`;
}
