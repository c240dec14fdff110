// `symdir web`: who passes names on to whom, as a picture.
import { spawn } from 'node:child_process';
import path from 'node:path';

import { Failure } from '../failure.js';
import { counted } from '../output.js';
import { Drawing } from '../web/draw.js';
import { gather } from '../web/gather.js';
import { output, replaceFile } from '../write.js';

/** @typedef {import('../cli.js').Run} Run */
/** @typedef {import('../folder/folder.js').Folder} Folder */

/** What Graphviz writes here, by the ending of the file. */
const FORMS = ['svg', 'png', 'pdf'];

/** @param {string} out @returns {string} what is written there, by its ending */
export function formOf(out) {
  const form = path.extname(out).slice(1).toLowerCase();
  if (form === 'dot' || form === 'gv') return 'dot';
  if (!FORMS.includes(form)) throw new Failure(`-o ${out}: expected a file name that ends in ${FORMS.map((it) => `.${it}`).join(', ')} or .dot`, 2);
  return form;
}

/** @param {import('node:stream').Readable} stream @returns {Buffer[]} what comes of it, when it has ended */
function heard(stream) {
  /** @type {Buffer[]} */
  const parts = [];
  stream.on('data', (it) => parts.push(it));
  return parts;
}

/** @param {string} text for Graphviz @param {string} form @returns {Promise<Buffer>} the picture; other work can go on while it is drawn */
export function pictureOf(text, form) {
  return new Promise((resolve, reject) => {
    const child = spawn('dot', [`-T${form}`]);
    const [drawn, said] = [heard(child.stdout), heard(child.stderr)];
    child.on('error', () => reject(new Failure('Graphviz not found: install its command dot (`apt-get install graphviz`), or use -o web.dot')));
    child.on('close', (status) => {
      if (status === 0) resolve(Buffer.concat(drawn));
      else reject(new Failure(`Graphviz exited with status ${status}: ${Buffer.concat(said).toString().trim().split('\n').pop()}`));
    });
    // one that ends before it has read all tells why by its status
    child.stdin.on('error', () => {});
    child.stdin.end(text);
  });
}

/** @param {string} out @param {string} text for Graphviz @returns {Promise<Buffer>} what is written there */
async function pictured(out, text) {
  const form = formOf(out);
  return form === 'dot' ? Buffer.from(text) : pictureOf(text, form);
}

/** @param {number} count @returns {string} */
function unresolvedText(count) {
  return count === 0 ? 'all resolved' : `${count} unresolved`;
}

/** @param {Run} run @param {Folder} folder @returns {Promise<number>} the status: 1 where something is unresolved */
export async function web({ options, print }, folder) {
  const found = await gather(folder);
  const short = (/** @type {string} */ it) => folder.short(it);
  const drawing = new Drawing(folder, found);
  if (options.out) replaceFile(options.out, [await pictured(options.out, drawing.text())]);
  if (options.json) {
    print(JSON.stringify({
      entries: found.entries.map(short),
      modules: drawing.modules.map((it) => ({ file: short(it), names: drawing.names(it) })),
      edges: found.edges.map(({ from, to, isStar, names }) => ({ from: short(from), to: short(to), star: isStar, names: [...names] })),
      lost: found.lost.map(({ module, text, isStar }) => ({ file: short(module), text, star: isStar })),
    }, null, 1));
  } else if (!options.out) output(drawing.text());
  else {
    const drawn = `${counted(drawing.modules.length, 'module')} in ${counted(drawing.boxes.length, 'box')}, ${counted(drawing.edgeLines().length, 'edge')}`;
    print(`${options.out}: ${drawn}; ${unresolvedText(found.lost.length)}`);
  }
  return found.lost.length > 0 ? 1 : 0;
}
