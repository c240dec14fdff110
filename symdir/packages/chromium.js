// Headless Chromium, driven by its protocol over pipes: pages of a test, keys and pictures.
import { spawn, spawnSync } from 'node:child_process';
import { existsSync } from 'node:fs';
import { pathToFileURL } from 'node:url';

import { folderOf } from '../tests/helper.js';

const PLACES = ['/usr/bin/chromium', '/usr/bin/chromium-browser', '/usr/bin/google-chrome'];
/** After which an answer that doesn't come is a failure. */
const SECONDS = 60;

/** @returns {string | null} the program, which is installed where it can be */
export function findChromium() {
  const found = () => PLACES.find((it) => existsSync(it)) ?? null;
  if (!found()) spawnSync('apt-get', ['install', '-y', '--no-install-recommends', 'chromium', 'fonts-dejavu-core']);
  return found();
}

export class Chromium {
  /** @param {string} program */
  constructor(program) {
    const words = ['--headless=new', '--no-sandbox', '--disable-gpu', '--disable-dev-shm-usage', '--remote-debugging-pipe', `--user-data-dir=${folderOf({})}`, 'about:blank'];
    this.child = spawn(program, words, { stdio: ['ignore', 'ignore', 'ignore', 'pipe', 'pipe'] });
    const [, , , to, from] = /** @type {any[]} */ (this.child.stdio);
    this.to = to;
    this.next = 1;
    this.session = '';
    /** @type {Map<number, { resolve: (it: any) => void, reject: (it: Error) => void }>} */
    this.waiting = new Map();
    /** @type {any[]} what the pages report: messages, and errors of scripts */
    this.events = [];
    let held = '';
    from.on('data', (/** @type {Buffer} */ it) => {
      const parts = (held + it.toString()).split('\0');
      held = parts.pop() ?? '';
      parts.forEach((part) => this.take(JSON.parse(part)));
    });
  }

  /** @param {any} message */
  take(message) {
    if (!message.id) this.events.push(message);
    const one = this.waiting.get(message.id);
    this.waiting.delete(message.id);
    if (message.error) one?.reject(new Error(JSON.stringify(message.error)));
    else one?.resolve(message.result);
  }

  /** @param {string} method @param {object} [params] @returns {Promise<any>} */
  send(method, params = {}) {
    const id = this.next++;
    return new Promise((resolve, reject) => {
      const timer = setTimeout(() => reject(new Error(`no answer to ${method}`)), SECONDS * 1000);
      const end = (/** @type {(it: any) => void} */ then) => (/** @type {any} */ it) => {
        clearTimeout(timer);
        then(it);
      };
      this.waiting.set(id, { resolve: end(resolve), reject: end(reject) });
      this.to.write(`${JSON.stringify({ id, method, params, ...(this.session && { sessionId: this.session }) })}\0`);
    });
  }

  /** @param {string} file @param {{ width: number, isDark: boolean, hash?: string }} how */
  async open(file, { width, isDark, hash = '' }) {
    this.session = '';
    const { targetId } = await this.send('Target.createTarget', { url: 'about:blank' });
    this.session = (await this.send('Target.attachToTarget', { targetId, flatten: true })).sessionId;
    await Promise.all(['Page', 'Runtime', 'Log', 'Network'].map((it) => this.send(`${it}.enable`)));
    await this.send('Emulation.setDeviceMetricsOverride', { width, height: 900, deviceScaleFactor: 1, mobile: width < 600 });
    await this.send('Emulation.setEmulatedMedia', { features: [{ name: 'prefers-color-scheme', value: isDark ? 'dark' : 'light' }] });
    this.events.length = 0;
    await this.send('Page.navigate', { url: pathToFileURL(file).href + hash });
    while (!(await this.evaluate('document.readyState === "complete" && location.protocol === "file:"'))) await new Promise((resolve) => setTimeout(resolve, 50));
  }

  /** @param {string} expression @returns {Promise<any>} */
  async evaluate(expression) {
    const { result, exceptionDetails } = await this.send('Runtime.evaluate', { expression, returnByValue: true });
    if (exceptionDetails) throw new Error(JSON.stringify(exceptionDetails));
    return result.value;
  }

  /** @param {string} key as `Enter`, or a character */
  async press(key) {
    const codes = /** @type {Record<string, number>} */ ({ Enter: 13, Escape: 27, ArrowUp: 38, ArrowDown: 40, Tab: 9 });
    const text = key === 'Enter' ? '\r' : key.length === 1 ? key : undefined;
    const params = { key, code: key.length > 1 ? key : undefined, windowsVirtualKeyCode: codes[key] ?? key.toUpperCase().charCodeAt(0) };
    await this.send('Input.dispatchKeyEvent', { type: text ? 'keyDown' : 'rawKeyDown', ...params, text });
    await this.send('Input.dispatchKeyEvent', { type: 'keyUp', ...params });
  }

  /** @param {string} text */
  async type(text) {
    for (const it of text) await this.press(it);
  }

  /** @param {boolean} [isWhole] whether all of the page is taken, and not what the window shows alone @returns {Promise<Buffer>} a picture of the page */
  async picture(isWhole = false) {
    return Buffer.from((await this.send('Page.captureScreenshot', { format: 'png', captureBeyondViewport: isWhole })).data, 'base64');
  }

  close() {
    this.child.kill('SIGKILL');
  }
}
