// A thread that parses, as the one that starts it sees it; `worker.js` is what runs in it.
import { Worker } from 'node:worker_threads';

/** @typedef {import('./kept.js').Parsed} Parsed */
/** @typedef {import('./queue.js').Queue} Queue */
/** @typedef {{ file: string, made?: Parsed, error?: string }} Said of a file */

/**
 * Is given each file with what is known of its module, or with why it can't be read.
 * @typedef {(file: string, made: Parsed | null, error: string | null) => void} Done
 */

/** Trees are deep, and walked by recursion. */
const STACK_MEGABYTES = 64;
/** What one file makes is gone before so much is made. */
const YOUNG_MEGABYTES = 96;

/** Once it runs, and while it is asked nothing, it doesn't keep the process from its end. */
export class Thread {
  /** @param {import('../tree/which.js').Which & import('./parse.js').How} how */
  constructor(how) {
    this.worker = new Worker(new URL('./worker.js', import.meta.url), {
      workerData: how,
      resourceLimits: { stackSizeMb: STACK_MEGABYTES, maxYoungGenerationSizeMb: YOUNG_MEGABYTES, maxOldGenerationSizeMb: 4096 },
    });
    /** How many wait for what it answers, or for its start. */
    this.awaited = 0;
    /** @type {Promise<never>} fails where the thread does */
    this.failed = new Promise((_, reject) => this.worker.once('error', reject));
    this.failed.catch(() => {});
    /** When the thread runs, or has ended before that. */
    this.began = this.holding(new Promise((resolve) => ['online', 'exit'].forEach((it) => this.worker.once(it, resolve))));
  }

  /** @template T @param {Promise<T>} answer @returns {Promise<T>} it; until then the process doesn't end by itself */
  async holding(answer) {
    this.awaited++;
    this.worker.ref();
    try {
      return await answer;
    } finally {
      this.awaited--;
      if (this.awaited === 0) this.worker.unref();
    }
  }

  /**
   * Asks for what is in the queue, or to keep what was made of TypeScript.
   * @param {Queue | null} queue
   * @param {Done} done
   */
  async ask(queue, done) {
    await this.holding(Promise.race([this.failed, this.answered(queue, done)]));
  }

  /** @param {Queue | null} queue @param {Done} done @returns {Promise<void>} when no more comes */
  answered(queue, done) {
    return new Promise((resolve) => {
      const hear = (/** @type {Said | null} */ said) => {
        if (said?.made) done(said.file, { ...said.made, text: bufferOf(said.made.text) }, null);
        else if (said) done(said.file, null, said.error ?? '');
        if (said !== null) return;
        this.worker.off('message', hear);
        resolve();
      };
      this.worker.on('message', hear);
      this.worker.postMessage(queue);
    });
  }

  end() {
    this.worker.terminate();
  }
}

/** @param {Uint8Array} bytes @returns {Buffer} that stands for them */
function bufferOf({ buffer, byteOffset, byteLength }) {
  return Buffer.from(buffer, byteOffset, byteLength);
}
