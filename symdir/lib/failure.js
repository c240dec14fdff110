/** @typedef {'argument' | 'setup' | 'source' | 'system' | 'engine' | 'closed'} Kind as `types/index.d.ts` describes them */

/** What ends the command: a line for people, and a status. */
export class Failure extends Error {
  /**
   * @param {string} text what to do about it, without the command's name
   * @param {number} [status] 2 for a usage error, 3 for a failure
   * @param {Kind} [kind] what programs tell it by
   */
  constructor(text, status = 3, kind = status === 2 ? 'argument' : 'setup') {
    super(text);
    this.status = status;
    this.kind = kind;
  }
}

/** @param {unknown} error @returns {Failure | null} what the operating system refused, or what ends the command; null for a fault of this program */
export function failureOf(error) {
  if (error instanceof Failure) return error;
  const { code, syscall, message } = /** @type {NodeJS.ErrnoException} */ (error);
  return typeof code === 'string' && typeof syscall === 'string' ? new Failure(message, 3, 'system') : null;
}

/** @param {string} file @param {'read' | 'written'} what @param {unknown} error of the operating system @returns {Failure} */
export function fileFailure(file, what, error) {
  return new Failure(`${file} can't be ${what} (${/** @type {any} */ (error).code})`, 3, 'system');
}

/** @param {unknown} error of the operating system, or a fault of this program @returns {string} its code, or where it comes from */
export function reasonOf(error) {
  const { code, stack } = /** @type {NodeJS.ErrnoException} */ (error);
  return code ?? String(stack);
}
