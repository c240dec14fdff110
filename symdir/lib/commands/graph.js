// `symdir graph`: the graph of a folder, as a file that symq reads.
import { Failure } from '../failure.js';
import { begin } from '../folder/begin.js';
import { Sources } from '../folder/sources.js';
import { partsOf, piecesOf } from '../folder/graph.js';
import { counted } from '../output.js';
import { checkWritable, outputPieces, replaceFile } from '../write.js';

/** @typedef {import('../cli.js').Run} Run */

/** @param {Run} run @param {import('../folder/begin.js').Reading} reading @returns {Promise<number>} the status */
export async function graph({ options, print, warn }, reading) {
  // a path that can't be written is told before all is read
  if (options.out) checkWritable(options.out);
  const sources = new Sources(await begin(reading, null));
  await sources.read();
  if (sources.modules.size === 0) throw new Failure(sources.files.emptyText());
  const pieces = piecesOf(partsOf(sources));
  if (options.out) replaceFile(options.out, pieces);
  else await outputPieces(pieces);
  await sources.keep();
  const faults = sources.faults();
  faults.forEach(warn);
  const rows = [...sources.resolutions.values()].reduce((sum, it) => sum + it.size, 0);
  const trees = [...sources.modules.values()].filter((it) => !it.parsed.fault).length;
  const { size } = sources.external;
  if (options.out) print(`${options.out}: ${counted(trees, 'module')}, ${counted(size, 'external module')}, ${counted(rows, 'resolution')}`);
  return faults.length > 0 ? 1 : 0;
}
