#!/usr/bin/env node
import { main } from '../lib/cli.js';
import { outputFailure } from '../lib/write.js';

process.stdout.on('error', (error) => {
  // whoever reads may stop at any time
  if (/** @type {any} */ (error).code === 'EPIPE') process.exit(0);
  const { message, status } = outputFailure(error);
  process.stderr.write(`symdir: ${message}\n`);
  process.exit(status);
});
process.stderr.on('error', (error) => {
  if (/** @type {any} */ (error).code !== 'EPIPE') process.exit(outputFailure(error).status);
});
process.exitCode = await main(process.argv.slice(2));
