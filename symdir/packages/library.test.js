// Holds the answers of the library to what the commands print of packages, and closes a directory by what newer versions of TypeScript have for it.
import assert from 'node:assert/strict';
import { spawnSync } from 'node:child_process';
import path from 'node:path';
import test from 'node:test';

import { openFolder } from '../lib/library/index.js';
import { findTypeScript } from '../lib/typescript.js';
import { PACKAGE, consumer, sameAsCommands } from '../tests/commands.js';
import { folderOf } from '../tests/helper.js';
import { PACKAGES, sourcesOf } from './sources.js';

for (const it of PACKAGES) {
  test(`${it.name}: ${it.place}`, async (t) => {
    const directory = sourcesOf(it);
    const folder = await openFolder(directory);
    const [{ defined: [{ file, line }] }] = (await folder.names()).filter((one) => one.defined.length > 0).slice(-1);
    await sameAsCommands(folder, directory, [], { file, line });
    t.diagnostic(`${(await folder.names()).length} names`);
    await folder.close();
  });
}

const USING = `import { openFolder } from "symdir";
{
  await using folder = await openFolder(process.argv[2]);
  using again = await openFolder(process.argv[2]);
  console.log((await folder.names()).length, (await again.names()).length);
}
console.log("closed");
`;

test('`await using` and `using`', (t) => {
  const { file, version } = findTypeScript(PACKAGE);
  if (Number.parseFloat(version) < 5.2) return t.diagnostic(`TypeScript ${version} doesn't have them yet`);
  const options = { strict: true, target: 'es2022', lib: ['es2022', 'esnext.disposable', 'dom'], module: 'nodenext', moduleResolution: 'nodenext', types: [], skipLibCheck: false };
  const folder = consumer({ 'it.mts': `declare const process: { argv: string[] };\n${USING}`, 'tsconfig.json': JSON.stringify({ compilerOptions: options, files: ['it.mts'] }) });
  const compiled = spawnSync(process.execPath, [path.join(path.dirname(file), 'tsc.js'), '-p', '.'], { cwd: folder, encoding: 'utf8' });
  assert.deepEqual([compiled.status, compiled.stdout], [0, '']);
  const made = folderOf({ 'index.ts': 'export const a = 1;\n' });
  const { status, stdout, stderr } = spawnSync(process.execPath, [path.join(folder, 'it.mjs'), made], { encoding: 'utf8', timeout: 60_000 });
  assert.deepEqual({ status, stdout, stderr }, { status: 0, stdout: '1 1\nclosed\n', stderr: '' });
});
