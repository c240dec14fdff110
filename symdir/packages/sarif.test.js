// Holds logs of SARIF to the classes that Microsoft generated from the schema of SARIF 2.1.0: required properties are there, and no other ones than it has.
import assert from 'node:assert/strict';
import { spawnSync } from 'node:child_process';
import { existsSync } from 'node:fs';
import path from 'node:path';
import test from 'node:test';

import { folderOf, symdir } from '../tests/helper.js';
import { FILES } from '../tests/hostile.js';

const PACKAGE = '/usr/lib/python3/dist-packages/sarif_om';
if (!existsSync(PACKAGE)) spawnSync('apt-get', ['install', '-y', '--no-install-recommends', 'python3-sarif-python-om']);

/** Prints what is wrong with a log. */
const CHECK = `
import attr, json, sarif_om, sys
KINDS = {'runs': 'Run', 'tool': 'Tool', 'driver': 'ToolComponent', 'rules': 'ReportingDescriptor', 'shortDescription': 'MultiformatMessageString',
         'defaultConfiguration': 'ReportingConfiguration', 'invocations': 'Invocation', 'toolExecutionNotifications': 'Notification', 'results': 'Result',
         'message': 'Message', 'locations': 'Location', 'physicalLocation': 'PhysicalLocation', 'artifactLocation': 'ArtifactLocation', 'region': 'Region'}
counts = {}
def check(kind, it):
    fields = {one.metadata['schema_property_name']: one for one in attr.fields(getattr(sarif_om, kind))}
    required = {name for name, one in fields.items() if one.default is attr.NOTHING}
    if required - set(it):
        print(kind, 'lacks', required - set(it))
    if set(it) - set(fields):
        print(kind, 'has', set(it) - set(fields))
    counts[kind] = counts.get(kind, 0) + 1
    for name, value in it.items():
        for one in value if isinstance(value, list) else [value]:
            if isinstance(one, dict) and name != 'partialFingerprints':
                check(KINDS[name], one)
check('SarifLog', json.load(sys.stdin))
sys.stderr.write(json.dumps(counts))
`;

/** @param {string} log @returns {{ said: string, counts: Record<string, number> }} */
function checked(log) {
  const { stdout, stderr, error } = spawnSync('/usr/bin/python3', ['-c', CHECK], { input: log, encoding: 'utf8' });
  assert.equal(error, undefined);
  return { said: stdout, counts: JSON.parse(stderr) };
}

test('each log is one of SARIF 2.1.0', { skip: !existsSync(PACKAGE) && 'python3-sarif-python-om is not there: logs are not held to the schema' }, () => {
  assert.match(checked('{ "runs": [{ "tool": { "driver": { "nome": 1 } } }] }').said, /SarifLog lacks {'version'}\nToolComponent lacks {'name'}\nToolComponent has {'nome'}\n/);
  const folder = folderOf(FILES);
  const file = path.join(folder, 'accepted.json');
  symdir(['leaks', folder, '--baseline', file, '--save-baseline']);
  const runs = [['api', folder], ['missing', folder], ['unused', folder], ['cycles', folder], ['diff', folderOf({ 'index.ts': 'export const a = 1;\n' }), folder], ['leaks', folder, '--baseline', file], ['leaks', folder]];
  const found = runs.map((words) => checked(symdir([...words, '--sarif']).stdout));
  found.forEach(({ said }, i) => assert.equal(said, '', runs[i][0]));
  assert.deepEqual(found.map(({ counts }) => (counts.Result ?? 0) > 0), [true, true, true, false, true, false, true]);
});
