// What `--help` prints, on at most 100 columns.

const COMMON = `  --skip REGEX         excludes modules by their paths below the directory; may be repeated
  --js                 also reads JavaScript that has declarations or sources next to it
  --packages           also reads the modules of node_modules that are reached
  --no-ambient-exports exports from a declaration file by Deno's rule: what follows \`export\`.
                       By TypeScript's rule, the default, one without \`export {..}\` exports all
  --no-cache           doesn't cache syntax trees
  --no-config          ignores symdir.json and "symdir" in package.json
  --verbose            prints progress every five seconds if standard error is no terminal`;

const ASKING = `  --entry FILE         an entry point, in place of those of package.json or deno.json; may be
                       repeated
  --json               prints JSON
  --strict             reports names that several modules export along \`export *\` (api, missing)
${COMMON}
  --symq FILE          the program symq (default: SYMQ, the repository's, or symq on the PATH)
  --unproved           uses an unverified build of symq, which the Rattle kit makes once`;

/** @param {string} command that reports findings @param {string} folder of its examples @returns {string} */
const reports = (command, folder) => `  --markdown           prints Markdown for a comment on a pull request; long tables are cut, but
                       for --all
  --sarif              prints SARIF 2.1.0
  --annotations        prints GitHub's workflow commands, which mark lines of a pull request
  -o, --out FILE       where the report is written (default: on standard output)
  --baseline FILE      accepts the findings in the file, and reports those that no longer occur
  --save-baseline      writes the findings to the file of --baseline

  symdir ${command} ${folder} --markdown
  symdir ${command} ${folder} --sarif -o ${command}.sarif
  symdir ${command} ${folder} --annotations
  symdir ${command} ${folder} --baseline baseline.json --save-baseline
`;

/** @param {string} example words of a command that stays @returns {string} */
const watches = (example) => `  --watch              stays, and prints what differs when files change

  symdir ${example} --watch

`;

const STATUSES = 'Exit status: 0 no findings, 1 findings, 2 usage error, 3 failure.';

/** Of commands that look something up. */
/** @type {Record<string, string>} */
const LOOK_UPS = {
  where: STATUSES.replace('0 no findings, 1 findings', '0 definition found, 1 none'),
  uses: STATUSES.replace('0 no findings, 1 findings', '0 reference found, 1 none'),
  affected: STATUSES.replace('0 no findings, 1 findings', '0 no public name can change (with --check: did), 1 some'),
};

/** @type {Record<string, string>} what `--json` prints, by command: its keys, those with `?` not always; what is capital stands for another form */
const FORMS = {
  api: `{ entries, names: [{ entry, name, kind, defined: [PLACE], through: [{ file, text }],
    unresolved: [END] }], shared?: [{ module, name, owners: [{ file, through }] }],
    open: [{ entry, file, line, column, text, external, isLost? }],
    declared?: [{ entry, module }], unlisted?: [{ entry, why }] }
  with --docs each of \`names\` has isType, signature, doc and members: [{ name, kind, signature,
    doc, file, line, column }]; with --check that of \`diff\``,
  leaks: '{ entries, leaks: [{ name, kind, file, line, column, exported, neededBy: [name] }] }',
  missing: `{ missing: [{ what, file, line, column, text, how }], external: [specifier] }
  what: syntax, unread, file, package, name, shared`,
  where: `[{ name, at, ways: [{ through: [file], defined: PLACE or null, unresolved: END or null }] }]`,
  web: `{ entries, modules: [{ file, names }], edges: [{ from, to, star, names }],
    lost: [{ file, text, star }] }`,
  unused: `{ entries, files: [file], exports: [{ name, kind, file, line, column, inFile }], typesOnly,
    dependencies: [{ name, file, line, column, use }] }`,
  uses: '[{ name, defined: [PLACE], uses: [{ file, line, column, how, isType }] }]',
  diff: `{ advice, changes: [{ what, entry, name, from, to, advice, reason }] }
  advice: major, minor, patch; of no change null`,
  affected: `{ files: [file], names: [{ entry, name, kind, defined: [PLACE], unresolved: [END],
    change? }], lists: [entry], modules: [{ file, exports, definitions }] }
  change: added, removed; lists: entries that can gain or lose names
  by: { text, file, line, column }
  with --check also changes: [{ what, entry, name, from, to, advice, reason }], as \`diff\` has them,
  and others: how many there are of other names`,
  cycles: `{ cycles: [{ modules: [file], shortest: [STEP], cut: { ..STEP, opens, isSure } }], deferred }
  STEP: { from, to, statements: [{ file, line, column, how, text }] }`,
};

/** Commands that stay with `--watch`. */
const WATCHING = new Set(['api', 'leaks', 'missing']);
const REPORTING = new Set(['api', 'leaks', 'missing', 'unused', 'diff', 'cycles']);

/** @param {string} command @returns {string} */
function formText(command) {
  const form = FORMS[command];
  if (form === undefined) return '';
  const parts = [[/PLACE/, '  PLACE: { kind, file, line, column, by? }'], [/END/, '  END: { what, file, name, why? }; what: external, import, name, unknown, global']];
  const more = parts.filter(([it]) => /** @type {RegExp} */ (it).test(form)).map(([, text]) => `\n${text}`).join('');
  const baseline = REPORTING.has(command) ? '\n  with --baseline also baseline: { accepted, gone: [{ rule, file, name, count }] }' : '';
  const watched = WATCHING.has(command) ? '\n  with --watch a line each: { answer, faults, status }, then { files, removed, added, faults,\n    status } with what differs in these lists, or { files, failure, status }' : '';
  return `\n\nJSON:\n  ${form}${baseline}${more}${watched}`;
}

/** @type {Record<string, string>} */
const COMMANDS = {
  api: `symdir api DIR: public names, their kinds and definitions, and the \`export *\` they come through

  symdir api examples/shapes

  --save FILE          writes a snapshot of names, members and signatures, without line numbers
  --check FILE         compares with a snapshot, as \`symdir diff\` does; status 1 if it changed
  --docs               adds signatures as written and doc comments; with --json also members
  --html               prints a page with all of it and the picture of \`web\`, in one file
${watches('api examples/shop/new').trimEnd()}
  symdir api examples/shop/new --docs
  symdir api examples/shop/new --html -o api.html

${reports('api', 'examples/shop/new')}
${ASKING}`,
  leaks: `symdir leaks DIR: non-exported types that the public API references

Return types count if they are written. Private members don't count.

  symdir leaks examples/shop/new --entry cart.ts

  --all                lists all references
${watches('leaks examples/shop/new --entry cart.ts')}${reports('leaks', 'examples/shop/new --entry cart.ts')}
${ASKING}`,
  missing: `symdir missing DIR: unresolved imports and \`export *\`, imports of missing exports, syntax errors

A missing export is reported where a module is named that lacks it, and not where that leads by
a re-export. An unresolved \`export *\` is reported alone: which names it gives isn't known.

  symdir missing examples/shapes

  --all                doesn't truncate lists
${watches('missing examples/shapes')}${reports('missing', 'examples/shapes')}
${ASKING}`,
  where: `symdir where DIR FILE:LINE[:COLUMN] [NAME]: go to definition, with the modules in between

Without a column all names in the line are looked up. NAME selects one of them, as Foo or a.b.

  symdir where examples/shapes index.ts:4 Point

${ASKING}`,
  web: `symdir web DIR -o web.svg: a picture of which module re-exports which

An arrow leads from a module to the one whose names it re-exports, with their number. Thick, with a
filled head: \`export *\`. Thin, with an open head: names one by one. Modules of one directory that
are re-exported alike share a box and an arrow. Dashed boxes: unresolved. A click opens a file, and
hovering shows names.

  symdir web examples/shapes -o web.svg

  -o, --out FILE       the picture: .svg, .png, .pdf, or .dot, which needs no Graphviz
                       (default: Graphviz text on standard output)
${ASKING}`,
  unused: `symdir unused DIR: unused exports, unreachable files, unused dependencies

An export is used if an entry exports it, or another module imports or re-exports it. A namespace
import uses the names taken of it, and all names if it is passed on. Entries, tests and what
package.json runs are reachable.

  symdir unused examples/shop/new

  --production         ignores tests
  --all                doesn't truncate lists
${reports('unused', 'examples/shop/new')}
${ASKING}`,
  uses: `symdir uses DIR FILE:LINE[:COLUMN] [NAME]: find references: imports, re-exports and other uses

Without a column the names that the line declares are looked up, or else all names in it. A
default export without a name is called \`default\`.

  symdir uses examples/shop/new item.ts:4 Item

  --bodies             also searches function bodies
${ASKING}`,
  diff: `symdir diff OLD NEW: changes of public names, their members and signatures, and the version that
they require

OLD and NEW are directories, snapshots of \`api --save\` or Git revisions. REVISION:DIR names a
directory of one. Signatures are compared as written, and inferred types aren't compared.

  symdir diff examples/shop/old examples/shop/new

${reports('diff', 'examples/shop/old examples/shop/new')}
${ASKING}`,
  cycles: `symdir cycles DIR: import cycles, and the import to cut

Each group of modules that all import each other is shown with a shortest cycle. Cycles through
type-only imports or import() are listed apart, and aren't findings.

  symdir cycles examples/shop/new

  --all                doesn't truncate lists
${reports('cycles', 'examples/shop/new')}
${ASKING}`,
  affected: `symdir affected DIR FILE..: public names and answers that a change of the files can touch
symdir affected DIR --since REV: the same for the files that differ from a Git revision

A name rests on the modules of its paths, an answer on what symq's \`inputs\` say: a change of other
files can't touch it. A file that is there counts as edited, another one as deleted. With --since
it is known what each file was, and names whose paths and texts are the same are left out.
\`exports\`: what a module exports; \`definitions\`: where what it names is defined.

  symdir affected examples/shop/new item.ts

  --since REV          takes the files that differ from the revision, new ones too
  --check OLD          lists the changes of these names since OLD, as \`diff\` does: a directory, a
                       snapshot of \`api --save\` or a Git revision
  --all                doesn't truncate lists
${ASKING}`,
  graph: `symdir graph DIR [-o graph.json]: the graph that symq reads (default: on standard output)
symdir graph --check graph.json: why symq refuses a graph: module, node and key

  symdir graph --check examples/first/graph.json

  --bodies             includes function bodies, which no answer of symq depends on
${COMMON}
  --symq FILE          for --check: the program that is to read the graph`,
};

const ALL = `symdir: what a directory of TypeScript or JavaScript exports, and what it lacks

  symdir api DIR                                public names, their kinds and definitions
  symdir leaks DIR                              non-exported types that the public API references
  symdir missing DIR                            unresolved imports and missing exports
  symdir where DIR FILE:LINE[:COLUMN] [NAME]    go to definition
  symdir web DIR -o web.svg                     which module re-exports which, as a picture
  symdir unused DIR                             unused exports, files and dependencies
  symdir uses DIR FILE:LINE[:COLUMN] [NAME]     find references
  symdir diff OLD NEW                           API changes, and the version that they require
  symdir cycles DIR                             import cycles, and which import to cut
  symdir affected DIR FILE..                    public names that a change of files can touch
  symdir graph DIR -o graph.json                the graph alone, for symq

DIR/symdir.json, or "symdir" in package.json, sets options, for all commands or for one:

  { "skip": ["^fixtures/"], "unused": { "production": true, "baseline": "baseline.json" } }

The command line goes before it: \`--no-production\`, and \`--no-config\` for all of it.
\`symdir COMMAND --help\` lists the options, \`symdir --version\` prints the version.
${STATUSES}`;

/** @param {string} [command] one that there is @returns {string} */
export function help(command) {
  const found = command === undefined ? undefined : COMMANDS[command];
  return found ? `${found}${formText(command ?? '')}\n\n${LOOK_UPS[command ?? ''] ?? STATUSES}` : ALL;
}
