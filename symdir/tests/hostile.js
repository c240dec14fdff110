// A folder whose names, paths and comments try to break out of what they are written into.

/** In HTML, Markdown, workflow commands and JSON each of these means something. */
export const TEXT = '</script><script>alert(1)</script> <img src=x onerror=alert(2)> | `tick` ``x`` *b* _i_ [l](http://a.b) &amp; %0A::error:: ${x} \\ @someone #12 ]]> --> \u202e';
/** A name of a file, with all that file systems take. */
export const FILE = 'a|`b,c:%0A<i>"\'&\n# d.ts';
/** Another, that nothing imports. */
export const LEFT = 'left,%0A|`<b>:\\.ts';
/** A name of an export, in quotes as JavaScript has it. */
export const EXPORTED = '</script>|`*_[x](y)::error::%0A,<b>';
/** A name of a member, and a part of a path. */
export const NAME = '</script>|`*_\n::error::%0A,"\\<b>';

/** @type {Record<string, string>} */
export const FILES = {
  'index.ts': `/** ${TEXT}
 * second line */
export const first: "</style>|\`" = null!;
const second = 1;
export { second as ${JSON.stringify(EXPORTED)} };
export * from ${JSON.stringify(`./${FILE}`)};
export * from ${JSON.stringify(`./gone/${NAME}`)};
`,
  [FILE]: `/** ${TEXT} */\nexport class Odd { /* */\n/** ${TEXT} */\n[${JSON.stringify(NAME)}]: Hidden; }\ninterface Hidden { a: 1 }\n`,
  [LEFT]: 'export const left = 1;\n',
};
