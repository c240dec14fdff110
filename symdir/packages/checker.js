// What TypeScript's own checker says that modules export: a process of its own, since it takes memory.
//   node checker.js FILE..    a line of JSON for each file: { file, names: { name: [[file, line, column] of each declaration's name] }, comments: [name] }
// where comments are the names that only comments of JavaScript declare, by `@typedef` and the like.
import { createRequire } from 'node:module';
import path from 'node:path';

import { findTypeScript } from '../lib/typescript.js';

const require = createRequire(import.meta.url);
/** @type {typeof import('typescript')} */
const ts = require(findTypeScript(process.cwd()).file);
const files = process.argv.slice(2).map((it) => path.resolve(it));
const program = ts.createProgram(files, {
  allowJs: true, noEmit: true, skipLibCheck: true, noLib: true, types: [], moduleResolution: ts.ModuleResolutionKind.NodeJs,
  target: ts.ScriptTarget.ESNext, module: ts.ModuleKind.ESNext, baseUrl: process.env.BASE, paths: process.env.BASE ? { '*': ['*'] } : undefined,
});
const checker = program.getTypeChecker();

/** @param {import('typescript').Declaration} declaration @returns {[string, number, number]} */
function placeOf(declaration) {
  const name = ts.getNameOfDeclaration(declaration) ?? declaration;
  const file = declaration.getSourceFile();
  const { line, character } = file.getLineAndCharacterOfPosition(name.getStart());
  return [file.fileName, line + 1, character + 1];
}

/** @param {import('typescript').Symbol} symbol @returns {boolean} whether tags of comments alone declare it */
function isInComment({ declarations = [] }) {
  return declarations.length > 0 && declarations.every((it) => ts.isJSDocTypedefTag(it) || ts.isJSDocCallbackTag(it) || ts.isJSDocEnumTag(it));
}

for (const file of files) {
  const source = program.getSourceFile(file);
  const symbol = source && checker.getSymbolAtLocation(source);
  const all = symbol ? checker.getExportsOfModule(symbol) : [];
  const names = Object.fromEntries(all.map((it) => {
    const target = it.flags & ts.SymbolFlags.Alias ? checker.getAliasedSymbol(it) : it;
    return [it.name, (target.declarations ?? []).map(placeOf)];
  }));
  process.stdout.write(`${JSON.stringify({ file, names, comments: all.filter(isInComment).map((it) => it.name) })}\n`);
}
