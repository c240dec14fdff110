// Doc comments as TypeScript's parser finds them, to hold those of `symdir api --docs --json` to.
import { readFileSync } from 'node:fs';
import path from 'node:path';

import { ts } from './language.js';

/** @typedef {import('typescript').Node} Node */
/** @typedef {{ file: string, line: number, column: number, by?: object }} Place */

/** @param {import('typescript').SourceFile} source @param {number} at @returns {Node} the innermost node that starts there, or around it */
function nodeAt(source, at) {
  /** @type {Node} */
  let found = source;
  /** @param {Node} node */
  const visit = (node) => {
    if (node.getStart(source) > at || node.end <= at) return;
    found = node;
    ts.forEachChild(node, visit);
  };
  ts.forEachChild(source, visit);
  return found;
}

/** @param {Node} name @returns {Node} what is declared by it */
function declarationOf(name) {
  let at = name;
  while (ts.isIdentifier(at) || ts.isStringLiteral(at) || ts.isComputedPropertyName(at) || ts.isBindingElement(at) || ts.isBindingName(at)) at = at.parent;
  return at;
}

/** @param {Node} node @returns {Node} what its comment stands before */
function commented(node) {
  const { parent } = node;
  const isFirst = ts.isVariableDeclaration(node) && ts.isVariableDeclarationList(parent) && parent.declarations[0] === node && ts.isVariableStatement(parent.parent);
  return isFirst ? parent.parent : node;
}

/** @param {string} text @returns {string} of the same words alike */
export function words(text) {
  return text.replace(/\s+/g, ' ').replaceAll(' }', '}').trim();
}

/** @param {Node} node @returns {import('typescript').JSDoc | undefined} its comment: of several the last */
function docOf(node) {
  return /** @type {any} */ (commented(node)).jsDoc?.at(-1);
}

/** @param {import('typescript').JSDocTag} tag @returns {string[]} its name, and those of tags for the properties of what it tells of */
function tagNames(tag) {
  /** @type {import('typescript').JSDocTag[]} */
  const inner = /** @type {any} */ (tag).typeExpression?.type?.jsDocPropertyTags ?? [];
  return [tag.tagName.text, ...inner.flatMap(tagNames)];
}

/** @param {Node} node @returns {{ text: string, tags: string[] }} the text before tags, and the tags' names */
function commentOf(node) {
  const doc = docOf(node);
  return { text: words(ts.getTextOfJSDocComment(doc?.comment) ?? ''), tags: (doc?.tags ?? []).flatMap(tagNames) };
}

/** @param {Node} node @returns {string} all words of its comment, those of tags too */
function wordsOf(node) {
  const doc = docOf(node);
  return doc ? words(doc.getSourceFile().text.slice(doc.pos + '/**'.length, doc.end - '*/'.length).replace(/^[ \t]*\*/gm, '')) : '';
}

/** @param {Node[]} declarations @returns {string} the words of their comments, each once */
function joined(declarations) {
  return [...new Set(declarations.map(wordsOf).filter((it) => it !== ''))].join(' ');
}

export class Comments {
  /** @param {string} folder @param {import('./language.js').Language} [language] over its files, which knows all declarations of a name */
  constructor(folder, language) {
    this.folder = folder;
    this.language = language;
    /** @type {Map<string, import('typescript').SourceFile>} */
    this.files = new Map();
  }

  /** @param {string} file @returns {import('typescript').SourceFile} */
  source(file) {
    const whole = path.join(this.folder, file);
    const source = this.files.get(file) ?? this.language?.program.getSourceFile(whole) ?? ts.createSourceFile(file, readFileSync(whole, 'utf8'), ts.ScriptTarget.Latest, true);
    this.files.set(file, source);
    return source;
  }

  /** @param {Place} place of a name @returns {Node} what is declared by it */
  declaration({ file, line, column }) {
    const source = this.source(file);
    return declarationOf(nodeAt(source, source.getPositionOfLineAndCharacter(line - 1, column - 1)));
  }

  /** @param {Place} place of a name @returns {{ text: string, tags: string[] }} */
  at(place) {
    return commentOf(this.declaration(place));
  }

  /** @param {Place[]} places of a name @returns {string} the words of its comments, each once */
  wordsAt(places) {
    return joined(places.map((it) => this.declaration(it)));
  }

  /** @param {Place} place of the name of a member @returns {string} the words of the comments of all its declarations, as overloads, or a getter and its setter, each once */
  memberWords(place) {
    const declaration = this.declaration(place);
    return joined(/** @type {any} */ (declaration).symbol?.declarations ?? [declaration]);
  }
}

/** @param {string} doc of ours @returns {{ text: string, tags: string[] }} */
export function partsOf(doc) {
  const [text] = doc.split(/^\s*@\w/m);
  return { text: words(text), tags: [...doc.matchAll(/^\s*@(\w+)/gm)].map(([, tag]) => tag) };
}
