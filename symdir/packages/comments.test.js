// Holds doc comments of `symdir api --docs` to those that TypeScript's parser finds, on packages.
import assert from 'node:assert/strict';
import test from 'node:test';

import { Comments, partsOf, words } from '../tests/comments.js';
import { answer } from '../tests/helper.js';
import { PACKAGES, sourcesOf } from './sources.js';
import { languageOf } from './taken.js';

for (const it of PACKAGES) {
  test(`${it.name}: doc comments of names and members`, (t) => {
    const folder = sourcesOf(it);
    const comments = new Comments(folder, languageOf(folder, it));
    let count = 0;
    for (const { name, doc, defined, members } of answer(['api', folder, '--docs']).names) {
      const places = defined.filter((/** @type {any} */ place) => !place.by);
      assert.equal(words(doc), comments.wordsAt(places), `${name} ${JSON.stringify(defined)}`);
      for (const member of members) assert.equal(words(member.doc), comments.memberWords(member), `${name} ${member.name} ${member.file}:${member.line}`);
      // of one comment the text before its tags, and their names, are as TypeScript reads them; some versions of it take an `@` within a line for a tag, too
      for (const one of [...places.slice(0, 1).map((/** @type {any} */ place) => ({ ...place, name, doc })), ...members]) {
        if (words(one.doc) === comments.wordsAt([one]) && !/\S[ \t]+@\w/.test(one.doc)) assert.deepEqual(partsOf(one.doc), comments.at(one), `${one.name} ${one.file}:${one.line}`);
      }
      count += members.length + places.length;
    }
    t.diagnostic(`${count} declarations`);
    assert.ok(count > 50);
  });
}
