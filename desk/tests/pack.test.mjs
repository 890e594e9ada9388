/** Packing: word for word the oracle's images, and the kinds that are stored for the same texts. */
import assert from 'node:assert/strict';
import { readFileSync } from 'node:fs';
import { after, test } from 'node:test';
import { Engine } from '../src/engine.mjs';
import { NONE } from '../src/image.mjs';
import { PackError, pack } from '../src/pack.mjs';
import { projectOf, schemaOf } from './support/checked.mjs';

const PEERS = new URL('../../compare/peers/', import.meta.url);
const engine = new Engine();
after(() => engine.stop());

/** One unit of all that a text defines, as the oracle packs it. */
function packed(schema, text, mended) {
  const project = projectOf(text);
  const unit = { operations: project.definitions('OperationDefinition'), fragments: project.definitions('FragmentDefinition') };
  return pack(schema, unit, project.target, mended?.(unit));
}

const schema = schemaOf(readFileSync(new URL('schema.graphql', PEERS), 'utf8'));
const images = new Map(readFileSync(new URL('../stored/images.jsonl', import.meta.url), 'utf8').trimEnd().split('\n').map((line) => {
  const { name, words } = JSON.parse(line);
  return [name, words];
}));

for (const block of readFileSync(new URL('texts.txt', PEERS), 'utf8').split('== ').slice(1)) {
  const [head, ...lines] = block.split('\n');
  const [name, , kind] = head.split('|').map((part) => part.trim());
  test(`the oracle's image, and kind ${kind}: ${name}`, async () => {
    const { words } = packed(schema, lines.join('\n'));
    assert.deepEqual([...words], images.get(name));
    assert.equal((await engine.ask(words, 1000)).kind, Number(kind));
  });
}

test('the specimen {a}, but for the numbers of its names', () => {
  const { words } = packed(schemaOf('type Query { a: Int }'), '{a}');
  assert.deepEqual([...words], [1, 42, 2, 20, 1, 24, 1, 26, 0, 30, 1, 30, 1, 33, 0, 42, 0, 42, 0, 42, 1, 0, 2, 1, 0, 0, 0, 0, 0, 0, 1, 0, 1, 0, 3, 3, 0, 0, 0, NONE, 0, 0]);
});

test('a field with another response name changes its own row only', () => {
  const small = schemaOf('type Query { a: Int b: Int }');
  const plain = packed(small, '{v: a v: b}');
  const mended = packed(small, '{v: a v: b}', (unit) => new Map([[unit.operations[0].selectionSet.selections[1], 'w']]));
  assert.equal(plain.words.length, mended.words.length);
  assert.equal(mended.selections[1].response, 'w');
  const differing = [...plain.words.keys()].filter((i) => plain.words[i] !== mended.words[i]);
  assert.ok(differing.length && differing.every((i) => i >= mended.words.length - 9));
});

test('what does not fit the schema has no image', () => {
  const small = schemaOf('type Query { a: Int }');
  for (const text of ['{b}', '{a(x: 1)}', '{a @never}', '{...F}', 'query($v: Nothing) {a}', 'mutation {a}', '{a {b}}', 'fragment F on Int {a}']) {
    assert.throws(() => packed(small, text), PackError, text);
  }
});
